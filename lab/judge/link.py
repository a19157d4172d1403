"""A link of two ends: its states, its events, its law, and the search through all of them."""
from __future__ import annotations

import functools
import itertools
from collections import deque
from typing import Callable, Iterable, Iterator, NamedTuple, Optional, Tuple

from judge.ends import End, Left

# A label and the number of an item; strays have negative numbers.
Frame = Tuple[int, int]
# The frames and the acknowledgements on the line, the front first; what the sender and the receiver
# remember, each by a number; how many items were offered, and how many of them count as
# acknowledged; the last item that was delivered; and how many of the first may be missing.
State = Tuple[Tuple[Frame, ...], Tuple[int, ...], int, int, int, int, int, int]
# What happens, and the place of what is lost.
Event = Tuple[str, Optional[int]]
ROUND: tuple[Event, ...] = (("offer", None), ("send_frame", None), ("recv_frame", None),
                            ("send_ack", None), ("recv_ack", None))


class Broken(NamedTuple):
    """The state after an event that breaks the law, and why."""
    state: State
    why: str


class Finding(NamedTuple):
    """A run that breaks the law."""
    start: State
    events: list[Event]
    why: str


def lower(number: int) -> int:
    """The number of an item where all are counted down by one; the oldest two are one then."""
    return max(0, number - 1) if number > 0 else number


class Link:
    """Two ends and the line between them: its states, its events and its law."""

    def __init__(self, sender: End, receiver: End, labels: int, capacity: int, misses: bool):
        self.sender, self.receiver, self.labels = sender, receiver, sender.labels
        self.capacity, self.most_missing = capacity, 2 * capacity + 1 if misses else 0
        # the items on the line at the start have the numbers from -capacity on; this is one of an
        # earlier run, which lay not there
        self.oldest = -capacity - 1
        # where more items than these are acknowledged, all numbers are counted down by one
        self.most_acked = max(1, self.most_missing)
        # the items that counted as acknowledged before they were delivered
        self.early: set[int] = set()
        self.known_rounds: dict[State, int | None] = {}
        # the memories that the ends are made with, each with its label
        self.begun: dict[str, dict[int, int]] = {"sender": {}, "receiver": {}}
        for end, label in itertools.product((sender, receiver), self.labels):
            self.begun[end.name].setdefault(end.made(labels, label), label)
        self.moves: list[tuple[Event, Callable[[State], State | Broken]]] = [
            (("offer", None), self.offer), (("send_frame", None), self.send_frame),
            (("recv_frame", None), self.recv_frame),
            (("recv_frame_keep", None), functools.partial(self.recv_frame, leaves=0)),
            (("send_ack", None), self.send_ack), (("recv_ack", None), self.recv_ack),
            (("recv_ack_keep", None), functools.partial(self.recv_ack, leaves=0))]
        for queue, name in enumerate(("lose_frame", "lose_ack")):
            self.moves += [((name, place), functools.partial(self.lose, queue=queue, place=place))
                           for place in range(capacity)]
        self.by_event = dict(self.moves)

    # the starts

    def memories(self) -> tuple[list[Left], list[Left]]:
        """All that any messages and offers leave in the sender, and in the receiver."""
        sender, receiver = self.sender, self.receiver

        def after_sender(memory: int, has: bool) -> Iterator[Left]:
            took, then = sender.call(memory, "offer", 0)
            if not (took and has):
                yield then, has or took
            yield sender.call(memory, "send")[1], has
            for label in self.labels:
                done, then = sender.call(memory, "ack", label)
                if has or not done:
                    # (what it keeps of an acknowledged item is old)
                    yield (sender.renumbered(then, self.as_old) if done else then,
                           has and not done)

        def after_receiver(memory: int, _: bool) -> Iterator[Left]:
            yield receiver.call(memory, "acknowledge")[1], False
            for label in self.labels:
                yield receiver.call(memory, "frame", label, self.oldest)[1], False

        return (sender.left(self.begun["sender"], after_sender),
                receiver.left(self.begun["receiver"], after_receiver))

    def as_old(self, _: int) -> int:
        return self.oldest

    def starts(self, senders: Iterable[Left], receivers: Iterable[Left]) -> Iterator[State]:
        """Every start of a full line with these memories, idle senders first."""
        lines = list(itertools.product(self.labels, repeat=self.capacity))
        senders = sorted(senders, key=lambda one: one[1])
        for (sender, has), (receiver, _) in itertools.product(senders, receivers):
            free = max(self.most_missing, int(has))
            for labels, acks in itertools.product(lines, lines):
                frames = tuple(zip(labels, range(-self.capacity, 0)))
                yield frames, acks, sender, receiver, int(has), 0, self.oldest, free

    # the events

    def offer(self, state: State) -> State | Broken:
        frames, acks, sender, receiver, offered, acked, last, free = state
        took, sender = self.sender.call(sender, "offer", offered)
        then = frames, acks, sender, receiver, offered + took, acked, last, free
        if took and offered > acked:
            return Broken(then, "an item was taken while another one waits for its acknowledgement")
        return then

    def send_frame(self, state: State) -> State:
        frames, acks, sender, receiver, offered, acked, last, free = state
        frame, sender = self.sender.call(sender, "send")
        if frame is not None and len(frames) < self.capacity:
            frames += (frame,)
        return frames, acks, sender, receiver, offered, acked, last, free

    def recv_frame(self, state: State, leaves: int = 1) -> State | Broken:
        frames, acks, sender, receiver, offered, acked, last, free = state
        if not frames:
            return state
        given, receiver = self.receiver.call(receiver, "frame", *frames[0])
        newest = last if given is None else given
        then = frames[leaves:], acks, sender, receiver, offered, acked, newest, free
        if given is None or given > last:
            return then
        if given == self.oldest:
            return Broken(then, "an item is delivered that was not offered, nor on the line at the "
                                "start")
        if given >= 0:
            return Broken(then, "an item comes twice, or out of order")
        return Broken(then, "a stray comes after an item" if last >= 0 else
                      "there are more strays than frames of the start, or in another order")

    def send_ack(self, state: State) -> State:
        frames, acks, sender, receiver, offered, acked, last, free = state
        ack, receiver = self.receiver.call(receiver, "acknowledge")
        if ack is not None and len(acks) < self.capacity:
            acks += (ack,)
        return frames, acks, sender, receiver, offered, acked, last, free

    def recv_ack(self, state: State, leaves: int = 1) -> State | Broken:
        frames, acks, sender, receiver, offered, acked, last, free = state
        if not acks:
            return state
        done, sender = self.sender.call(sender, "ack", acks[0])
        then = frames, acks[leaves:], sender, receiver, offered, acked + done, last, free
        if done:
            if acked == offered:
                return Broken(then, "an acknowledgement counts though no item waits for one")
            if last != acked:
                if acked >= free:
                    why = f"item {acked} counts as acknowledged and was not delivered"
                    if self.most_missing:
                        why += f", and it is not among the first {free}"
                    return Broken(then, why)
                if self.most_missing:
                    self.early.add(acked)
        return then

    def lose(self, state: State, queue: int, place: int) -> State:
        entries = state[queue]
        if place >= len(entries):
            return state
        entries = entries[:place] + entries[place + 1:]
        return (entries, *state[1:]) if queue == 0 else (state[0], entries, *state[2:])

    def nearest(self, state: State) -> State:
        """The state with its items counted down, once no more of them may be missing: older ones
        may come no more, whatever their number."""
        if state[5] <= self.most_acked:
            return state
        frames, acks, sender, receiver, offered, acked, last, free = state
        return (tuple([(label, lower(number)) for label, number in frames]), acks,
                self.sender.renumbered(sender, lower), self.receiver.renumbered(receiver, lower),
                offered - 1, acked - 1, last - 1, free)

    def round(self, state: State) -> tuple[State, bool]:
        """The state after a round, and whether an item more counts as acknowledged. (The law is
        not broken in it: all events were tried before.)"""
        sent = self.send_ack(self.recv_frame(self.send_frame(self.offer(state))))
        then = self.recv_ack(sent)
        return self.nearest(then), then[5] > sent[5]

    def rounds(self, state: State) -> int | None:
        """After how many rounds an item more counts as acknowledged; None where it never does."""
        known, passed = self.known_rounds, []
        more = False
        while not more and state not in known:
            passed.append(state)
            known[state] = None
            state, more = self.round(state)
        count = 0 if more else known[state]
        for one in reversed(passed):
            count = None if count is None else count + 1
            known[one] = count
        return count

    def course(self, state: State) -> tuple[dict[State, bool], State]:
        """The states after rounds from here on, each with whether its next round brings an item
        more; and the first of them that comes again."""
        passed: dict[State, bool] = {}
        while state not in passed:
            then, passed[state] = self.round(state)
            state = then
        return passed, state

    def exchanges(self) -> float:
        """How many rounds an item takes at last, where nothing is lost."""
        sender, receiver = next(iter(self.begun["sender"])), list(self.begun["receiver"])[-1]
        passed, again = self.course(((), (), sender, receiver, 0, 0, self.oldest,
                                     self.most_missing))
        brought = list(passed.values())[list(passed).index(again):]
        return len(brought) / sum(brought)


class Search:
    """All states of a link that can be reached, each with the one before it."""

    def __init__(self, link: Link, most_states: int):
        self.link, self.most_states = link, most_states
        self.before: dict[State, State | None] = {}
        # after how many rounds at most an item more counts as acknowledged
        self.most_rounds = 0
        # whether all states were visited, and otherwise all that are so many events from a start
        self.whole, self.depth = True, 0

    def events_to(self, state: State) -> tuple[State, list[Event]]:
        """The start, and the events from it to a state."""
        events: list[Event] = []
        while (before := self.before[state]) is not None:
            for event, move in self.link.moves:
                then = move(before)
                if not isinstance(then, Broken) and self.link.nearest(then) == state:
                    events.append(event)
                    break
            state = before
        return state, events[::-1]

    def visit(self, starts: Iterable[State]) -> Finding | None:
        """Visits what is reached from these starts, and was not before; answers a shortest run that
        breaks the law, if there is one."""
        link, before = self.link, self.before
        moves, most_acked = [move for _, move in link.moves], link.most_acked
        first, self.depth = len(before), 0
        todo: deque[State] = deque()
        for state in starts:
            if state not in before:
                before[state] = None
                todo.append(state)
            if len(before) > self.most_states:
                self.whole = False
                return None
        same_depth = len(todo)
        while todo:
            if same_depth == 0:
                self.depth, same_depth = self.depth + 1, len(todo)
            same_depth -= 1
            state = todo.popleft()
            for move in moves:
                then = move(state)
                if then.__class__ is Broken:
                    start, events = self.events_to(state)
                    events.append(link.moves[moves.index(move)][0])
                    # (once more, with the true numbers of the items)
                    then = functools.reduce(lambda at, event: link.by_event[event](at), events,
                                            start)
                    return Finding(start, events, then.why)
                if then[5] > most_acked:
                    then = link.nearest(then)
                if then not in before:
                    before[then] = state
                    todo.append(then)
            if len(before) > self.most_states:
                self.whole = False
                return None
        return self.stuck(itertools.islice(before, first, None))

    def stuck(self, states: Iterable[State]) -> Finding | None:
        """A run after which rounds without a loss bring no more, or too late."""
        link = self.link
        most = link.most_missing or None
        for state in states:
            count = link.rounds(state)
            if count is None or most and count > most:
                start, events = self.events_to(state)
                # (without a bound they go on until all is as it was before)
                count = most or len(link.course(state)[0])
                return Finding(start, events + self.in_rounds(state, count),
                               f"in the last {count} rounds nothing was lost, and no item counts "
                               "as acknowledged")
            self.most_rounds = max(self.most_rounds, count)
        return None

    def in_rounds(self, state: State, count: int) -> list[Event]:
        """The events of so many rounds from here, without arrivals where nothing is on the line."""
        events = []
        for event in ROUND * count:
            queue = {"recv_frame": 0, "recv_ack": 1}.get(event[0])
            if queue is None or state[queue]:
                events.append(event)
            state = self.link.by_event[event](state)
        return events
