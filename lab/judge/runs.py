"""A run that breaks the law, as a reader sees it, and as the page draws it."""
from __future__ import annotations

import base64
import html
import json
from pathlib import Path
from typing import NamedTuple

from judge.link import Broken, Event, Finding, Frame, Link, State

# What is shown of the items of the start, from this number on. Offered items have numbers from 0.
STRAY = 90
PAGE = Path(__file__).resolve().parent.parent.parent / "page/index.html"


class Step(NamedTuple):
    """A moment of a run: the event before it, what is said of it, what the page calls its effect,
    and the state and all that was delivered after it."""
    event: Event
    said: str
    effect: str
    state: State
    delivered: tuple[int, ...]


class Run:
    """A run with the true numbers of its items."""

    def __init__(self, link: Link, finding: Finding):
        self.link, self.start, self.why = link, finding.start, finding.why
        state, delivered = finding.start, ()
        self.steps = [Step(("start", None), "the start.", "", (*state[:4], 0, *state[5:]), ())]
        if state[4]:
            # (the page draws this as an item that is offered first)
            self.steps.append(Step(("offer", None), "item 0 is with the sender since the start",
                                   "Held", state, ()))
        for event in finding.events:
            then = link.by_event[event](state)
            after = then.state if isinstance(then, Broken) else then
            said, effect, given = self.said(event, state, after)
            state, delivered = after, delivered + given
            self.steps.append(Step(event, said, effect, state, delivered))

    def said(self, event: Event, state: State,
             then: State) -> tuple[str, str, tuple[int, ...]]:
        """What is said of an event, its effect, and what it delivers."""
        link, (name, place) = self.link, event
        frames = [f"frame {self.frame(one)}" for one in state[0]]
        acks = [f"acknowledgement {one}" for one in state[1]]
        stays = ", and stays" * name.endswith("_keep")
        if name == "offer":
            took = then[4] > state[4]
            return (f"item {state[4]} is offered" + ", and refused" * (not took),
                    "Held" if took else "Nothing", ())
        if name == "send_frame":
            frame, _ = link.sender.call(state[2], "send")
            return self.sent("sender", frame and f"frame {self.frame(frame)}", frames)
        if name == "send_ack":
            ack, _ = link.receiver.call(state[3], "acknowledge")
            return self.sent("receiver", None if ack is None else f"acknowledgement {ack}", acks)
        if name.startswith("recv_frame"):
            given, _ = link.receiver.call(state[3], "frame", *state[0][0])
            said = f"{frames[0]} arrives{stays}"
            if given is None:
                return said, "Old", ()
            return f"{said}: {self.item(given)} is delivered", "Fresh", (given,)
        if name.startswith("recv_ack"):
            said = f"{acks[0]} arrives{stays}"
            if then[5] == state[5]:
                return said, "Ignored", ()
            return f"{said}: item {state[5]} counts as acknowledged", "Acked", ()
        return f"{(frames if name == 'lose_frame' else acks)[place or 0]} is lost", "Lost", ()

    def sent(self, end: str, what: str | None, queue: list[str]) -> tuple[str, str, tuple]:
        """What is said of something that is sent."""
        if what is None:
            return f"the {end} sends nothing", "Nothing", ()
        if len(queue) < self.link.capacity:
            return f"{what} is sent", "Sent", ()
        return f"{what} is sent, and lost", "Lost", ()

    def item(self, number: int) -> int:
        """The number of an item as it is shown."""
        if number == self.link.oldest:
            return STRAY + self.link.capacity
        return number if number >= 0 else STRAY + self.link.capacity + number

    def frame(self, frame: Frame) -> Frame:
        return frame[0], self.item(frame[1])

    def text(self) -> str:
        """The run in words, an event in a line."""
        link, (frames, acks, *memories) = self.link, self.start[:4]
        ends = list(zip((link.sender, link.receiver), memories))
        remembered = ", ".join(f"{end.name} {end.shown(memory, self.item)}" for end, memory in ends)
        left = [end.name for end, memory in ends if memory not in link.begun[end.name]]
        lines = [f"BROKEN after {len(self.steps) - 1} events: {self.why}",
                 f"start: frames {[self.frame(one) for one in frames]}, acknowledgements "
                 f"{list(acks)}, {remembered}"]
        if left:
            lines.append(f"(The {' and the '.join(left)} is not made so: an earlier run left this, "
                         "or MAY_BE lists it.)")
        for place, step in enumerate(self.steps[1:], 1):
            lines.append(f"{place:3}  {step.said:56}  "
                         f"frames {[self.frame(one) for one in step.state[0]]}  "
                         f"acknowledgements {list(step.state[1])}  "
                         f"delivered {[self.item(one) for one in step.delivered]}")
        return "\n".join(lines)

    def labels(self) -> tuple[int, int]:
        """The labels with which the ends begin, or which they send where they are spoilt."""
        link, (sender, receiver) = self.link, self.start[2:4]
        offered = link.sender.call(sender, "offer", 0)[1]
        sent = link.sender.call(sender, "send")[0] or link.sender.call(offered, "send")[0]
        ack = link.receiver.call(receiver, "acknowledge")[0]
        return (link.begun["sender"].get(sender, sent[0] if sent else 0),
                link.begun["receiver"].get(receiver, 65535 if ack is None else ack))

    def job(self, labels: int) -> dict:
        """The start and the events, as the page plays them by the right protocol."""
        send, recv = self.labels()
        events: list = []
        for before, (event, *_) in zip(self.steps, self.steps[1:]):
            name, place = event
            number = before.state[4] if name == "offer" else place
            events.append(name if number is None else [name, number])
        return {"capacity": self.link.capacity, "labels": labels,
                "start": {"frames": [self.frame(one) for one in self.start[0]],
                          "acks": self.start[1], "send": send, "recv": recv}, "events": events}

    def rows(self) -> list[list]:
        """What these ends did, and nothing else: a row for each moment, as the page draws it."""
        rows = []
        for _, said, effect, state, delivered in self.steps:
            frames, acks, sender, receiver, offered, acked = state[:6]
            sent, _ = self.link.sender.call(sender, "send")
            ack, _ = self.link.receiver.call(receiver, "acknowledge")
            rows.append([sent and sent[0], ack, acked, offered,
                         [self.frame(one) for one in frames], acks,
                         [self.item(one) for one in delivered], effect, said[0].upper() + said[1:]])
        return rows

    def page(self, labels: int) -> str:
        """A page that says the run, and has the page of the repository draw it."""
        def link(word: str, what: dict, text: str) -> str:
            packed = base64.urlsafe_b64encode(json.dumps(what).encode()).decode().rstrip("=")
            return f'<p><a href="{PAGE.as_uri()}#{word}={packed}">{text}</a></p>\n'

        drawn = {"job": self.job(labels), "rows": self.rows()}
        return ('<!DOCTYPE html>\n<html lang="en">\n<meta charset="utf-8">\n'
                "<title>A run that breaks the law of a link</title>\n"
                + link("run", drawn, "This run, drawn")
                + link("job", self.job(labels), "The same start and events with right ends")
                + f"<pre>{html.escape(self.text())}</pre>\n</html>\n")
