#!/usr/bin/env -S python3 -B
"""Faults in the memory of running agents, and whether their trees come back from each of them.

    tests/daemon/memory_faults.py [--trials 100] [--seed 1] [--trees 3] [--loss PERCENT]
        [KIND or KIND:NUMBER..]

While one of four agents is stopped, something is written into its memory: a bit, a byte, a word or
64 bytes anywhere in the heap, something in the data or on a stack, or it is aimed: at the agent
itself, at what lies about an end of a link, about a name, at a time or a number, at OpenSSL, a
descriptor, a bool, a length, a count. Half of the trees speak TLS, in half agents have second
parents. An agent that ends or hangs is started again, as systemd would, and often a neighbour is.
At once `wait` and `tree` say nothing that is not so, and no stranger is answered (open). After two
rounds, and within two minutes, since a machine may have much else to do, each agent has applied
what the root's folder has, also after one more change, and `tree`, `wait` and each `status` say so.
What never comes to be so is stuck, or, where the folders alone are right, wrong that lasts.
"""
import array
import collections
import concurrent.futures
import contextlib
import os
import pathlib
import random
import re
import socket
import ssl
import struct
import sys
import time

from daemons import PATIENCE, Tree, by_tls, counting, of_tree, root_has, until
from memory import stopped, writable
from parents import also
from protocol import hello, look
from relay import lose
from roots import two
from runner import options, sure, test

# An agent that says no sign for as long as HANGS hangs.
ROUND, LONG, HANGS = 0.5, 120.0, 6.0
SHAPE = {"hub": "root", "one": "hub", "two": "hub"}
# What may be the name of a setting.
KEY = re.compile(r"[A-Za-z0-9_][A-Za-z0-9._-]{0,127}")
# What is done to a tree of each kind before it starts.
SECOND = also("one", "root"), also("two", "root")
TREES = {"plain": [], "tls": [by_tls, *SECOND], "parents": SECOND, "roots": [by_tls, two]}
# How often another fault follows, a neighbour is restarted, and the last change is published.
MORE, AGAIN, PUBLISHED = 0.15, 0.4, 0.3
# How far about a place that is known something is aimed at, in bytes, and mostly.
ABOUT, NEAR = 256, 64
# The parameters of a link of an agent, capacity 1 and 255 labels; and stacks lie past this.
PARAMETERS, HEAPS = re.escape(struct.pack("<HH", 1, 255)), 0x7f << 40


def stack_of(task):
    """How far down the stack of a thread is used."""
    try:
        return int((task / "syscall").read_text().split()[-2], 16)
    except (OSError, IndexError, ValueError):
        return -1


class Memory:
    """What a stopped process may write, by what it is for."""

    def __init__(self, process, memory):
        self.process, self.pieces = process, []
        tops = [stack_of(task) for task in pathlib.Path(f"/proc/{process}/task").iterdir()]
        last = "", 0
        for start, end, name in writable(process):
            kind = "heap" if name == "[heap]" else None
            top = [top for top in tops if start <= top < end]
            # (what a file has no bytes for follows it without a name)
            name = name or last[0] * (last[1] == start)
            last = name, end
            if top:
                kind, start = "stack", min(top) & ~7
            elif name.startswith("/"):
                kind = "data"
            if kind:
                self.pieces.append((kind, start, os.pread(memory, end - start, start)))

    def found(self, pattern):
        """Where this is found, in the heap and on stacks."""
        return sorted(start + it.start() for kind, start, piece in self.pieces if kind != "data"
                      for it in re.finditer(pattern, piece, re.S))

    def words(self, numbers):
        """Where one of these numbers is."""
        pattern = b"|".join(re.escape(struct.pack("<Q", number)) for number in numbers)
        return [place for place in self.found(pattern) if place % 8 == 0] if pattern else []

    def at(self, place, length):
        for _, start, piece in self.pieces:
            if start <= place and place + length <= start + len(piece):
                return piece[place - start:place - start + length]
        return None

    def word(self, place):
        return int.from_bytes(self.at(place, 8) or b"", "little")

    def pointers(self):
        """Where there are pointers into the heap, with what they point to."""
        low, high = [(at, at + len(piece)) for kind, at, piece in self.pieces if kind == "heap"][0]
        return [(start + 8 * at, word) for kind, start, piece in self.pieces if kind != "data"
                for at, word in enumerate(array.array("Q", piece)) if low <= word < high]

    def lists(self):
        """Where the pointer of a list is: its capacity and its length are about it."""
        return [place for place, word in self.pointers() if word % 8 == 0
                and 0 < self.word(place + 8) <= self.word(place - 8) < 1 << 20]

    def ends(self):
        """Where the ends of links are on stacks: the agent lies there, with those of its own."""
        return [place for place in self.found(PARAMETERS) if place > HEAPS]

    def names(self):
        """Where there is a pointer to the name of an agent."""
        return self.words({place for name in ["root", *SHAPE]
                           for place in self.found(re.escape(name.encode()))})

    def times(self):
        """Where there is a time of the monotonic clock: seconds near now, and nanoseconds."""
        now, places = int(time.monotonic()), []
        for place in self.words(range(now - 120, now + 120)):
            after = self.at(place + 8, 4)
            if after and 1_000 <= struct.unpack("<I", after)[0] < 1_000_000_000:
                places.append(place)
        return places

    def numbers(self, status):
        """Where there is a number that the agent says of itself."""
        said = {status[key] for key in ("sequence", "applied", "round", "changed", "received",
                                        "limit")}
        said |= {it[key] for it in status["children"] for key in ("reconnects", "acknowledged")}
        return self.words(number for number in said if number > 1)

    def anywhere(self, draw, kind):
        """A place in this kind of memory: mostly one where something is."""
        pieces = [(start, piece) for of, start, piece in self.pieces if of == kind]
        for _ in range(16):
            start, piece = draw.choices(pieces, [len(piece) for _, piece in pieces])[0]
            at = draw.randrange(len(piece) // 8) * 8
            if any(piece[at:at + 8]):
                break
        return start + at


def spoiled(old, draw):
    """Another value in the place of these bytes."""
    length, number = len(old), int.from_bytes(old, "little")
    most = 1 << 8 * length
    new = draw.choice([
        number ^ 1 << draw.randrange(8 * length), 0, 1, most - 1, number + 1, number - 1,
        draw.randrange(most), draw.randrange(256), number | 1 << min(40, 8 * length - 1)])
    return (new % most).to_bytes(length, "little")


def each_link(memory, number, *_):
    """Of the words about the ends of links, each in its turn, and what it becomes."""
    number, how = divmod(number, 3)
    ends = [it for it in memory.found(PARAMETERS) if it < HEAPS]
    where, at = divmod(number, 2 * NEAR // 8)
    place = (ends[where % len(ends)] & ~7) - NEAR + 8 * at
    return (place + 4, bytes(4)) if how == 2 else (place, [bytes(8), b"\xff" * 8][how])


def each_time(memory, number, *_):
    """Each of the times in its turn, and one that comes in years."""
    places = memory.times()
    return places[number % len(places)], struct.pack("<q", int(time.monotonic()) + 10**9)


def each_number(memory, number, status, *_):
    """Each of the numbers of bodies in its turn, and one half of all numbers away: since they are
    on a circle, neither of the two is newer."""
    places = memory.words({status[key] for key in ("sequence", "applied", "round", "changed")})
    place = places[number % len(places)]
    return place, struct.pack("<Q", memory.word(place) ^ 1 << 63)


def of_tls(memory, draw, agent):
    """Something that TLS is made by: what lies about a pointer to it, or a byte of a certificate or
    a name, or a word about a pointer to one."""
    if draw.random() < 0.5:
        # (a method of its library is the second word there)
        library = [it[0] for it in writable(memory.process, "r") if "/libssl" in it[2]]
        places = [place for place, word in memory.pointers()
                  if word % 16 == 0 and library[0] <= memory.word(word + 8) <= library[-1]]
        own = [it for it in places if it > memory.pieces[-1][1]]
        place = draw.choice(own if draw.random() < 0.8 else places) + draw.choice([-8, -8, 0, 8])
        return place, draw.choice([bytes(8), bytes(8), spoiled(memory.at(place, 8), draw)])
    files = [agent.tables["tls"][name] for name in ("certificate", "authority")]
    # (what is signed of it is kept as it came, behind four bytes)
    texts = [ssl.PEM_cert_to_DER_cert(pathlib.Path(file).read_text())[4:] for file in files]
    text = draw.choice([b"X25519", b"authority", *texts])
    places = memory.found(re.escape(text[:64]))
    place, length = draw.choice(places) + draw.randrange(len(text)), 1
    if draw.random() < 0.4:
        place, length = draw.choice(memory.words({*places})) + 8 * draw.randrange(-4, 5), 8
    return place, spoiled(memory.at(place, length), draw)


def of_descriptors(memory, draw, _):
    """One bit of the number of a descriptor that listens, mostly in a list of the agent itself."""
    home = pathlib.Path(f"/proc/{memory.process}")
    listens = {words[at] for at, name in ((9, "tcp"), (6, "unix"))
               for words in map(str.split, (home / "net" / name).read_text().splitlines())
               if words[3] in ("0A", "00010000")}
    own = [int(it.name) for it in (home / "fd").iterdir() if os.readlink(it)[8:-1] in listens]
    numbers = b"|".join(re.escape(struct.pack("<I", number)) for number in own)
    places = [place for place in memory.found(numbers) if place % 4 == 0]
    lists = [memory.word(it) for it in memory.lists() if it > memory.pieces[-1][1]]
    likely = [it for it in places if any(0 <= it - at < 512 for at in lists)]
    place = draw.choice(likely if draw.random() < 0.8 else places)
    return place, bytes([memory.at(place, 1)[0] ^ 1 << draw.choice([0, 0, 1, 2, 3])])


def of_bools(memory, draw, _):
    """A byte that may be a bool, and is neither."""
    known = draw.choice(draw.choice([memory.names(), memory.found(PARAMETERS)]))
    return draw.choice([it for it in range(known - ABOUT, known + ABOUT)
                        if memory.at(it, 1) in (b"\0", b"\1")]), b"\xff"


def of_lengths(memory, draw, _):
    """The length of a list, mostly of one of the agent itself, or near a name."""
    lists = memory.lists()
    if draw.random() < 0.7:
        known = {it // 1_024 for it in draw.choice([memory.names(), memory.ends()])}
        lists = [it for it in lists if it // 1_024 in known]
    return draw.choice(lists) + 8, struct.pack("<Q", draw.choice([0, 0, 1 << 40, 1 << 62]))


def of_counts(memory, draw, _):
    """The highest bit of a small number of the agent, which is on the first stack, where a time is
    that it looked at just now."""
    times = [it for it in memory.times() if it > memory.pieces[-1][1]
             and memory.word(it) > time.monotonic() - 3]
    place = draw.choice([it for it in range(times[0] - 2_048, times[-1] + 2_048, 8)
                         if 1 < memory.word(it) < 4_096])
    return place, struct.pack("<Q", memory.word(place) | 1 << 63)


def fault(memory, agent, status, draw, kind):
    """Where to write, and what."""
    if kind in AIMED:
        return AIMED[kind](memory, draw, agent)
    if kind == "agent":
        ends = memory.ends()
        place = ends and draw.randrange(ends[0] - 2_048, ends[-1] + 2_048, 8)
    elif kind in ("links", "names"):
        # (a word about one of these places, mostly near it)
        known = memory.names() if kind == "names" else memory.found(PARAMETERS)
        far = draw.choice([NEAR, ABOUT])
        place = known and (draw.choice(known) & ~7) + draw.randrange(-far, far, 8)
    elif kind in ("times", "numbers"):
        known = memory.times() if kind == "times" else memory.numbers(status)
        place = draw.choice([0, *known])
        if kind == "times" and draw.random() < 0.7:
            seconds = draw.choice([-3_600, -60, 60, 3_600, 10**6, 10**9])
            return place, struct.pack("<q", int(time.monotonic()) + seconds)
    else:
        place = memory.anywhere(draw, kind if kind in ("data", "stack") else "heap")
    length = {"byte": 1, "word": 8, "run": 64}.get(kind) or draw.choice([1, 1, 2, 4, 8, 8])
    place = (place or 0) + (0 if length == 64 else draw.randrange(0, 8, length))
    old = memory.at(place, length)
    if old is None:
        return 0, b""
    if kind == "bit":
        return place, bytes([old[0] ^ 1 << draw.randrange(8)]) + old[1:]
    if kind in ("byte", "run"):
        return place, draw.randbytes(length)
    return place, spoiled(old, draw)


class Unit:
    """What systemd does for an agent: it starts it again when it ends or hangs."""

    def __init__(self, agent, whys):
        self.agent, self.seen, self.whys = agent, 0.0, whys
        self.socket = socket.socket(socket.AF_UNIX, socket.SOCK_DGRAM)
        self.socket.bind(str(agent.home / "notify"))
        self.socket.setblocking(False)
        agent.tree.ends.callback(self.socket.close)
        agent.env = {"NOTIFY_SOCKET": str(agent.home / "notify"), "WATCHDOG_USEC": "4000000",
                     "MALLOC_ARENA_MAX": "1", "MALLOC_MMAP_THRESHOLD_": "131072"}

    def start(self):
        """Starts it, after its end."""
        self.agent.restart()
        self.seen = time.monotonic()

    def tend(self):
        """How it ended by itself, where it did. It runs again then."""
        now, how = time.monotonic(), None
        if not self.agent.process:
            # (somebody ended it, and starts it again)
            return None
        with contextlib.suppress(BlockingIOError):
            while self.socket.recv(4_096):
                self.seen = now
        if not self.agent.alive():
            how = "ended" if self.agent.process.returncode == 1 else "crashed"
            said = re.findall("^rignoldad: .*", self.agent.text(), re.M)
            self.whys += said[-1:] if how == "ended" else []
        elif now > self.seen + HANGS:
            how = "hung"
        if how:
            self.start()
        return how


def above(agent):
    """The names of its parents."""
    return [it.partition("@")[0] for it in agent.top.get("parents", [])]


def answers(agent, words, context):
    """Whether it answers to these words, without TLS or by that: but for an alert."""
    with contextlib.suppress(OSError), agent.connect() as sock:
        sock.settimeout(1)
        with context.wrap_socket(sock) if context else sock as line:
            line.sendall(words)
            return line.recv(1) not in (b"", b"\x15")


class Trials:
    """A tree, and faults in it: what came of each kind, and why agents ended, as two lists."""
    trees, shapes = TREES, {"roots": {**SHAPE, "second": "root"}}
    round = ROUND

    def __init__(self, seed, came, whys):
        self.seed, self.came, self.whys, self.made, self.of = seed, came, whys, 0, None

    def make(self, of, ends):
        """A new tree of a kind, that is right, and ends then."""
        self.tree = Tree(self.shapes.get(of, SHAPE), root_has(round=f"{int(self.round * 1_000)}ms"),
                         *self.trees[of])
        ends.callback(self.tree.close)
        self.of, self.what, self.ends = of, [], []
        self.units = [Unit(agent, self.whys) for agent in self.tree]
        self.tree.fill()
        # (one agent has another value, and each tells a hook of some)
        self.tree.write("key2@canary", "another")
        [*self.tree][3].top["groups"] = ["canary"]
        for unit in self.units:
            unit.agent.hooks = [{"keys": ["key*"], "run": "/bin/true"}]
            unit.start()
        if "standby" in self.tree.root.tables["root"]:
            sure(until(self.tree.root.status), self.tree.root.text())
            self.tree.root.ask("promote", "--as-is")
        if not self.holds(lambda: not self.wrong() and self.says_right(), 60):
            raise RuntimeError("a new tree does not come to be right")

    def holds(self, what, seconds=LONG):
        """Whether this comes to hold; meanwhile whoever ends is started again."""
        def tended():
            self.ends += filter(None, [unit.tend() for unit in self.units])
            return what()
        return until(tended, seconds / PATIENCE, 0.04)

    def says_right(self):
        """Whether `tree` shows all agents, that are up, each below a parent of its own."""
        seen = self.tree.root.request(2, do="tree").get("tree", [])
        # (a link that was struck may hold up what the root publishes, and its backlog says so;
        # numbers of bodies are on a circle)
        is_up = all(it["connected"] and it["whole"] and not it["failing"] and not it["draining"]
                    and it["backlog"] <= 1
                    and not 0 < (seen[0]["changed"] - it["applied"]) % 2**64 < 2**63
                    and it["compared"] == "same" for it in seen)
        below = {it["name"]: it["parent"] for it in seen}
        return is_up and below.keys() == self.tree.agents.keys() and all(
            below[it.name] in above(it) for it in self.tree if it is not self.tree.root)

    def wrong(self):
        """The agents whose settings are wrong. What is no file, or has no key for its name, as a
        spoiled path may make one, is no setting: an agent says that it is there, and leaves it
        alone."""
        truth = self.tree.truth()

        def is_right(agent):
            own = counting(truth, agent.top.get("groups", []))
            return own == {key: value for key, value in agent.files().items()
                           if key in own or value is not None and KEY.fullmatch(key)}
        return [agent.name for agent in self.tree if not is_right(agent)]

    def waits(self, seconds, *words):
        """Whether `wait` says that all have applied what the root's folder has."""
        words = "--everywhere", "--timeout", f"{seconds}s", *words
        return not self.tree.root.run("wait", *words).returncode

    def is_open(self, draw):
        """Whether an agent of a tree with TLS answers who has none, or has no certificate."""
        nobody = ssl.SSLContext(ssl.PROTOCOL_TLS_CLIENT)
        nobody.check_hostname, nobody.verify_mode = False, ssl.CERT_NONE
        links = [(name, it.name) for it in self.tree if "tls" in it.tables for name in above(it)]
        return any(answers(self.tree[name], draw.choice([hello, look])(child, name), context)
                   for name, child in links for context in (None, nobody))

    def change(self, draw, often=0):
        """Changes the root's folder, or so often by `publish`: whether that comes to be done."""
        self.made += 1
        words = f"key{self.made % 6}", f"{self.made} {draw.randrange(10**9)}"
        if draw.random() < often:
            return self.holds(lambda: not self.tree.root.run("publish", *words).returncode)
        self.tree.write(*words)
        other = self.tree.root.truth / f"other{self.made % 4}"
        other.unlink() if other.exists() else other.write_text(str(self.made))
        return True

    def strike(self, agent, kind, number, draw):
        """Whether something is written into an agent's memory."""
        status, place, new = agent.status(2) or self.tree.root.status(), 0, b""
        with stopped(agent.process.pid) as memory:
            pieces = Memory(agent.process.pid, memory)
            # (there may be nothing of that kind)
            with contextlib.suppress(IndexError, TypeError, ZeroDivisionError):
                place, new = EACH[kind][0](pieces, number, status) if kind in EACH else fault(
                    pieces, agent, status, draw, kind)
            old = os.pread(memory, len(new), place) if place else new
            if old != new:
                os.pwrite(memory, new, place)
                said = f"{kind} {number}: {agent.name} at {place:x}: {old.hex()} is {new.hex()}"
                self.what.append(said)
        return old != new

    def neighbour(self, agent, draw):
        """A parent or a child of an agent, as a unit."""
        return draw.choice([it for it in self.units if it.agent.name in above(agent)
                            or agent.name in above(it.agent)])

    def trial(self, kind, number):
        """One fault, or two: what came of it."""
        draw = random.Random(f"{self.seed} {kind} {number}")
        agent, kinds = draw.choice(list(self.tree)), [kind]
        if kind in EACH:
            number, at = divmod(number, len(EACH[kind][1]))
            agent = self.tree[EACH[kind][1][at]]
        elif kind == "pair" or draw.random() < MORE:
            kinds = draw.choices(KINDS if kind == "pair" else kinds, k=2)
        struck = [agent, draw.choice([agent, self.neighbour(agent, draw).agent])]
        if not sum([self.strike(*it, number, draw) for it in zip(struck, kinds)]):
            return []
        return ["trials", *self.after(agent, draw, AGAIN * (2 if kind in AIMED else 1))]

    def asked(self, draw, *words):
        """What is wrong with what is said while a fault may stand."""
        return ["lied"] * bool(self.waits(0.3, *words) and self.wrong()) + [
            "open"] * self.is_open(draw)

    def after(self, agent, draw, again, *words):
        """What comes of a fault of an agent, also where somebody connects anew after it."""
        begun, self.ends = time.monotonic(), []
        self.change(draw)
        came = self.asked(draw, *words)
        self.holds(lambda: time.monotonic() >= begun + 2 * self.round)
        if not self.holds(lambda: not self.wrong(), 0.1):
            # (`tree` may say for a moment what was so)
            is_so = until(lambda: not (self.wrong() and self.says_right()), 1.5 / PATIENCE, 0.04)
            came += ["late", *self.asked(draw, *words), *["lied"] * (not is_so)]
        if draw.random() < again:
            (other := self.neighbour(agent, draw)).start()
            self.what.append(f"{other.agent.name} is restarted")
        is_done, is_right = self.change(draw, PUBLISHED), self.holds(lambda: not self.wrong())
        says = is_right and is_done and all(map(self.holds, (
            self.says_right, lambda: self.waits(1, *words),
            lambda: all(agent.status(2) for agent in self.tree))))
        came += ["lied"] * bool(says and self.wrong()) + ["open"] * self.is_open(draw)
        return [*came, *set(self.ends), *([] if says else ["wrong"] if is_right else ["stuck"])]

    def goes_on(self, kind, number, last):
        """Whether the tree comes back from a fault, of which it notes what came."""
        try:
            if self.of != self.tree_of(kind, number):
                last.close()
                self.make(self.tree_of(kind, number), last)
            came = self.trial(kind, number)
        except Exception as error:
            print(f"{kind} {number}: perhaps an agent ends before that: {error!r}", flush=True)
            return False
        is_right = not {*HARM} & {*came}
        came += ["right" if is_right else "harm"] * bool(came)
        self.came += [(kind, it) for it in dict.fromkeys(came)]
        if is_right:
            return True
        said = [f"{agent.name}: {agent.status(2)} {agent.text()[-300:]!r}" for agent in self.tree]
        # (what was done to those that are wrong, and last)
        of = [it for it in self.what[:-6] for name in self.wrong() if f": {name} at" in it]
        print(f"{kind} {number} in {self.of}: {came} {self.wrong()} after", *of, *self.what[-6:],
              *said, sep="\n  ", flush=True)
        return False

    def tree_of(self, kind, number):
        """In a tree of which kind a fault is tried."""
        kinds = [of for of in self.trees if kind != "tls" or by_tls in self.trees[of]]
        return random.Random(f"{self.seed} {kind} {number} tree").choice(kinds)

    def run(self, faults):
        """Tries the next of these faults, as long as there are some."""
        with contextlib.ExitStack() as last:
            for one in faults:
                if not self.goes_on(*one, last):
                    self.of = None


AIMED = {"tls": of_tls, "descriptors": of_descriptors, "bools": of_bools, "lengths": of_lengths,
         "counts": of_counts}
KINDS = ["bit", "byte", "word", "run", "data", "stack", "agent", "links", "names", "times",
         "numbers", *AIMED]
# Those that take all places in turn, and of which agents. (The ends of a leaf are on its stack.)
EACH = {"each-link": (each_link, ["hub", "root"]), "each-time": (each_time, ["hub", "root"]),
        "each-number": (each_number, ["hub", "root", "one"])}
COLUMNS = ["trials", "late", "ended", "crashed", "hung", "wrong", "lied", "open", "stuck"]
HARM = [*COLUMNS[-4:], "older"]


def table(came, columns=COLUMNS):
    counts = collections.Counter([*came, *(("all", what) for _, what in came)])
    rows = [["kind", *columns], *([kind, *(counts[kind, it] for it in columns)]
                                  for kind, what in counts if what == columns[0])]
    return "\n".join(" ".join(f"{word:>11}" for word in row) for row in rows)


def run(faults, seed, trees, trials=Trials):
    """Faults in several trees at once: what came of each kind, and why agents ended."""
    came, whys = [], []
    # (those of one kind of tree in turn; whoever takes the next one of a list takes it alone)
    faults = iter(sorted(faults, key=lambda it: (trials(seed, [], []).tree_of(*it), it[1])))
    with concurrent.futures.ThreadPoolExecutor(trees) as pool:
        list(pool.map(lambda _: trials(seed, came, whys).run(faults), range(trees)))
    return came, whys


def count(came, what="harm"):
    """Of how many faults this came: lasting harm."""
    return sum(word == what for _, word in came)


@test(begins=True)
def trees_come_back_from_faults_of_memory():
    faults = [("each-link", at) for at in range(96)] + [("each-time", at) for at in range(46)]
    faults += [("each-number", at) for at in range(60)]
    faults += [(kind, at) for at in range(4) for kind in [*KINDS, "pair"]]
    came, _ = run(random.Random(1).sample(faults, len(faults)), "gate", 6)
    # (of what strikes anywhere, a few in a hundred may be past what an agent can see of itself)
    aimed = count([it for it in came if it[0] in EACH])
    sure(not aimed and count(came) <= 2 and count(came, "trials") > len(faults) / 2,
         "\n" + table(came))


@of_tree()
def who_finds_its_configuration_spoiled_ends_and_says_so(tree):
    whys = []
    units = [Unit(agent, whys) for agent in tree]
    for unit in units:
        unit.start()
    tree.is_ready()
    for turn in range(2):
        # (each agent has several copies of this path, and not all are in use)
        for at, unit in enumerate(units, turn * len(units)):
            path, process = str(unit.agent.settings).encode(), unit.agent.process.pid
            with stopped(process) as memory:
                copies = Memory(process, memory).found(re.escape(path))
                os.pwrite(memory, b"?", copies[at % len(copies)] + len(path) - 1)
        # (each looks at what it has of it in that time)
        until(lambda: not [unit.tend() for unit in units], 3 / PATIENCE, 0.05)
        tree.is_well()
    begins = "rignoldad: its memory is spoiled: "
    sure(whys and all(why.startswith(begins) for why in whys), whys)


def main(trials=Trials, kinds=[*KINDS, "pair"], columns=COLUMNS, most="trials"):
    chosen = options("kind", **{most: 100, "seed": "1", "trees": 3, "loss": 0.0})
    lose(chosen.loss)
    # (each packet that is lost holds up a link for 0.2 s and more)
    trials.round = ROUND * (1 + 2 * chosen.loss)
    kinds = chosen.kind or kinds
    faults = [(*kinds[at % len(kinds)].split(":"), at // len(kinds))[:2]
              for at in range(vars(chosen)[most])]
    came, whys = run({(kind, int(at)) for kind, at in faults}, chosen.seed, chosen.trees, trials)
    print(table(came, columns))
    for why, times in collections.Counter(whys).most_common():
        print(f"{times} times {why}")
    print(f"{count(came, columns[0]) - count(came)} passed, {count(came)} failed")
    return 1 if count(came) else 0


if __name__ == "__main__":
    sys.exit(main())
