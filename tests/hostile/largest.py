#!/usr/bin/env -S python3 -B
"""Measures the programs on the largest jobs that they accept: by hand, some minutes.

  tests/hostile/largest.py [WORD..]               stab on the largest jobs
  tests/hostile/largest.py --rignolda [WORD..]    rignolda on jobs of 16 MB, beside stab

Each job at a limit is run three times. A line has the file's size, the median of the processor time
and of the wall time, the peak memory, also as a multiple of the file's size, and what came of the
job, which for some is the fault that docs/FORMATS.md says. A star is after a processor time over
one second, and after a peak over twenty times the file's size where that is over 10 MB.

With --rignolda each job has 11 to 16 MB of one thing that much may be looked up or said of: steps,
members that nobody reads, and so on. A command of rignolda may not take more than three times as
long as `stab` or `rignolda bounds` takes, where that is over half a second. (`stab` reads some jobs
token by token, and `bounds` all by way of a tree of values.)

With words, only jobs whose names have one of them are measured. Another program is measured where
PROGRAM_STAB or PROGRAM_RIGNOLDA names it. It needs Debian's package time. The last line is
'N passed, M failed'.
"""
import itertools
import json
import os
import statistics
import subprocess
import sys
import tempfile
import time
from pathlib import Path

sys.path.insert(0, str(Path(__file__).resolve().parent.parent.parent / "tools"))
from programs import Cases, built, options  # noqa: E402

RUNS = 3
MAX_BYTES = 16_777_216
MAX_EVENTS = 1_000_000
MAX_NODES = 64
MAX_ACTS = 100_000
# How much of a job of 16 MB is for the one thing that it is full of.
FULL = MAX_BYTES - 65_536

TEXT = None  # what is expected of a job that is accepted
LINK = {"capacity": 1, "labels": 4, "start": {"send": 0, "recv": 1}, "events": []}
TREE = [{"name": "r"}, {"name": "a", "parent": "r"}, {"name": "b", "parent": "a"}]
JOB = {"capacity": 1, "labels": 4, "tree": TREE, "items": [7, 8]}
# Names of one byte as far as there are any, so that a schedule of all steps fits a file.
NAMES = [*"rabcdefghijklmnopqstuvwxyz0123456789_-", *(f"x{at}" for at in range(38, MAX_NODES))]


def made(job, **more):
    """The text of a job with these members, as short as it can be."""
    return json.dumps({**job, **more}, separators=(",", ":"))


def beside(value):
    """A job with a member that no reader names, which has this text."""
    return made(LINK)[:-1] + f',"extra":{value}}}'


# ---- Jobs at limits


def start(frames=1, acks=1):
    return {"frames": [[2, 4294967295]] * frames, "acks": [65535] * acks, "send": 0, "recv": 1}


def events(count):
    """A clean round over and over: all of its items are delivered."""
    turn = [["offer", 1], "send_frame", "recv_frame", "send_ack", "recv_ack"]
    return (turn * (count // len(turn) + 1))[:count]


def tree_job(nodes=MAX_NODES, is_chain=True, **more):
    tree = [{"name": "r"}]
    for name in NAMES[1:nodes]:
        tree.append({"name": name, "parent": tree[-1]["name"] if is_chain else "r"})
    return made({"capacity": 1, "labels": 4, "tree": tree, "items": [], "turns": 1}, **more)


def schedule(count):
    """Offers to all nodes in turn, and now and then another step, as many as fit a file."""
    acts = ["offer", "offer", "send_frame", "offer", "recv_frame", "offer", "send_ack", "offer"]
    return [[NAMES[1 + at % 30], acts[at // 30 % 8]] for at in range(count)]


def letters():
    sent, taken = ("PDE" * MAX_ACTS)[:MAX_ACTS], ("TK" * MAX_ACTS)[:MAX_ACTS]
    return {"frames_out": sent, "frames_in": taken, "acks_out": sent, "acks_in": taken}


def held():
    """A chain whose inner nodes begin with as many items as any may."""
    openings = [[], *[[4294967295] * 64] * (MAX_NODES - 2), []]
    return tree_job(version=2, h=64, openings=openings, items=[1] * 10_000)


def jobs():
    """Yields a name, the words, the fault that is expected, and what makes the job."""
    link, trace, walk = ["link"], ["link", "--trace"], ["tree"]
    locks, words, mixed = ["run"], ["run", "--words"], ["run", "--mixed"]
    all_events = lambda more=0, **others: made(
        {**LINK, "start": start()}, events=events(MAX_EVENTS + more), **others)
    yield "1,000,000 events", link, TEXT, all_events
    yield "1,000,000 events, traced", trace, TEXT, all_events
    yield "one event more", link, "job: too many events", lambda: all_events(1)
    yield "the same, capacity 64", link, TEXT, lambda: all_events(
        start=start(64, 64), capacity=64, labels=1000)
    yield "16 MB, 1,000,000 events", link, TEXT, lambda: all_events().ljust(MAX_BYTES)
    yield "one byte more", link, "file: too long", lambda: all_events().ljust(MAX_BYTES + 1)
    steps = lambda count: tree_job(schedule=schedule(count))
    yield "1,000,000 steps, 64 nodes", walk, TEXT, lambda: steps(MAX_EVENTS)
    yield "one step more", walk, "job: too many events", lambda: steps(MAX_EVENTS + 1)
    items = lambda form, **more: lambda: tree_job(
        is_chain=form == "chain", items=[4294967295] * 10_000, **more)
    # (every other link has the largest capacity)
    wide = ([{"capacity": 64, "labels": 1000}, None] * MAX_NODES)[:MAX_NODES - 1]
    drawn = {"seed": [42, 54], "length": MAX_ACTS, "loss": 1000, "repeat": 500}
    for name, job, *commands in [
            *((f"{form} of 64, 10,000 items", items(form, starts=[start()] * (MAX_NODES - 1)),
               walk, locks, words) for form in ("chain", "star")),
            *((f"{form} of 64, wide links", items(form, links=wide), mixed)
              for form in ("chain", "star")),
            ("62 openings of 64 items", held, walk, locks, words, mixed),
            ("41 links, 4 x 100,000 letters", lambda: tree_job(42, scripts=[letters()] * 41),
             walk, locks, words),
            ("63 links, 4 x 100,000 drawn", lambda: tree_job(scripts=[drawn] * 63),
             walk, locks, words)]:
        for command in commands:
            yield name, command, TEXT, job
    yield "127 levels", link, TEXT, lambda: beside("[" * 126 + "]" * 126)
    yield "16 MB of levels", link, "job: not JSON", lambda: "[" * MAX_BYTES
    yield "a text of 16 MB beside", link, TEXT, lambda: made(LINK, extra="a" * 16_700_000)
    yield "8,000,000 zeros beside", link, TEXT, lambda: made(LINK, extra=[0] * 8_000_000)
    yield "5,000,000 empty lists beside", link, TEXT, lambda: made(LINK, extra=[[]] * 5_000_000)
    # (a list or an object takes far more memory than its bytes in the file, by the JSON library)
    yield "4,000,000 lists of one beside", link, TEXT, lambda: made(LINK, extra=[[0]] * 4_000_000)
    objects = [{"": {"": 0}}] * 1_300_000
    yield "1,300,000 objects of one beside", link, TEXT, lambda: made(LINK, extra=objects)
    yield "the same as events", link, "job: too many events", lambda: made(LINK, events=objects)
    yield "1,600,000 members beside", link, TEXT, lambda: made(
        LINK, extra={f"{at:x}": 0 for at in range(1_600_000)})
    yield "1,000,000 frames at the start", link, "start: too many frames", lambda: made(
        LINK, start=start(1_000_000, 0))
    yield "8,000,000 zeros as events", link, "job: too many events", lambda: made(
        LINK, events=[0] * 8_000_000)
    yield "a number of 16,000,000 digits", link, "job: not JSON", lambda: beside("9" * 16_000_000)


# ---- Jobs of 16 MB, each full of one thing


def listed(entry, most=10**9):
    """As many entries as a file has room for by the bytes of some, at most `most`."""
    some = json.dumps([entry(number) for number in range(9_999_000, 9_999_060)],
                      separators=(",", ":"))
    return [entry(number) for number in range(min(most, FULL * 60 // len(some)))]


def full_trees():
    """Jobs of a tree, by name: the text of each."""
    acts = ["send_frame", "recv_frame", "send_ack", "recv_ack", "offer", "recv_frame_keep"]
    steps = listed(lambda at: ["ab"[at % 2], acts[at * 7 % 6]], 1_000_000)
    yield "steps", made(JOB, schedule=steps)
    yield "steps of unknown nodes", made(JOB, schedule=listed(lambda at: [f"c{at}", "offer"]))
    yield "steps of unknown words", made(JOB, schedule=[["a", "offre"]] * 1_000_000)
    yield "steps on the root", made(JOB, schedule=[["r", "offer"]] * 1_000_000)
    yield "a step of a long word", made(JOB, schedule=[["a", "offer" * 3_300_000]])
    yield "items that are texts", made(JOB, items=listed(str))
    yield "unknown members", made(JOB, **dict(listed(lambda at: (f"shedule{at}", at))))
    yield "members of short names", made(JOB, **dict(listed(lambda at: (f"{at:x}", 0))))
    yield "a member of a long name", made(JOB, **{"schedul" * 2_300_000: 1})
    yield "members of long names", made(JOB, **dict(listed(lambda at: ("x" * 9000 + str(at), 0))))
    yield "one member again and again", made(JOB)[:-1] + "".join(
        f',"turns":{at}' for at in range(1_000_000)) + "}"
    yield "a long text of escapes", made(JOB, note="\0" * 2_760_000)
    yield "ignored objects", made(JOB, note=listed(lambda at: {"a": 1}))
    yield "nodes of one name", made(JOB, tree=[TREE[0], *listed(lambda at: TREE[1])])
    yield "nodes of unknown parents", made(
        JOB, tree=listed(lambda at: {"name": f"n{at}", "parent": f"p{at}"}))
    yield "nodes of bad names", made(
        JOB, tree=listed(lambda at: {"name": f"N {at}", "parent": "r"}))
    yield "a node of a long name", made(JOB, tree=[{"name": "a" * 16_600_000}])
    yield "64 nodes of long names", made(JOB, tree=[
        {"name": "a" * 130_000 + str(at), "parent": "b" * 130_000} for at in range(64)])
    yield "starts of many frames", made(JOB, starts=[
        {"frames": frames, "acks": [0], "send": 0, "recv": 1}
        for frames in (listed(lambda at: [1, 2]), [])])
    yield "a script too long", made(JOB, scripts=[None, {"frames_out": "PDE" * 5_500_000}])
    yield "not JSON, many lines", made(JOB, schedule=steps[:850_000]).replace("],", "],\n") + "x"


def full_link_jobs():
    """Link jobs, by name: the text of each."""
    words = ["send_frame", "recv_frame", "send_ack", "recv_ack", "offer", "recv_ack_keep"]
    event = lambda at: ["offer", at] if at * 7 % 6 == 4 else words[at * 7 % 6]
    yield "events", made(LINK, events=listed(event, 1_000_000))
    yield "events of unknown words", made(LINK, events=["send_akc"] * 1_000_000)
    yield "events, the last one bad", made(LINK, events=[*listed(event, 999_999), "x"])
    yield "frames", made(LINK, start={"send": 0, "recv": 0, "frames": listed(lambda at: [1, 2])})


def run(program, command, job):
    """A run of a program on a job: wall and processor seconds, the peak in bytes, the status and
    standard error."""
    with tempfile.NamedTemporaryFile("w+") as peak, tempfile.TemporaryFile("w+") as err:
        # (the kernel counts a peak from the process that started one, and this one is large)
        words = ["/usr/bin/time", "-q", "-f", "%M", "-o", peak.name, program, *command, job]
        begin = time.perf_counter()
        ran = subprocess.Popen(words, env={}, stdout=subprocess.DEVNULL, stderr=err)
        status, used = os.wait4(ran.pid, 0)[1:]
        wall = time.perf_counter() - begin
        err.seek(0)
        return (wall, used.ru_utime + used.ru_stime, int(peak.read()) * 1024,
                os.waitstatus_to_exitcode(status), err.read().strip())


class Largest(Cases):
    """The programs, what measures them, and a folder for jobs."""

    def __init__(self, room):
        super().__init__()
        self.programs = {name: built(name, room) for name in ("stab", "rignolda")}
        self.job = room / "job.json"

    def run(self, name, command):
        """A run on the job."""
        return run(self.programs[name], command, self.job)

    def at_limits(self, is_asked):
        """Measures stab on jobs at limits."""
        for name, command, fault, job in filter(is_asked, jobs()):
            self.job.write_text(job())
            runs = [self.run("stab", command) for _ in range(RUNS)]
            wall, processor, peak = (statistics.median(one[i] for one in runs) for i in range(3))
            size, ends = self.job.stat().st_size, {one[3:] for one in runs}
            line = TEXT if fault is TEXT else f"stab: {fault}"
            wanted = (0, "") if fault is TEXT else (3 if fault.startswith("start") else 1, line)
            late = "*" if processor > 1 else " "
            large = "*" if peak > 20 * size and peak > 10_000_000 else " "
            self.holds(f"{' '.join(command):13} {name:32} {size / 1e6:6.2f} MB "
                       f"{processor * 1000:7.1f}{late} ms, wall {wall * 1000:6.0f}, "
                       f"peak {peak / 1e6:8.1f} MB {peak / size:7.1f}{large}  {line or 'a text'}",
                       ends == {wanted}, ends)

    def taken(self, name, command):
        """The processor time of a command on the job, the smaller one of two."""
        return min(self.run(name, [command])[1] for _ in range(2))

    def beside_stab(self, is_asked):
        """Measures commands of rignolda on jobs of 16 MB."""
        trees = ((*it, "tree", ["explain"]) for it in full_trees())
        links = ((*it, "link", ["explain", "draw"]) for it in full_link_jobs())
        for name, job, reader, commands in filter(is_asked, itertools.chain(trees, links)):
            self.job.write_text(job)
            size = self.job.stat().st_size
            self.holds(f"{name}: {size} bytes", size <= MAX_BYTES)
            base = max(self.taken("stab", reader), self.taken("rignolda", "bounds"))
            for command in commands:
                spent = self.taken("rignolda", command)
                self.holds(f"{name:28} {command} {spent:5.2f} s, stab or bounds {base:5.2f} s",
                           spent <= max(3 * base, 0.5))


def main():
    given = options("words", rignolda=False)
    print(f"{os.cpu_count()} processors, load {os.getloadavg()[0]:.1f}")
    is_asked = lambda job: not given.words or any(word in job[0] for word in given.words)
    with tempfile.TemporaryDirectory() as room:
        largest = Largest(Path(room))
        (largest.beside_stab if given.rignolda else largest.at_limits)(is_asked)
    return largest.sum_up()


if __name__ == "__main__":
    sys.exit(main())
