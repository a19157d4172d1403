#!/usr/bin/env -S python3 -B
"""Refuses memory and threads to the built programs, one after the other: tests/refused/check.py

It builds refuse.c, an object for LD_PRELOAD, by the kit's own clang, and runs under it

  (a) gate_checks, once for every N with its Nth allocation refused: it must print its file
      `stdout`, end with status 0, and name on standard error only calls of the file `calls`; each
      of these must have been refused at least once;
  (b) stab on some examples and runs, once for every N with the Nth allocation refused, and once
      with every allocation from the Nth on: it must give the whole text with status 0, or the line
      `stab: out of memory` with status 3 and nothing else;
  (c) stab on runs, with the start of the Nth thread refused: it must say in one line that a worker
      could not be started;
  (d) rignolda on some command lines, as stab in (b): what it does undisturbed, or the line
      `rignolda: out of memory` with status 3 and nothing else.

The programs are those that rt ci, or rt run, left in out/ of their crates, or that options name.
With --only those cases alone are tried that have this in their names. Each (program, job, way of
refusing) is one case, and the last line is 'N passed, M failed'. It needs Python 3.8, which rt
needs as well, and glibc.
"""
import concurrent.futures
import itertools
import json
import os
import struct
import subprocess
import sys
import tempfile
from collections import namedtuple
from pathlib import Path

HERE = Path(__file__).resolve().parent
TOP = HERE.parent.parent
sys.path[:0] = [str(TOP / part) for part in ("tools", "agents", "tests")]
import check_report  # noqa: E402
import examples  # noqa: E402
from crates import clang  # noqa: E402
from programs import Cases, options  # noqa: E402

# A program that has not ended after this many seconds hangs.
SECONDS = 60.0
# So many programs run at a time.
LANES = 4
# This many runs one after the other must be whole before a program counts as never refused again.
ROW = 32
MOST_ALLOCATIONS = 20_000
# After calls that start threads, N is one call's allocation in one run and another's in the next.
# So a program that was not refused every call is walked through again, at most so often.
WALKS = 4

OUT_OF_MEMORY = (3, b"", b"stab: out of memory\n")
NOT_STARTED = (3, b"", b"stab: run: a worker could not be started\n")
NO_MEMORY = (3, b"", b"rignolda: out of memory\n")

# The examples of stab, and the statuses of command lines of rignolda with these, as `lines` has them.
CASES = [line.split(" ", 1) for line in (HERE / "lines").read_text().splitlines() if line[0] != "#"]
JOBS = [name for kind, name in CASES if kind == "stab"]
LINES = [(int(kind), line) for kind, line in CASES if kind != "stab"]

# The logs of a chain of three nodes, which obey, and which do not: the last one got a third stray.
LOGS = [(0, [[1, 2, 3], [9, 2, 3], [8, 9, 3]]), (1, [[1, 2, 3], [9, 2, 3], [7, 8, 9]])]

# A member behind which no text has the plain form, and so many spaces that a file takes many reads.
NOTE, SPACES = '{"note":1e308,', 200_000

# The scripts of a chain of three nodes: of letters, and drawn.
SCRIPTS = [{"frames_out": "D", "acks_in": "K"},
           {"seed": [42, 54], "length": 6, "loss": 300, "repeat": 400}]

RUNS = [("run", ["run"]), ("run --words", ["run", "--words"]), ("run --mixed", ["run", "--mixed"])]


class Ended(namedtuple("Ended", "status out err allocations threads refused")):
    """How a program ended. What the object reported is None where it reported nothing."""

    @property
    def seen(self):
        return self[:3]

    def __str__(self):
        out, err = (text.decode(errors="replace")[-300:] for text in (self.out, self.err))
        return f"status {self.status}, standard output {out!r}, standard error {err!r}"


class Check(Cases):
    """The cases, a folder for their jobs, and for the object, which the clang of the kit builds."""

    def __init__(self, folder, lanes, seconds, only):
        super().__init__()
        self.folder, self.lanes, self.seconds, self.only = Path(folder), lanes, seconds, only
        self.runs, self.object = 0, f"{folder}/refuse.so"
        subprocess.run(clang("-ffreestanding", HERE / "refuse.c", "-o", self.object,
                             is_program=False), check=True)

    def write(self, name, job):
        """Writes a job, or its text, and answers its file."""
        path = self.folder / f"{name}.json"
        path.write_text(job if isinstance(job, str) else json.dumps(job))
        return path

    def run(self, command, input=os.devnull, **refuse):
        """Runs a program to its end: words, the file of its standard input, what is refused."""
        self.runs += 1
        with tempfile.TemporaryFile() as report, open(input, "rb") as given:
            to = report.fileno()
            try:
                done = subprocess.run(
                    command, stdin=given, capture_output=True, timeout=self.seconds,
                    env={"LD_PRELOAD": self.object, "REFUSE_REPORT": str(to), **refuse},
                    cwd=examples.DATA, pass_fds=[to])
                ended = done.returncode, done.stdout, done.stderr
            except subprocess.TimeoutExpired:
                ended = None, b"", b"(had not ended after %d seconds)" % self.seconds
            report.seek(0)
            counts = report.read()
            return Ended(*ended, *(struct.unpack("3L", counts) if counts else [None] * 3))

    def every(self, variable, command, input=os.devnull):
        """Runs a program for N = 1, 2, .. with what the variable then refuses, until nothing was.

        Gives each N with its end. Where threads allocate, one run makes more allocations than the
        next, so that a run may be whole and one of a greater N is not: all of a row must be whole.
        """
        one = lambda number: self.run(command, input, **{variable: str(number)})
        for first in range(1, MOST_ALLOCATIONS, ROW):
            row = list(self.lanes.map(one, range(first, first + ROW)))
            yield from enumerate(row, first)
            if not any(ended.refused for ended in row):
                return

    def undisturbed(self, name, command, input, is_right):
        """Whether a run that is refused nothing is right, and its allocations are counted."""
        ended, fault = self.run(command, input), None
        if ended.refused != 0 or not ended.allocations:
            fault = f"the object counted no allocations: {ended}"
        elif not is_right(ended):
            fault = f"undisturbed: {ended}"
        if fault:
            self.holds(name, False, fault)
        return not fault

    def each(self, name, command, input, is_right, refusals):
        """Parts (b) and (d): the text or a refusal, for each N, refused once or from there on."""
        if self.only not in name or not self.undisturbed(name, command, input, is_right):
            return
        for variable, way in ("REFUSE_ALLOCATION", "once"), ("REFUSE_FROM", "from there on"):
            faults, refused, last = [], 0, 0
            for number, ended in self.every(variable, command, input):
                is_refusal = ended.refused and ended.seen in refusals
                refused += bool(is_refusal)
                if ended.refused is None or not is_refusal and not is_right(ended):
                    faults.append(f"allocation {number}: {ended}")
                if ended.refused:
                    last = number
            if refused == 0:
                faults.append("no refusal was answered by out of memory")
            self.has_none(f"{name}, refused {way}: {refused} of {last} refusals end it", faults)

    def calls(self, program, calls):
        """Part (a): the program that makes every call again."""
        right = (0, (Path(program).parent.parent / "stdout").read_bytes())
        wanted = {name for line in Path(calls).read_text().splitlines()
                  if not line.startswith("#") for name in line.split("; ")}
        is_right = lambda ended: ended.seen[:2] == right
        if (self.only not in "gate_checks"
                or not self.undisturbed("gate_checks", [program], os.devnull, is_right)):
            return
        faults, seen, last = [], set(), 0
        walks = (self.every("REFUSE_ALLOCATION", [program]) for _ in range(WALKS)
                 if not wanted <= seen)
        for number, ended in itertools.chain.from_iterable(walks):
            names = {line[8:] if line.startswith("refused ") else line
                     for line in ended.err.decode(errors="replace").splitlines()}
            if ended.refused is None or not is_right(ended) or not names <= wanted:
                faults.append(f"allocation {number}: {first_difference(right[1], ended)}")
            seen |= names
            if ended.refused:
                last = max(last, number)
        self.has_none(f"gate_checks, refused once: {last} refusals", faults)
        for name in sorted(wanted):
            self.holds(f"gate_checks, {name} is refused", name in seen,
                       "no allocation of this call was ever refused")

    def threads(self, name, command, input, is_right, nodes):
        """Part (c): the start of each thread is refused in its turn."""
        if self.only not in name:
            return
        ended = self.run(command, input)
        faults = []
        if ended.threads != nodes or not is_right(ended):
            faults.append(f"undisturbed, {ended.threads} threads: {ended}")
        one = lambda number: self.run(command, input, REFUSE_THREAD=str(number))
        for number, ended in enumerate(self.lanes.map(one, range(1, nodes + 1)), 1):
            if ended.refused != 1 or ended.seen != NOT_STARTED:
                faults.append(f"thread {number} of {nodes}: {ended}")
        self.has_none(f"{name}, each thread refused", faults)

    def stab(self, program):
        """Parts (b) and (c)."""
        known = {name: examples.example(name) for name in JOBS}
        worst = known["worst_start"]
        text = worst.job.read_text().replace("{", NOTE, 1) + SPACES * " "
        known["a long file in another form"] = worst._replace(job=self.write("long", text))
        for name, it in known.items():
            right = (it.status, it.out, it.err)
            # (the C library allocates for a thread, so refused memory may be a refused thread)
            self.each(name, [program, *it.words], it.job or os.devnull,
                      lambda ended, right=right: ended.seen == right,
                      [OUT_OF_MEMORY] + [NOT_STARTED] * ("run" in it.words))
        for name, words in RUNS:
            job = {**chain(3, items=5, turns=50, words=words, held=2), "scripts": SCRIPTS}
            of = f"{name} of a chain of 3"
            self.each(of, [program, *words], self.write(of, job), is_report_of(job),
                      [OUT_OF_MEMORY, NOT_STARTED])
        for nodes, (name, words) in itertools.product((1, 3, 64), RUNS):
            job, of = chain(nodes, items=5, turns=50, words=words), f"{name} of a chain of {nodes}"
            self.threads(of, [program, *words], self.write(f"{of}, threads", job),
                         is_report_of(job), nodes)

    def rignolda(self, program):
        """Part (d)."""
        cases = [(f"rignolda {line}".strip(), status, line.split()) for status, line in LINES]
        for status, logs in LOGS:
            name = f"rignolda judge of logs with status {status}"
            job = self.write(name, {**chain(3, items=3, turns=1, words=[]), "received": logs})
            cases.append((name, status, ["judge", job]))
        for name, status, words in cases:
            if self.only in name:
                right = self.run([program, *words]).seen
                is_right = lambda ended: ended.seen == right and ended.status == status
                self.each(name, [program, *words], os.devnull, is_right, [NO_MEMORY])


def chain(nodes, items, turns, words, held=0):
    """The job of a chain of `nodes` nodes, with clean starts, for a run by these words. Where both
    kinds of link are asked for, every other link is wider. Inner nodes begin with `held`
    strays."""
    tree = [{"name": "r"}]
    for at in range(1, nodes):
        tree.append({"name": f"n{at}", "parent": tree[-1]["name"]})
    job = {"capacity": 1, "labels": 4, "tree": tree, "items": [*range(1, items + 1)],
           "turns": turns}
    if "--mixed" in words:
        job["links"] = [{"capacity": 3, "labels": 8} if at % 2 else None for at in range(nodes - 1)]
    if held:
        inner = [list(range(1000 * at, 1000 * at + held)) for at in range(1, nodes - 1)]
        job.update(version=2, h=held, openings=[[], *inner, []])
    return job


def first_difference(right, ended):
    """Where the standard output of a run is another than it should be."""
    wanted, wrote = right.splitlines(), ended.out.splitlines()
    for number, (a, b) in enumerate(itertools.zip_longest(wanted, wrote, fillvalue=b"(none)"), 1):
        if a != b:
            end = f"status {ended.status}, {ended.err[-300:]!r}"
            return f"line {number} is {b!r} and not {a!r}; {end}"
    return str(ended)


def is_report_of(job):
    """A test for the report of a run of a job, under any schedule."""
    return lambda ended: (ended.status, ended.err) == (0, b"") and not check_report.fault(
        job, ended.out.decode(errors="replace"))


def built(crate):
    """The program that a release would have: rt ci makes it by Rattle's own compiler as well."""
    program = TOP / f"crates/{crate}/out/{crate}"
    by_rattle = program.with_suffix(".by-rattle")
    return str(by_rattle if by_rattle.is_file() else program)


def main():
    given = options(stab=built("stab_cli"), rignolda=built("rignolda"), only="", seconds=SECONDS,
                    checks=f"{TOP}/crates/gate_checks/out/gate_checks", calls=f"{HERE}/calls")
    with tempfile.TemporaryDirectory(prefix="stab-refused-") as folder, \
            concurrent.futures.ThreadPoolExecutor(LANES) as lanes:
        check = Check(folder, lanes, given.seconds, given.only)
        for program, part in (given.checks, lambda it: check.calls(it, given.calls)), (
                given.stab, check.stab), (given.rignolda, check.rignolda):
            if os.path.isfile(program):
                part(os.path.abspath(program))
            else:
                check.holds(program, False, "the program is not built: rt ci, or rt run in it")
    print(f"{check.runs} runs")
    return check.sum_up() or not check.passed


if __name__ == "__main__":
    sys.exit(main())
