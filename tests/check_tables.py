#!/usr/bin/env -S python3 -B
"""Runs the programs rignolda and stab on many command lines, and compares what they print.

The files of tests/tables that are named below have rows; rows.py there says what a row is. A
program is the one that ./rignolda or ./stab starts, or else the one that the gate has left in
crates/rignolda/out or crates/stab_cli/out; PROGRAM_RIGNOLDA and PROGRAM_STAB in the environment
name others. The examples run by the build of LLVM as well, if the gate has just made it. The faults
of the rows of stab, with their statuses, have to be those of the tables of docs/FORMATS.md, but for
a few that no row brings about. The manual of rignolda and the crates for Rust have to have the
version of the release, as the program has. The last line is 'N passed, M
failed'.
"""

import os
import re
import shlex
import subprocess
import sys
import tempfile
from concurrent.futures import ThreadPoolExecutor
from importlib import import_module
from pathlib import Path

from programs import BUILT, TOP, answered, counted, run_with
from tables import stab_examples
from tables.rignolda_lines import VERSION
from tables.rows import told

# The tables of each program, and each row with its program.
TABLES = {"rignolda": "lines explain check draw files jobs scenario",
          "stab": "examples lines links trees limits"}
ROWS = [(program, row) for program, names in TABLES.items() for name in names.split()
        for row in import_module(f"tables.{program}_{name}").ROWS]
ROWS += [("rignolda", row) for name in ("bounds", "check", "explain", "lines", "scenario")
         for row in told(name)]
# The faults of docs/FORMATS.md that no row brings about: those of reading, writing, memory and
# threads, and the differences of links behind locks, which never come.
WITHOUT_ROW = {
    ("file: cannot be read", 1), ("output: cannot be written", 3), ("out of memory", 3),
    ("run: a worker could not be started", 3), ("run: offered lists differ", 3),
    ("run: acknowledged counts differ", 3), ("run: delivered lists differ", 3),
    ("run: closes differ", 3),
}
# No run takes longer, in seconds, and so many rows run at the same time.
LONGEST, THREADS = 60, 4


def fault_of(called, file, row, folder):
    """What is wrong with the run of a row, or None."""

    def run(words, given=""):
        # (its help names the program as it was called, and a file that was kept has a longer name)
        return answered(called, *words, given=given, executable=file, cwd=folder, timeout=LONGEST)

    def prints(words):
        """What a run with these words prints."""
        status, out, err = run(words)
        if status != 0 or err:
            raise ValueError(f"{' '.join(words)} ends with status {status}: {err}")
        return out

    for beside, text in row.files.items():
        path = Path(folder) / beside
        path.parent.mkdir(exist_ok=True)
        path.write_bytes(text.encode())
    given = row.given(prints) if callable(row.given) else row.given
    return row.fault(*run(row.words, given), prints)


def tried(called, file, row):
    """The same in a folder of its own."""
    with tempfile.TemporaryDirectory() as folder:
        try:
            return fault_of(called, file, row, folder)
        except (ValueError, LookupError, OSError, subprocess.TimeoutExpired) as fault:
            return f"{type(fault).__name__}: {fault}"


def faults_of_the_page():
    """The faults of the tables of docs/FORMATS.md, each with its status: the last table says it,
    and a fault beside the checks of a job has 1 where the job is refused, and else 3."""
    checks, section = (TOP / "docs/FORMATS.md").read_text().split("\n## Faults\n")
    found = {(text, 1 if text.startswith(("job:", "tree:")) else 3)
             for text in re.findall(r"^\| .* \| `([a-z]+: [^`]*)` \|$", checks, re.M)}
    rows = re.findall(r"^\| .* \| `(.*)` \| ([123]) \|$", section, re.M)
    return found | {(text, int(status)) for text, status in rows}


def faults_otherwise(file):
    """How the faults that the program stab answers differ from those of the page, or None. A fault
    without a row has at least to be a text of the program."""
    answered = {(row.err.removeprefix("stab: ").rstrip("\n"), row.status)
                for program, row in ROWS if program == "stab" and row.err}
    code = Path(file).read_bytes()
    answered |= {fault for fault in WITHOUT_ROW if fault[0].encode() in code}
    differ = sorted(faults_of_the_page() ^ answered)
    return f"these are on the page or answered, and not both: {differ}" if differ else None


def version_otherwise():
    """Which files have another version than the release, or None."""
    its = re.escape(VERSION)
    own = re.compile(rf'^(\.TH .*"rignolda {its}"|version = "{its}"$)', re.M)
    files = [TOP / "man/rignolda.1", *sorted(TOP.glob("rust/*/Cargo.toml"))]
    others = [str(file.relative_to(TOP)) for file in files if not own.search(file.read_text())]
    return f"these have not the version {VERSION} of CHANGELOG.md: {others}" if others else None


def script_otherwise(file):
    """How examples/check.sh differs by a launcher that says where the manual is, as ./stab does, or
    None."""
    with tempfile.TemporaryDirectory() as folder:
        launcher = Path(folder) / "stab"
        launcher.write_text('#!/bin/sh\n'
                            '[ "$1" != --help ] || echo "stab: help is in its manual: man X" >&2\n'
                            f'exec {shlex.quote(str(Path(file).resolve()))} "$@"\n')
        launcher.chmod(0o755)
        status, out, err = answered(TOP / "examples/check.sh", cwd=folder, timeout=LONGEST,
                                    env={**os.environ, "STAB": str(launcher)})
        return None if (status, err) == (0, "") else f"status {status}: {out}{err}"


def main(*files):
    """Tries all rows with these programs."""
    files = dict(zip(TABLES, files))
    runs = [(program, files[program], row) for program, row in ROWS]
    # (the same program as LLVM builds it, if the gate has just done that)
    other = (TOP / BUILT["stab"]).with_suffix("")
    if os.environ.get("GATE_HAS_BUILT") and other.is_file():
        runs += [("stab", other, row) for row in stab_examples.ROWS]
    with ThreadPoolExecutor(THREADS) as threads:
        faults = threads.map(lambda of: tried(*of), runs)
        names = (f"{called}: {row.name}, by {Path(file).name}" for called, file, row in runs)
        lists = [("the list of the examples", stab_examples.listed_otherwise()),
                 ("the faults of docs/FORMATS.md", faults_otherwise(files["stab"])),
                 ("the version of the release", version_otherwise()),
                 ("examples/check.sh", script_otherwise(files["stab"]))]
        return counted([*lists, *zip(names, faults)], quiet=True)


if __name__ == "__main__":
    sys.exit(run_with(main, *TABLES))
