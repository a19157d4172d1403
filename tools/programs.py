"""What the checks share: where the programs `rignolda` and `stab` are that were made of these
sources, what a command line says, and how cases are counted."""

import argparse
import gzip
import json
import os
import subprocess
import sys
import tempfile
import textwrap
from pathlib import Path

TOP = Path(__file__).resolve().parent.parent
# What checks import, each from its own folder, after this file.
sys.path += [str(TOP / it) for it in (
    "tools", "agents", "tests", "tests/daemon", "tests/library", "lab/ends")]

# Where the gate leaves each program, as a release would have it.
BUILT = {
    "rignolda": "crates/rignolda/out/rignolda.by-rattle",
    "stab": "crates/stab_cli/out/stab_cli.by-rattle",
}

# Prints the file of release/ that is the program for this machine, where that was made of these
# sources. A second word names another machine.
LOOK = """. "$0/tools/launch"; speaker=tests; name=${2-$part}$1; read_table "$name"; find_sources
! is_released "$name" || printf '%s' "$release/$name.gz" """


def kept(room, name, *machine):
    """The program of this name that is in release/ and was made of these sources, or None: for
    this machine, or for one of `arm64/`."""
    words = ["bash", "-c", LOOK, TOP, name, *machine]
    known = subprocess.run(words, capture_output=True, text=True).stdout
    if not known:
        return None
    unpacked = Path(room) / name
    unpacked.write_bytes(gzip.decompress(Path(known).read_bytes()))
    unpacked.chmod(0o755)
    return unpacked


def program(name, room):
    """The program of this name, or None: one of these sources, or what PROGRAM_NAME names."""
    named = os.environ.get("PROGRAM_" + name.upper())
    if named:
        return Path(named).resolve()
    known = kept(room, name)
    if known:
        return known
    # (the gate has just built it)
    built = TOP / BUILT[name]
    return built if built.is_file() else None


MISSING = "none was built of these sources: run ./release.sh, or ./gate"


def built(name, room):
    """The same; the script ends where there is none."""
    return str(program(name, room) or sys.exit(f"{name}: {MISSING}"))


def run_with(do, *names):
    """Runs a check with the files of these programs, or says that one is missing."""
    with tempfile.TemporaryDirectory() as room:
        files = {name: program(name, room) for name in names}
        missing = [name for name in names if files[name] is None]
        if missing:
            print(f"{missing[0]}: {MISSING}")
            return sum_up([False])
        return do(*files.values())


def ran(*words, **options):
    """The status of a command, and all that it writes; 127 where there is no such command."""
    try:
        done = subprocess.run([*map(str, words)], stdin=subprocess.DEVNULL, stdout=subprocess.PIPE,
                              stderr=subprocess.STDOUT, text=True, errors="replace", **options)
    except OSError as fault:
        return 127, str(fault)
    return done.returncode, done.stdout


def answered(file, *words, given="", **options):
    """The status of a program that reads this text, bytes or job, and its outputs."""
    given = given if isinstance(given, (str, bytes)) else json.dumps(given)
    given = given if isinstance(given, bytes) else given.encode()
    done = subprocess.run([file, *words], input=given, capture_output=True, **options)
    return done.returncode, *(it.decode(errors="replace") for it in (done.stdout, done.stderr))


def options(*names, **usual):
    """What the command line says for a script: words of some names, and options, each with what is
    usual, which is nothing, a number or a text."""
    words = argparse.ArgumentParser(description=sys.modules["__main__"].__doc__,
                                    formatter_class=argparse.RawDescriptionHelpFormatter)
    for name in names:
        words.add_argument(name, metavar=name.upper(), nargs="*")
    for name, value in usual.items():
        how = {"action": "store_true"} if value is False else {"type": type(value)}
        words.add_argument(f"--{name}", default=value, **how)
    return words.parse_args()


def paragraphs(file):
    """The paragraphs of a file of rows, of which each line is a word, a colon and a text: by each
    word its texts, in which `\\n` is the end of a line. A line that begins with # is a comment."""
    for paragraph in file.read_text().split("\n\n"):
        found = {}
        for line in paragraph.splitlines():
            word, _, text = line.partition(":")
            if not word.startswith("#"):
                found.setdefault(word, []).append(text[1:].replace("\\n", "\n"))
        yield found


def sum_up(results):
    """Says how many of these are well: the status of a script."""
    results = list(results)
    print(f"{results.count(True)} passed, {results.count(False)} failed")
    return 0 if all(results) else 1


class Cases:
    """How many cases of a check have held."""

    def __init__(self):
        self.passed = self.failed = 0

    def holds(self, name, is_well, more="", quiet=False):
        """Counts a case, and says whether it holds: if not, with what there is more to say."""
        self.passed, self.failed = self.passed + bool(is_well), self.failed + (not is_well)
        if not is_well or not quiet:
            print("same  " if is_well else "OTHER ", name, flush=True)
        if more and not is_well:
            print(textwrap.indent(str(more), " " * 7), flush=True)

    def works(self, name, *words, **options):
        """Runs a command, and counts whether it ends well, with its last lines if it does not."""
        status, said = ran(*words, **options)
        self.holds(name, status == 0, "\n".join(said.splitlines()[-30:]))

    def has_none(self, name, faults):
        """Counts a case, which holds where there are no faults; the first ones are said."""
        faults = list(faults)
        shown = faults[:3] + [f"and {len(faults) - 3} more"] * (len(faults) > 3)
        self.holds(name, not faults, "\n".join(map(str, shown)))

    def sum_up(self):
        """Says how many there were, and answers the status of the check."""
        return sum_up([True] * self.passed + [False] * self.failed)


def counted(faults, quiet=False):
    """Counts cases, each a name and what is wrong with it, or None."""
    cases = Cases()
    for name, fault in faults:
        cases.holds(name, fault is None, fault, quiet)
    return cases.sum_up()
