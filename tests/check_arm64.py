#!/usr/bin/env -S python3 -B
"""The release for arm64, under Debian's emulator, or on such a machine itself: every example, some
rows of the tables, the library from C, and a tree of daemons, some of which are for arm64. The
daemon is built anew first, and compared.

What is not here and cannot be had (the emulator, a C library, programs of these sources) is said,
and not counted. The last line is 'N passed, M failed'.
"""
import os
import random
import shlex
import subprocess
import sys
import tempfile
from concurrent.futures import ThreadPoolExecutor
from pathlib import Path

from programs import TOP, Cases, kept, ran
import check_tables
import debian
import static
from compare import runs
from tables import stab_examples

# One of so many rows is drawn, besides the examples.
OF_ROWS = 10
# Who is for arm64 in the tree of seven daemons: a leaf, one between, and the root.
ON_ARM64 = "root", "left", "right1"
RELEASE, NUMBERS = "release/arm64", "libgcc-12-dev"


def wrapped(before, program, to):
    """A command that runs a program for arm64, under its own name."""
    to.parent.mkdir(exist_ok=True)
    words = [*before, "-0", to.name, program] if before else [program]
    to.write_text(f"#!/bin/sh\nexec {shlex.join(map(str, words))} \"$@\"\n")
    to.chmod(0o755)
    return to


def tries_rows(cases, files):
    """Runs the examples and drawn rows, and says from which number they were drawn."""
    seed = int(os.environ.get("SEED") or random.SystemRandom().randrange(10**6))
    drawn = random.Random(seed)
    print(f"the rows are drawn from SEED={seed}")
    rows = [("stab", row) for row in stab_examples.ROWS]
    rows += [it for it in check_tables.ROWS if drawn.randrange(OF_ROWS) == 0]
    rows = [it for it in rows if it[0] in files]
    with ThreadPoolExecutor(2) as threads:
        faults = threads.map(lambda of: check_tables.tried(of[0], files[of[0]], of[1]), rows)
        for (called, row), fault in zip(rows, faults):
            cases.holds(f"arm64, {called}: {row.name}", fault is None, fault, quiet=True)


def tries_library(cases, room, before):
    """Compares each call of the archive with the inline one, and replays the drawn runs of the
    examples."""
    library, home = static.musl("aarch64"), debian.unpacked("arm64", NUMBERS)
    if not library or not home:
        print(f"the library for arm64 is NOT TRIED: it needs Debian's musl-dev and {NUMBERS}")
        return
    # (what a program prints with printf needs numbers that the processor has not)
    archives = [f"{RELEASE}/librignolda.a", *home.glob("usr/lib/gcc/*/*/libgcc.a")]
    for name in "inline", "link":
        sources = [TOP / f"tests/library/{it}.c" for it in ["both"] * (name != "link") + [name]]
        cases.holds(f"arm64: {name} builds", static.builds(
            library, "aarch64", room / name, sources, "-I", TOP / "include", last=archives))
        made = wrapped(before, room / name, room / "c" / name)
        if name == "link":
            cases.has_none("arm64: the drawn runs", runs(made))
        else:
            cases.works(f"arm64: each call ({name})", made, "2000", "1")


def compares_daemon(cases):
    """Builds the daemon anew, and compares it with the one of the release."""
    status, said = ran("tools/build_daemon", "--arm64", "--check")
    if status in (3, 4):
        print(f"the daemon for arm64 is NOT COMPARED: {said.strip()}")
    else:
        cases.holds("arm64: the kept daemon is that of the sources", status == 0, said)


def tries_tree(cases, room, before):
    """Settings come down a tree of seven daemons, with TLS, and again after one is killed."""
    import daemons  # (it looks for the programs when it is asked for a tree)
    from runner import run, sure
    for name in "rignoldad", "rignoldactl":
        wrapped(before, room / "daemons" / name, room / "arm64" / name)

    def are_for_arm64(tree):
        for name in ON_ARM64:
            tree[name].program = room / "arm64/rignoldad"

    @daemons.of_tree(None, daemons.patient, daemons.by_tls, are_for_arm64)
    def settings_reach_all(tree):
        for name in "left", "left1":
            tree[name].kill()
            tree.write("while", f"{name} is away")
            tree[name].start()
            tree.is_ready()
            tree.settles()
        for agent in tree:
            words = room / "arm64/rignoldactl", "--socket", agent.socket, "wait"
            sure(subprocess.run(words, timeout=1_200).returncode == 0, "no answer of", agent.name)

    cases.holds("arm64: seven daemons, three of them for arm64", run(settings_reach_all))


def tried(cases, room):
    """Tries what is here."""
    before = debian.runs_arm64(has_loaded=True)
    if before is None:
        print("arm64 is NOT TRIED: Debian's qemu-user and its libc6 for arm64 cannot be had here")
        return
    files = {name: kept(room, name, "arm64/") for name in check_tables.TABLES}
    for name in [it for it in files if files[it] is None]:
        print(f"{name} for arm64 is NOT TRIED: none was released of these sources")
        del files[name]
    tries_rows(cases, {name: wrapped(before, file, room / "programs" / name) if before else file
                       for name, file in files.items()})
    if (TOP / RELEASE / "librignolda.a").is_file():
        tries_library(cases, room, before)
    else:
        print("the library for arm64 is NOT TRIED: none was released")
    (room / "daemons").mkdir()
    status, said = ran("tools/build_daemon", "--arm64", "--unpack", room / "daemons")
    if status:
        print(f"the daemon for arm64 is NOT TRIED: {said.strip()}")
    else:
        tries_tree(cases, room, before)


def main():
    os.chdir(TOP)
    cases = Cases()
    compares_daemon(cases)
    with tempfile.TemporaryDirectory() as room:
        tried(cases, Path(room))
    return cases.sum_up()


if __name__ == "__main__":
    sys.exit(main())
