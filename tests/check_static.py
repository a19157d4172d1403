#!/usr/bin/env -S python3 -B
"""What programs call besides the C library (tools/shims): each function, on x86-64, and on arm64
under an emulator, and planted bugs in it, each of which has to be found.

It needs the kit, and Debian's packages musl-dev and qemu-user-static, which tools/debian.py unpacks
where they are not installed. What could not be tried is said, and not counted. The last line is
'N passed, M failed'.
"""
import re
import subprocess
import sys
import tempfile
from pathlib import Path

from programs import TOP, Cases, paragraphs
import debian
import static

CALLS = TOP / "tests/static/calls.c"
WORDS = "", "four", "a b"
# What the calls ask of a processor, by the names that the system has for it.
FLAGS = "pni ssse3 cx16 sse4_1 sse4_2 movbe popcnt aes lahf_lm abm 3dnowprefetch".split()
# Planted bugs: what is in a file, and what stands in its place; those of atomic steps are of arm64.
PLANTED = [*paragraphs(TOP / "tests/static/planted.rows")]


def planted(room, old, new):
    """The shims with a planted bug, of which one has the old text, or none if that is not so."""
    texts = {source.name: source.read_text() for source in static.SHIMS}
    for name, text in texts.items():
        Path(room, name).write_text(text.replace(old, new))
    fits = sum(old in text for text in texts.values()) == 1
    return [Path(room, name) for name in texts] if fits else []


def faults(program, before):
    """What the calls find wrong, which is nothing where all is well."""
    done = subprocess.run([*before, program, *WORDS], capture_output=True, text=True)
    said = done.stdout if done.returncode else ""
    if done.returncode and not said:
        said = f"it ended with status {done.returncode}"
    if not before:
        leaves = subprocess.run([program, "leaves"], capture_output=True, text=True)
        its = re.search("^flags\\s*: (.*)$", Path("/proc/cpuinfo").read_text(), re.M)
        wanted = {*its[1].split()} & {*FLAGS}
        if leaves.returncode or {*leaves.stdout.split()} != wanted:
            said += f"it found {leaves.stdout.split()}, and not {sorted(wanted)}"
    return said


def main():
    cases = Cases()
    for architecture, before in ("x86_64", []), ("aarch64", debian.runs_arm64()):
        library = static.musl(architecture)
        if not library or before is None:
            print(f"what programs call on {architecture} is NOT TRIED: it needs Debian's musl-dev"
                  + " for arm64, and qemu-user" * (before is None))
            continue
        with tempfile.TemporaryDirectory() as room:
            def said(shims, *words):
                """What is wrong with the calls over these shims, or nothing."""
                program = f"{room}/calls"
                return faults(program, before) if static.builds(
                    library, architecture, program, [CALLS, *shims], *words,
                    options=["--wrap=main"]) else "they do not fit"

            wrong = said(static.SHIMS)
            cases.holds(f"what programs call, on {architecture}", not wrong, wrong)
            for old, new in ((*it["old"], *it["new"]) for it in PLANTED
                             if ("in" in it) == bool(before)):
                wrong = said(planted(room, old, new), "-w")
                cases.holds(f"a planted bug is found: {' '.join(new.split())}",
                            wrong not in ("", "they do not fit"), wrong, quiet=True)
    return cases.sum_up()


if __name__ == "__main__":
    sys.exit(main())
