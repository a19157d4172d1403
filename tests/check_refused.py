#!/usr/bin/env -S python3 -B
"""Tests tests/refused/check.py: it passes a small program that is right, and fails each of those
with a planted bug.

Nothing is proved, and nothing of this repository is touched. The test takes some seconds. It needs
the kit, with rt on the path. Its last line is 'N passed, M failed'.
"""
import subprocess
import sys

from house import TOP, House, remove
from programs import paragraphs
from crates import clang

house = House()
planted = house.write("out/planted")
house.write("stdout", "List::push: 2 entries\n")
calls = house.write("calls", "# calls\nList::new\nList::push\n")


def ends(name, bug, only, passed, failed, text):
    """Whether the check of the program with a bug, as stab, rignolda and gate_checks, ends as it
    should, as refused/planted says."""
    remove(planted)
    if bug != "none":
        subprocess.run(clang("-ffreestanding", f"-DBUG={bug}", TOP / "tests/refused/planted.c",
                             "-o", planted), check=True)
    ended = house.run(TOP / "tests/refused/check.py", "--stab", planted, "--rignolda", planted,
                      "--checks", planted, "--calls", calls, "--seconds", "3", "--only", only)
    house.holds(name, ended.last == f"{passed} passed, {failed} failed" and text in ended.out
                and ended.status == (0 if passed != "0" and failed == "0" else 1))


for it in paragraphs(TOP / "tests/refused/planted"):
    ends(*(it[word][0] for word in ("shows", "bug", "only", "passed", "failed", "says")))
sys.exit(house.sum_up())
