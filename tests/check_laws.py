#!/usr/bin/env -S python3 -B
"""Works out what the tests of rounds in crates/tests_protocol expect, by the rules of
tests/faults/reference.py alone: the text of a link at its worst start after some rounds, and what a
chain r, a, b of two such links, with the items 10, 11, 12, has after more of them. Nothing of it is
made from the crates. The last line is 'N passed, M failed'.
"""
import itertools
import re
import sys

from programs import TOP, Cases
from faults.reference import ROUND, Link, Tree, reading_round

TESTS = (TOP / "crates/tests_protocol/src/rounds.rt").read_text()


def worst(stray):
    return Link(1, 4, [(2, stray)], [0], 0, 1)


def text_of(link):
    """A link as `stab` prints it."""
    words = lambda head, items: " ".join([head, *map(str, items)])
    return "\n".join([
        words("delivered:", link.delivered), words("offered:", link.offered),
        f"acked: {link.acked}", f"send label: {link.send}", f"recv label: {link.recv}",
        words("frames:", link.frames), words("acks:", link.acks), "closed: no\n"])


def main():
    cases, chains = Cases(), []
    for name, acts, once, counts in (("rounds", ROUND, 3, (1, 4, 16)),
                                     ("reading rounds", reading_round(1), 1, (1, 2, 6))):
        link = worst(99)
        for what in acts * once:
            link.act(what, [10] * 9)
        cases.holds(f"the worst start after {once} of the {name}",
                    f'"\\\n{text_of(link)}"' in TESTS, text_of(link))
        for count in counts:
            tree = Tree([None, 0, 1], [None, worst(99), worst(98)], [10, 11, 12])
            for child, what in [*itertools.product((1, 2), acts)] * count:
                tree.act(child, what)
            a, b = tree.links[1:]
            chains.append(f"{count} {a.delivered} {a.acked} {b.delivered} {b.acked}")
    expected = re.findall(r"rounds: (\d+),\s+a: &(.*),\s+a_acked: (\d+),\s+b: &(.*),\s+"
                          r"b_acked: (\d+),", TESTS)
    cases.holds("the chain after rounds, and after reading rounds",
                [" ".join(row) for row in expected] == chains, "\n".join(chains))
    return cases.sum_up()


if __name__ == "__main__":
    sys.exit(main())
