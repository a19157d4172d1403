#!/usr/bin/env -S python3 -B
"""Measures what agents cost that have nothing to do: a root with children, by the settings that
they have by themselves, of whose folder nothing changes; and what one change costs the root.

    bench/idle.py [--children N] [--seconds S] [--changes C] [FOLDER ...]

Each folder has the two programs of a daemon; all of them are measured at the same time, and the
changes are made in turn, so that other work on the machine slows them alike. Without one it is what
cargo built, or what is kept. The seconds are to be some rounds, which are 30 s here. Printed are
seconds of processor an hour, and how often in a second a thread waited, of leaves the median; and
the same for each of the changes, which are published one after the other.
"""
import contextlib
import pathlib
import re
import statistics
import sys
import time

HERE = pathlib.Path(__file__).resolve().parent
sys.path.insert(0, str(HERE.parent / "tests/daemon"))
from daemons import Tree, binaries, until  # noqa: E402
from runner import options  # noqa: E402


def spent(process):
    """Nanoseconds of processor, by the clock that clock_getcpuclockid(3) names, and how often a
    thread waited."""
    tasks = pathlib.Path(f"/proc/{process}/task").glob("*/status")
    waits = (re.search(r"^voluntary.*\s(\d+)", task.read_text(), re.M)[1] for task in tasks)
    return time.clock_gettime_ns(~process << 3 | 2), sum(map(int, waits))


def begin(folder, children):
    """A root and so many leaves, each with 8 settings."""
    tree = Tree({f"leaf{at}": "root" for at in range(children)})
    tree.bin = folder
    for agent in tree:
        agent.env = {}
        del agent.tables["link"]
    del tree.root.tables["root"]["round"]
    for at in range(8):
        tree.write(f"key{at}", f"value {at}")
    tree.start()
    return tree


def cost_of_changes(trees, changes):
    """Prints what each change costs the root, where a tenth of them is made at each in turn."""
    publishes = [tree.ends.enter_context(tree.root.publisher()) for tree in trees]
    costs = [[] for _ in trees]
    for _ in range(10):
        for tree, publish, cost in zip(trees, publishes, costs):
            before = spent(tree.root.process.pid)
            for at in range(changes // 10):
                publish("key0", f"{at:016}")
            after = spent(tree.root.process.pid)
            cost.append([(b - a) / (changes // 10) for a, b in zip(before, after)])
    for tree, cost in zip(trees, costs):
        ran, waits = (statistics.median(column) for column in zip(*cost))
        print(f"{tree.bin} change: {ran / 1e3:.1f} us, {waits:.2f} waits")


def main():
    words = options("folders", children=2, seconds=60, changes=0)
    with contextlib.ExitStack() as ends:
        trees = [ends.enter_context(begin(pathlib.Path(folder), words.children))
                 for folder in words.folders or [binaries()]]
        for tree in trees:
            if not until(lambda it=tree: not it.wrong(), 60):
                sys.exit(f"idle: {len(tree.wrong())} agents of {tree.bin} lack settings")
        # (after a whole round nothing is done for the first time, and after four a root knows how
        # deep its tree was)
        time.sleep(150)
        before = [[spent(agent.process.pid) for agent in tree] for tree in trees]
        began = time.monotonic()
        time.sleep(words.seconds)
        after = [[spent(agent.process.pid) for agent in tree] for tree in trees]
        took = time.monotonic() - began
        for tree, old, new in zip(trees, before, after):
            each = [[b - a for a, b in zip(*pair)] for pair in zip(old, new)]
            leaf = [statistics.median(column) for column in zip(*each[1:])]
            for name, (ran, waits) in ("root", each[0]), ("leaf", leaf):
                print(f"{tree.bin} {name}: {ran / took * 3.6e-6:.3f} s an hour, "
                      f"{waits / took:.2f} waits a second")
        if words.changes:
            cost_of_changes(trees, words.changes)


if __name__ == "__main__":
    main()
