#!/usr/bin/env -S python3 -B
"""Gives drawn logs to `rignolda judge`, and compares what it says with a plain judge.

    tests/check_logs.py [COUNT [SEED]]     1,500 logs by default, the same each time

Each draw is a tree with links of their own, items of which many may be equal, and what each node
received: strays, and then items of its parent, with some of the first ones missing. Every second
one is spoiled. `rignolda judge` has to print what tests/faults/logs.py says, and to refuse what is
no log as man/rignolda.1 says; and `rignolda explain` has to find something of a job with logs where
`judge` refuses it, and else nothing. Of all runs of a chain of two links of capacity 1, found by a
search through all states of a link, `judge` has to accept what two items come to, and some of what
three come to; and of one link and three items exactly what a run gives. By the logs of agents that
tests/daemon/long.py has by hand it has to say what stands beside them.

The program is the one of check_tables.py. The last line is 'N passed, M failed'.
"""

import itertools
import json
import random
import sys
from concurrent.futures import ThreadPoolExecutor

from programs import answered, counted, run_with
import long
from faults.logs import delivered, strays_of, text_of
from jobs import asked, drawn_tree, spoilt_items
from tables.reader import begin, tree_of
from tables.rows import told

TREE = [{"name": "r"}, {"name": "a", "parent": "r"}]
JOB = {"capacity": 1, "labels": 4, "tree": TREE, "items": [10, 11]}
REFUSED = [(json.loads(row.given), row.err) for row in told("judge")]


def spoiled(draw, received, top):
    """Lists of which one is another."""
    lists, node = [*received], draw.randrange(len(received))
    way = draw.choice(["swap", "double", "alter", "drop", "drop", "add", "front", "lists"])
    if way == "lists":
        other = draw.randrange(len(lists))
        lists[node], lists[other] = lists[other], lists[node]
    elif way == "front":
        lists[node] = [draw.randrange(top) for _ in range(draw.randrange(1, 5))] + lists[node]
    else:
        # (in the second half, since what is at the front may be missing)
        half = len(lists[node]) // 2
        lists[node] = lists[node][:half] + spoilt_items(draw, way, lists[node][half:], top)
    return lists


def drawn_logs(draw, tree, hold, items, places, top, is_spoiled):
    """What each node received: strays, and then items of its parent but for some of the first."""
    received = [[] for _ in tree.parents]
    for node in sorted(range(len(received)), key=lambda it: len(list(tree.path(it)))):
        parent, above = tree.parents[node], items[places[node] if places else 0:]
        if parent is None:
            received[node] = above[:draw.randrange(len(above) + 1)]
            continue
        few = strays_of(tree, hold, node)
        if tree.parents[parent] is not None:
            above = received[parent]
        capacity, few = tree.links[node].capacity, draw.choice([0, 0, few, draw.randrange(few + 1)])
        # (one more than may be missing is, now and then)
        missing = capacity + 1 + min(few, capacity) + (is_spoiled and draw.random() < 0.3)
        end = draw.choice([len(above), len(above), draw.randrange(len(above) + 1)])
        kept_of_front = draw.choice([0, 0.5])
        front = [item for item in above[:min(missing, end)] if draw.random() < kept_of_front]
        received[node] = [draw.randrange(top) for _ in range(few)] + front + above[missing:end]
    if is_spoiled:
        for _ in range(draw.choice([1, 2, 4])):
            received = spoiled(draw, received, top)
    return received


def drawn(draw, rignolda, is_spoiled):
    """A job with logs, and what is to be said of them."""
    top = draw.choice([3, 40, 2 ** 32])
    job = drawn_tree(draw, rignolda, nodes=draw.choice([1, 2, 3, 4, 5, 8]), items=0, schedule=0,
                     capacity=draw.choice([1, 1, 2, 4]), hold=draw.choice([0, 1, 3]))
    items = job["items"] = [draw.randrange(top) for _ in range(draw.choice([0, 3, 10, 40]))]
    for part in "starts", "scripts", "openings":
        job.pop(part, None)
    tree, names, _ = tree_of(json.dumps(job).encode())
    begin(tree, ["tree"])
    # A count begins with that of the parent, or later; in some draws anywhere.
    if draw.random() < 0.7:
        branch = draw.randrange(len(items) + 1)
        job["from"] = [branch if draw.random() < 0.9 else draw.randrange(len(items) + 1)
                       for _ in names]
    hold, places = job.get("h", 0), job.get("from")
    job["received"] = drawn_logs(draw, tree, hold, items, places, top, is_spoiled)
    return job, text_of(names, tree, hold, items, job["received"], places)


def filled(places, source, any_item):
    """The lists with these places, where a stray may be any item."""
    return itertools.product(*(any_item if place is None else [source[place]] for place in places))


def of_runs(draw):
    """Logs of runs of a chain of two links, and every list of a link, with whether it is of one."""
    tree = [*TREE, {"name": "b", "parent": "a"}]
    for count, most in [(2, None), (3, 300)]:
        items = list(range(10, 10 + count))
        found = sorted({(upper, lower) for places in delivered(count)
                        for upper in filled(places, items, [*items, 98])
                        for below in delivered(len(upper))
                        for lower in filled(below, upper, [*items, 98])})
        for upper, lower in draw.sample(found, most) if most else found:
            yield {**JOB, "tree": tree, "items": items, "received": [items, upper, lower]}, True
    any_item = [*items, 98]
    right = {has for places in delivered(3) for has in filled(places, items, any_item)}
    for length in range(5):
        for has in itertools.product(any_item, repeat=length):
            yield {**JOB, "items": items, "received": [[], has]}, has in right


def finds(file, job):
    """Whether `explain` finds something."""
    *found, _ = answered(file, "explain", given=job, timeout=600)[1].splitlines()
    return bool(found)


def tried(file):
    """Tries all logs with this program."""
    count, seed = asked(1500, 1)
    draw = random.Random(seed)
    cases = [drawn(draw, file, at % 2) for at in range(count)]
    runs = list(of_runs(draw))
    wanted = [(0 if text == "obeys\n" else 1, text, "") for _, text in cases]
    cases += REFUSED
    wanted += [(1, "", text) for _, text in REFUSED]
    with ThreadPoolExecutor(2) as pool:
        judged = lambda case: answered(file, "judge", given=case[0], timeout=600)
        said = list(pool.map(judged, cases))
        said += [(status, "", "") for status, _, _ in pool.map(judged, runs)]
    wanted += [(0 if is_run else 1, "", "") for _, is_run in runs]
    broken = sum(text != "obeys\n" for _, text in cases[:count])
    print(f"logs: {count} drawn, of which {broken} do not obey, {len(REFUSED)} refused, "
          f"{len(runs)} of all that runs give, and {len(long.CASES)} of agents")
    tried = [(json.dumps(job), has, want)
             for (job, _), has, want in zip(cases + runs, said, wanted)]
    tried += [(f"explain: {json.dumps(job)}", finds(file, job), text.startswith("rignolda: "))
              for job, text in cases[:count:10] + cases[count:] if "received" in job]
    tried += [(f"agents: {name}", long.judged(file, *parts, broken=broken), want)
              for name, parts, want, broken in long.CASES]
    return counted(((name, None if has == want else f"{has}\nwanted {want}")
                    for name, has, want in tried), quiet=True)


if __name__ == "__main__":
    sys.exit(run_with(tried, "rignolda"))
