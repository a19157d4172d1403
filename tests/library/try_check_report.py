"""Tests how agents/run_tree counts from the last fault on the path of each agent, by logs that were
written by hand, and the tree law of agents/check_report.py, by lists at its bounds. (More of its
laws are in tests/check_reports.py and tests/check_logs.py.)"""
import os
import runpy
import tempfile
from types import SimpleNamespace

import check_report
from programs import TOP

# What the logs have when all begin, what more when b is killed alone, and what comes then: r is the
# root, a its child, and b and c are those of a. a has 7 and 8, which c has acknowledged, and b has
# acknowledged 7 alone; r has 9 as well. b comes back with nothing.
FIRST = {"r": ["count -", "child a 0 0"], "a": ["count 5", "child b 0 0", "child c 0 0"],
         "b": ["count 9"], "c": ["count 4"]}
THEN = {"r": ["item 7", "item 8", "item 9", "count -", "child a 2 2", "hand 9"],
        "a": ["item 7", "item 8", "count 1", "child b 1 1", "child c 2 2", "hand 8"],
        "c": ["item 7", "item 8"]}
LATER = {"r": ["acked a 1", "ended upstream"],
         "a": ["item 9", "acked b 2", "acked c 1", "ended upstream"],
         "b": ["item 66", "item 8", "item 9", "ended upstream"], "c": ["item 9", "ended upstream"]}


def write(logs):
    for name, lines in logs.items():
        with open(f"{name}.log", "a", encoding="ascii") as file:
            file.write("".join(line + "\n" for line in lines))


def counts():
    """The paths that run_tree judges after these logs: jobs and reports."""
    run_tree = SimpleNamespace(**runpy.run_path(f"{TOP}/agents/run_tree"))
    tree = object.__new__(run_tree.Tree)
    tree.options = SimpleNamespace(capacity=1, labels=4)
    r = run_tree.Agent("r", None)
    a = run_tree.Agent("a", r)
    b, c = run_tree.Agent("b", a), run_tree.Agent("c", a)
    tree.agents = [r, a, b, c]
    for agent in tree.agents[1:]:
        frames = [[2, 66]] if agent is b else []
        agent.frames = SimpleNamespace(contents=lambda frames=frames: frames)
        agent.acks = SimpleNamespace(contents=list)
    write(FIRST)
    first = {agent: run_tree.Found(agent) for agent in tree.agents}
    write(THEN)
    then = {agent: run_tree.Found(agent) for agent in (r, a, b)}
    for agent in tree.agents:
        agent.since = {above: (then if agent is b else first)[above] for above in agent.path()}
    write(LATER)
    return {agents[-1].name: tree.job_and_report(agents, since)
            for agents, since in tree.counts()}


def counts_from_faults():
    """The path of b counts from the fault: nothing is published since, r has 9 for a then, and a
    has 8 for b. That of c counts from the start, with all that was published."""
    paths = counts()
    if sorted(paths) != ["b", "c"]:
        return False
    job, report = paths["b"]
    start = {"frames": [[2, 66]], "acks": [], "send": 1, "recv": 9}
    return job["items"] == [] and job["backlogs"] == [[], [9], [8]] and "openings" not in job \
        and job["starts"] == [{"frames": [], "acks": [], "send": 2, "recv": 1}, start] \
        and report == ("r depth 0 received 0 acked - ended upstream\nitems:\n"
                       "a depth 1 received 1 acked 1 ended upstream\nitems: 9\n"
                       "b depth 2 received 3 acked 2 ended upstream\nitems: 66 8 9\n") \
        and paths["c"][0]["items"] == [7, 8, 9] \
        and paths["c"][1].endswith("c depth 2 received 3 acked 3 ended upstream\nitems: 7 8 9\n")


def lists():
    """Whether the tree law allows b the first lists alone, in a chain r, a, b of capacity 1 whose
    root publishes 1 to 9: two strays, and of the first items four may be missing, and one more for
    each stray, but no more than five."""
    job = {"capacity": 1, "labels": 4, "items": list(range(1, 10)), "tree": [
        {"name": "r"}, {"name": "a", "parent": "r"}, {"name": "b", "parent": "a"}]}
    allowed = "5 6 7 8 9", "99 6 7 8 9", "98 99 6 7 8 9", "98 99", "2 4 5 6 7", "1 2 3"
    others = ("6 7 8 9", "99 7 8 9", "98 99 7 8 9", "97 98 99 6 7", "1 2 3 4 5 6 8", "4 3 2 1 6",
              "5 6 99")
    for has in allowed + others:
        report = "\n".join(["", "items: 1 2 3 4 5 6 7 8 9"] * 2 + ["", f"items: {has}", ""])
        fault = check_report.tree_fault(job, report)
        yield (f"the tree law, of {has}", fault is None if has in allowed
               else bool(fault) and fault.startswith("b: the tree law is broken"))


def wrong():
    """The names of the cases that do not hold."""
    with tempfile.TemporaryDirectory() as folder:
        os.chdir(folder)
        cases = [*lists(), ("each path from the last fault on it, by hand", counts_from_faults())]
        os.chdir(TOP)
    return [name for name, holds in cases if not holds]
