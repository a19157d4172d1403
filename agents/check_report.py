#!/usr/bin/env python3
"""Checks the report of a run against its job: `check_report.py JOB REPORT`.

These are the five points of docs/FORMATS.md, "What holds of every report". The job has to be one
that `stab tree` accepts. Where it has backlogs, the report counts from a moment, at which each of
them is what the parent of its node had for the node. Prints `obeys`, or the first point that is
broken, and ends with 0 or 1.
"""
import itertools
import json
import re
import sys
from pathlib import Path

NUMBER = "(?:0|[1-9][0-9]*)"


def longest_prefix_within(items, whole):
    """How many of the first `items` are some items of `whole`, in their order."""
    rest = iter(whole)
    return sum(1 for _ in itertools.takewhile(lambda item: item in rest, items))


def is_subsequence(part, whole):
    """Whether some items of `whole`, in their order, are `part`."""
    return longest_prefix_within(part, whole) == len(part)


def obeys_link_law(parent, delivered, acked, capacity, frames):
    """Whether the link law, with its sharper bound, allows these lists of a link."""
    if acked > len(parent):
        return False
    # (each stray lets one more of the first items be missing, and takes one delivered item away)
    strays = longest_prefix_within(delivered, frames[:capacity])
    delivered = delivered[strays:]
    early = min(capacity + 1 + strays, acked)
    for last in (acked, acked + 1):
        sure = parent[early:last]
        if last > len(parent) or len(delivered) < len(sure):
            continue
        cut = len(delivered) - len(sure)
        if delivered[cut:] == sure and is_subsequence(delivered[:cut], parent[:early]):
            return True
    return False


def depth_of(name, parents):
    """How many links there are from the root to a node."""
    return 0 if parents[name] is None else 1 + depth_of(parents[name], parents)


def parts_of(job):
    """By the name of a node its parent, its backlog and its opening; of one with a parent the start
    and the capacity of its link."""
    parents = {node["name"]: node.get("parent") for node in job["tree"]}
    links = [name for name in parents if parents[name] is not None]
    nothing = [[] for _ in parents]
    has_openings = job.get("version", 1) == 2 and "backlogs" not in job
    openings = job.get("openings", nothing) if has_openings else nothing
    starts = job.get("starts", [{}] * len(links))
    capacities = [(own or job)["capacity"] for own in job.get("links", [None] * len(links))]
    return (parents, dict(zip(parents, job.get("backlogs", nothing))), dict(zip(parents, openings)),
            dict(zip(links, starts)), dict(zip(links, capacities)))


def fault(job, report):
    """What is wrong with a report, or nothing."""
    parents, backlogs, openings, starts, capacities = parts_of(job)
    if not report.endswith("\n"):
        return "the last line does not end"
    lines = report[:-1].split("\n")
    if len(lines) != 2 * len(parents):
        return "not two lines for each node"
    items, acked, ended = {}, {}, {}
    for at, name in enumerate(parents):
        form = re.fullmatch(rf"{re.escape(name)} depth ({NUMBER}) received ({NUMBER}) "
                            rf"acked (-|{NUMBER}) ended (upstream|turns)", lines[2 * at])
        items[name] = [int(word) for word in lines[2 * at + 1].split()[1:] if word.isdigit()]
        if (not form or not re.fullmatch(f"items:( {NUMBER})*", lines[2 * at + 1])
                or max(items[name], default=0) >> 32):
            return f"{name}: the lines have another form"
        if int(form[1]) != depth_of(name, parents) or int(form[2]) != len(items[name]):
            return f"{name}: another depth or number of items"
        if (form[3] == "-") != (parents[name] is None):
            return f"{name}: the root alone has no acknowledged count"
        acked[name] = None if form[3] == "-" else int(form[3])
        ended[name] = form[4]
    for name, parent in parents.items():
        if parent is None:
            if items[name] != job["items"]:
                return f"{name}: the root has other items"
            continue
        opening = openings[name]
        if items[name][:len(opening)] != opening:
            return f"{name}: does not begin with its opening"
        frames = [item for _, item in starts[name].get("frames", [])]
        above = backlogs[name] + items[parent]
        if not obeys_link_law(above, items[name][len(opening):], acked[name], capacities[name],
                              frames):
            return f"{name}: the link law is broken"
        if ended[parent] == "upstream" and acked[name] != len(above):
            return f"{name}: not all of {parent} is acknowledged, which ended upstream"
    return None


def obeys_tree_law(strays, without, missing, published, received):
    """Whether the sharper tree law allows a node this list: at most so many strays, and then
    published items, of which none is missing before the last but for some of those at the front:
    of `without` and one more for each stray, and at most of `missing`."""
    for count in range(min(strays, len(received)) + 1):
        cut = min(without + count, missing)
        first, rest, tail = published[:cut], published[cut:], received[count:]
        early = longest_prefix_within(tail, first)
        if any(tail[len(tail) - end:] == rest[:end] and len(tail) <= end + early
               for end in range(min(len(rest), len(tail)) + 1)):
            return True
    return False


def most_missing(capacities):
    """How many of the first items a node may miss, by the capacities of its links from its own one
    upwards: without strays, and at most. (One link may miss 2c + 1, each above it c + 1, and those
    beneath it none.)"""
    once = [capacity + 1 for capacity in capacities]
    return sum(once), max((capacity + sum(once[at:]) for at, capacity in enumerate(capacities)),
                          default=0)


def tree_fault(job, report):
    """Which node does not obey the tree law, or nothing. Every opening counts with its own length,
    and so does what an inner node had for the next one on the path; what the root had for its child
    counts as published. The report has a form that `fault` accepts."""
    parents, backlogs, openings, _, all_capacities = parts_of(job)
    for name, line in zip(parents, report.split("\n")[1::2]):
        strays, capacities, published, above = 0, [], job["items"], name
        while parents[above] is not None:
            strays += all_capacities[above] + len(openings[above])
            capacities.append(all_capacities[above])
            if parents[parents[above]] is None:
                published = backlogs[above] + published
            else:
                strays += len(backlogs[above])
            above = parents[above]
        received = [int(word) for word in line.split()[1:]]
        without, missing = most_missing(capacities)
        if not obeys_tree_law(strays, without, missing, published, received):
            return (f"{name}: the tree law is broken, with at most {strays} strays, and none "
                    f"missing but among the first {without}, one more for each stray, and at most "
                    f"the first {missing}")
    return None


def main():
    job, report = (Path(word).read_bytes().decode() for word in sys.argv[1:])
    found = fault(json.loads(job), report)
    print(found or "obeys")
    return 1 if found else 0


if __name__ == "__main__":
    sys.exit(main())
