#!/usr/bin/env -S python3 -B
"""Checks that `rignolda check` accepts what `stab` prints, and refuses what is spoiled where it is.

    tests/check_reports.py [COUNT [SEED]]     500 jobs by default, the same each time

Each job is one of `rignolda random`: a tree with starts, scripts, openings, links of their own and
few turns; here many items are made equal to one another and to strays. `stab run`, with `--words`,
`--mixed` or neither, or `stab tree` prints a report of it, which `rignolda check` has to accept.
Then one item is swapped with the next, doubled, altered, dropped or added, or a count, an ending or
a byte is altered, and `rignolda check` has to answer what agents/check_report.py answers, a plain
program from docs/FORMATS.md: that the report obeys, or which node is the first one that does not,
or that the text is no report. One job in five is a link job, of which `stab link` prints the text;
there an item or the count is altered, and the link is judged as the only one of a tree.

Which part is named, and which line of a text that is no report, is in tables/rignolda_check.py. The
programs are those of check_tables.py. The last line is 'N passed, M failed'.
"""

import collections
import json
import random
import re
import sys
import tempfile
from pathlib import Path

from programs import Cases, answered, run_with
import check_report
from jobs import asked, drawn_link, drawn_tree, spoilt_items

# How the plain program ends where a text is no report.
NO_REPORT = "another form", "number of items", "each node", "not end", "have an end"
# Long runs of a chain that begins clean: the words, the number of items, that of the turns, and how
# long its links lose and repeat.
LONG = [(["run"], 1_000, 4_000, 200), (["run", "--words"], 10_000, 25_000, 20_000)]
CHAIN = [{"name": "r"}, {"name": "a", "parent": "r"}, {"name": "b", "parent": "a"}]
COMMANDS = [["link"], ["run"], ["run", "--words"], ["run", "--mixed"], ["tree"]]
WAYS = ["swap", "double", "alter", "drop", "add"] * 3 + ["count", "end", "byte"]


def drawn_job(draw, words, rignolda):
    """A job of `rignolda random`, in which some parts are left out, and items are often equal; all
    capacities are 1 where its links are to be words."""
    capacity = 1 if words else draw.choice([1, 1, 2, 3])
    made = drawn_tree(
        draw, rignolda, nodes=draw.choice([1, 2, 3, 4, 5, 8]), capacity=capacity,
        labels=2 * capacity + 2 + draw.randrange(4), items=draw.randrange(14),
        turns=draw.choice([1, 3, 10, 40, 200, 1000]), loss=draw.choice([0, 100, 400]),
        repeat=draw.choice([0, 300]), hold=draw.choice([0, 3]), schedule=draw.choice([0, 30, 200]))
    # (items are drawn below 1000)
    other = draw.choice([lambda it: it % 3, lambda it: it % 20, lambda it: it * 4294967])
    for items in [made["items"], *made.get("openings", [])]:
        items[:] = map(other, items)
    for start in made.get("starts", []):
        start["frames"] = [[label, other(item)] for label, item in start["frames"]]
    return made


def listed(name, items):
    """A line of items."""
    return " ".join([name, *map(str, items)])


def items_of(line):
    """The items of such a line."""
    return [*map(int, line.split()[1:])]


def spoiled(draw, text):
    """The text with one item, count or ending altered, or one byte. Mostly the number of items is
    counted again, so that the text is still that of a report."""
    lines = text.split("\n")
    node = 2 * draw.randrange(len(lines) // 2)
    way = draw.choice(WAYS)
    if way == "byte":
        at = draw.randrange(len(text))
        return way, text[:at] + draw.choice(["", " ", "0", "\n", "7"]) + text[at + 1:]
    if way == "count":
        count = draw.choice(["-", 0, 1, 2, 5, 9])
        lines[node] = re.sub("acked (-|[0-9]+)", f"acked {count}", lines[node])
    elif way == "end":
        ended = draw.choice([" ended upstream", " ended turns", ""])
        lines[node] = re.sub(" ended .*", ended, lines[node])
    else:
        items = spoilt_items(draw, way, items_of(lines[node + 1]), 20)
        lines[node + 1] = listed("items:", items)
        if draw.random() < 0.95:
            lines[node] = re.sub("received [0-9]+", f"received {len(items)}", lines[node])
    return way, "\n".join(lines)


def spoiled_link(draw, text):
    """The text of a link with one delivered or offered item altered, or the count."""
    lines, way = text.split("\n"), draw.choice(WAYS[:-2])
    if way == "count":
        lines[2] = f"acked: {draw.choice([0, 1, 2, 5, 9])}"
    else:
        at = draw.randrange(2)
        items = spoilt_items(draw, way, items_of(lines[at]), 20)
        lines[at] = listed(lines[at].split()[0], items)
    return way, "\n".join(lines)


def fault_of(job, text):
    """What the plain program says of a report of a run or of a tree, or None."""
    if not re.search(" ended (upstream|turns)$", text.split("\n")[0]):
        # (the text of a tree says of no node how it ended)
        if " ended" in text:
            return "not all lines have an end"
        text = re.sub("(acked (-|[0-9]+))$", r"\1 ended turns", text, flags=re.M)
    return check_report.fault(job, text)


def fault_of_link(job, text):
    """What it says of the text of a link, as of a tree with this link alone, or None."""
    delivered, offered, (acked,) = map(items_of, text.splitlines()[:3])
    offers = [event[1] for event in job["events"] if event[0] == "offer"]
    if not check_report.is_subsequence(offered, offers) or len(offered) > acked + 1:
        return "it was offered otherwise"
    tree = {"tree": CHAIN[:2], "items": offered, "capacity": job["capacity"],
            "starts": [job["start"]]}
    return check_report.fault(tree, "".join(
        f"{name} received {len(has)} acked {count} ended turns\n{listed('items:', has)}\n"
        for name, count, has in (("r depth 0", "-", offered), ("a depth 1", acked, delivered))))


def fault_of_long(stab, words, count, turns, length):
    """What is wrong with the report of a long run, or None. How far it comes is up to its threads,
    but a link behind a lock loses no item where it begins clean."""
    script = {"seed": [42, 54], "length": length, "loss": 300, "repeat": 300}
    job = {"capacity": 1, "labels": 4, "turns": turns, "tree": CHAIN, "scripts": [script, script],
           "items": list(range(1, count + 1))}
    status, text, err = answered(stab, *words, given=job)
    lists = [line.split()[1:] for line in text.splitlines()[1::2]]
    if words == ["run"] and any(has != lists[0][:len(has)] for has in lists):
        return "an item is missing"
    return err if status else check_report.fault(job, text)


def answer_of(rignolda, folder, job, text, swapped):
    """The status of `rignolda check`, and the first line that it writes, on either output."""
    (folder / "job").write_text(job)
    (folder / "report").write_text(text)
    words, given = (["job", "-"], text) if swapped else (["-", "report"], job)
    status, out, err = answered(rignolda, "check", *words, given=given, cwd=folder)
    return status, (out or err).split("\n")[0]


def agrees(fault, status, line):
    """Whether `rignolda check` answers what the plain program has found."""
    if not fault:
        return (status, line) == (0, "obeys")
    if fault.endswith(NO_REPORT):
        return status == 1 and line.startswith("rignolda: not a report: ")
    node = re.match(r"[a-z0-9_-]+: ", line)
    return status == 1 and (line.startswith(("the link law", "the offered"))
                            or bool(node) and fault.startswith(node[0]))


def main(stab, rignolda):
    """Draws jobs, and compares."""
    count, seed = asked(500, 1)
    draw, cases, found = random.Random(seed), Cases(), collections.Counter()
    for run in LONG:
        fault = fault_of_long(stab, *run)
        cases.holds(f"{run[1]} items, by {' '.join(run[0])}", fault is None, fault)
    with tempfile.TemporaryDirectory() as folder:
        for case in range(count):
            command = draw.choice(COMMANDS)
            is_link = command == ["link"]
            job = drawn_link(draw, draw.choice([3, 20, 1 << 32])) if is_link else drawn_job(
                draw, "--words" in command, rignolda)
            whole = json.dumps(job)
            status, text, err = answered(stab, *command, given=whole)
            if status:
                cases.holds(f"{case}: stab {command}", False, err + whole)
                continue
            way, other = (spoiled_link if is_link else spoiled)(draw, text)
            for kind, report in (("true", text), (way, other)):
                fault = (fault_of_link if is_link else fault_of)(job, report)
                status, line = answer_of(rignolda, Path(folder), whole, report,
                                         draw.random() < 0.5)
                found[kind, "broken" if fault else "obeys"] += 1
                if kind == "true":
                    # (the plain tree law accepts what is printed, too)
                    law = fault or not is_link and check_report.tree_fault(job, report)
                    cases.holds(f"{case}: the laws", not law, f"{law}\n{whole}\n{report}", True)
                cases.holds(f"{case}, {kind}", agrees(fault, status, line),
                            f"{fault}, and the answer is {status} {line}\n{whole}\n{report}", True)
    for (kind, what), times in sorted(found.items()):
        print(f"{kind}: {what} {times}")
    return cases.sum_up()


if __name__ == "__main__":
    sys.exit(run_with(main, "stab", "rignolda"))
