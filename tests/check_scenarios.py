#!/usr/bin/env -S python3 -B
"""Gives random scenarios to `rignolda`, and compares what it prints with an independent program.

    tests/check_scenarios.py [COUNT [SEED]]     200 scenarios by default, the same each time

Of each scenario `rignolda scenario` and `draw` have to print what tests/faults/scenario.py says, as
`draw` has to of a schedule of its acts, and of a random link job. Its picture has to have the rows
of that run in their order, and `rignolda explain` has to find nothing. Then one value of a step is
spoiled: where `rignolda scenario` refuses a step, the first thing that `explain` finds has to be at
that step, and else nothing. One in twenty is continued to 1,000,000 changes, or to one more, which
is refused, and which is all that `explain` finds.

The program is the one of check_tables.py. The last line is 'N passed, M failed'.
"""

import json
import random
import re
import sys
import xml.etree.ElementTree
from concurrent.futures import ThreadPoolExecutor

from programs import answered, counted, run_with
from faults.scenario import drawn_text, link_text, random_job, schedule_text, text_of
from jobs import asked, drawn_link

VALUES = [None, True, -1, 0, 1, 70000, 0.5, "", "x", "offer", "publish", "lose_frame", [], [0],
          [[0]], {}, {"send": 0, "recv": 1}, {"send": 0, "recv": 1, "acks": [1, 1, 1, 1]}]

TOO_MANY = "acts, publications and faults are too many; at most 1000000 are allowed"


def rows_of_text(text):
    """Of each line behind the start its step and its words, as a picture has them."""
    rows = []
    for number, node, event, *rest in map(str.split, text.splitlines()[1:]):
        if node == "-":
            rows.append((number, "", " ".join([event, *rest])))
        elif number != "0" and event != "anew":
            event = event if event in ("publish", "strike", "restart") else json.loads(event)
            rows.append((number, node, event if isinstance(event, str) else
                         " ".join(map(str, event))))
    return rows


def rows_of_picture(svg, names):
    """The same rows of a picture, from the columns before its links."""
    texts = [element for element in xml.etree.ElementTree.fromstring(svg).iter()
             if element.tag.endswith("}text")]
    at_words = 54 + 8 * (max(map(len, names)) + 1)
    column = {x: [element.text or "" for element in texts if element.get("x") == str(x)]
              for x in (44, 54, at_words)}
    return list(zip(column[44], column[54], column[at_words]))


def spoiled(draw, job):
    """A scenario with another value in one of its steps."""
    job = json.loads(json.dumps(job))
    place, way = draw.randrange(len(job["steps"])), draw.random()
    step = job["steps"][place]
    if way < 0.1:
        job["steps"][place] = draw.choice(VALUES)
    elif way < 0.2:
        step.append(draw.choice(VALUES))
    elif way < 0.3:
        step.pop()
    elif isinstance(step[-1], dict) and way < 0.6:
        step[-1][draw.choice(["send", "recv", "frames", "acks"])] = draw.choice(VALUES)
    else:
        step[draw.randrange(len(step))] = draw.choice(VALUES)
    return job


def fault_of_spoiled(file, draw, job):
    """Whether `explain` and `scenario` disagree on a scenario that is spoiled, or None."""
    if not job["steps"]:
        return None
    job = spoiled(draw, job)
    status, _, err = answered(file, "scenario", given=job)
    *found, last = answered(file, "explain", given=job)[1].splitlines()
    if last != "stab tree: accepted":
        return f"explain ends with {last!r} for {json.dumps(job)}"
    found = [line for line in found if ": ignored" not in line]
    number = re.match(r"rignolda: scenario: step (\d+): ", err)
    if status == 0:
        is_same = not found
    else:
        is_same = number and found and found[0].startswith(f"steps[{int(number[1]) - 1}]")
    return None if is_same else f"scenario says {err!r}, and explain {found} of {json.dumps(job)}"


def changes_of(job, steps):
    """How many changes these steps of a job are, as docs/FORMATS.md counts them."""
    own = job.get("links") or [None] * (len(job["tree"]) - 1)
    reading = sum(2 * (numbers or job)["capacity"] + 5 for numbers in own)
    each = {"rounds": 5 * len(own), "reading_rounds": reading}
    return sum(each[step[0]] * step[1] if isinstance(step[-1], int) and len(step) == 2 else 1
               for step in steps)


def fault_of_count(file, draw, job):
    """Whether the most changes are refused, or one more is not, or None."""
    kind, more = draw.choice(["rounds", "reading_rounds"]), draw.randrange(2)
    each = changes_of(job, [[kind, 1]])
    if each == 0:
        return None
    count, rest = divmod(1_000_000 - changes_of(job, job["steps"]), each)
    steps = [*[[kind, 65535]] * (count // 65535), [kind, count % 65535]]
    job = dict(job, steps=[*job["steps"], *steps, *[["publish", []]] * (rest + more)])
    status, _, err = answered(file, "scenario", given=job, timeout=600)
    wanted = (1, "rignolda: scenario: too many events\n") if more else (0, "")
    if (status, err) != wanted:
        return f"scenario says {err!r} with {more} more changes than the most, of {json.dumps(job)}"
    *found, last = answered(file, "explain", given=job, timeout=600)[1].splitlines()
    wanted = [f"steps: 1000001 {TOO_MANY}"] * more
    is_same = (found, last) == (wanted, "stab tree: accepted")
    return None if is_same else f"explain finds {found} with {more} more, of {json.dumps(job)}"


def fault_of(file, seed):
    """What is wrong with what is printed of a random scenario, or None."""
    draw = random.Random(seed)
    job, link = random_job(draw, file), drawn_link(draw)
    wanted = drawn_text(job)
    # (those of its steps that are acts are a schedule)
    acts = [step for step in job["steps"] if isinstance(step[-1], str)
            or len(step) == 3 and isinstance(step[-1], int)]
    schedule = {**{name: job[name] for name in job if name != "steps"}, "schedule": acts}
    for word, given, text in [
            ("scenario", job, text_of(job)), ("draw", job, wanted),
            ("explain", job, "stab tree: accepted\n"), ("draw", link, link_text(link)),
            ("draw", schedule, schedule_text(schedule))]:
        seen = answered(file, word, given=given, timeout=600)
        if seen != (0, text, ""):
            return f"{word} prints {seen}, and not {text!r}, of {json.dumps(given)}"
    status, svg, _ = answered(file, "draw", "--svg", given=job)
    names = [node["name"] for node in job["tree"]]
    if status != 0 or rows_of_picture(svg, names) != rows_of_text(wanted):
        return f"the picture has other rows, of {json.dumps(job)}"
    fault = fault_of_spoiled(file, draw, job)
    return fault or (fault_of_count(file, draw, job) if seed % 20 == 0 else None)


def main(file):
    count, first = asked(200, 49000)
    seeds = range(first, first + count)
    with ThreadPoolExecutor(4) as pool:
        faults = pool.map(lambda seed: fault_of(file, seed), seeds)
        return counted(((f"scenario {seed}", fault and fault[:2000])
                        for seed, fault in zip(seeds, faults)), quiet=True)


sys.exit(run_with(main, "rignolda"))
