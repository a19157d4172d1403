"""The runs that `rignolda draw` draws, as text and as pictures. What is drawn as text is that of
tests/faults/scenario.py."""

import json
import re

from examples import DATA
from faults.scenario import drawn_text, link_text, schedule_text
from tables.rows import Row, like

# A link job.
JOB = """\
{"capacity": 1, "labels": 4,
    "start": {"frames": [[2, 99]], "acks": [0], "send": 0, "recv": 1},
    "events": [["offer", 10], "recv_ack", "recv_frame"]}"""

# A job of a tree, whose root has one item: the second offer finds none.
TREE_JOB = """\
{"capacity": 1, "labels": 4,
    "tree": [{"name": "r"}, {"name": "a", "parent": "r"}], "items": [10],
    "starts": [{"frames": [[2, 99]], "acks": [], "send": 0, "recv": 1}],
    "schedule": [["a", "recv_frame"], ["a", "offer"], ["a", "offer"]]}"""

# A scenario: 8 is published, then the link into a is struck, which leaves the item that r holds; a
# round brings it; and a restarts, after which b is offered 50.
SCENARIO = """\
{"capacity": 1, "labels": 4,
    "tree": [{"name": "r"}, {"name": "a", "parent": "r"}, {"name": "b", "parent": "a"}],
    "items": [7],
    "steps": [["a", "offer"], ["publish", [8, 9]],
        ["strike", "a", {"frames": [[2, 99]], "send": 1, "recv": 0}], ["rounds", 1],
        ["restart", "a", [50]], ["b", "offer"], ["b", "lose_ack", 0]]}"""

# What their pictures have: a title, a stray that is delivered, in the first an item that is
# acknowledged without being delivered; and what no picture may have.
NEVER = ["<script", "href", "@import", "url(h"]
PICTURE, TREE_PICTURE, SCENARIO_PICTURE = (like(parts=parts, without=NEVER) for parts in (
    ['<svg xmlns="http://www.w3.org/2000/svg" role="img"', "<title>The run of a link</title>",
     "<desc>", "prefers-color-scheme: dark", ">capacity 1, 4 labels</text>", ">holds 10</text>",
     ">10 missing</text>", ">stray 99</text>", "</svg>\n"],
    ["<title>The run of a schedule</title>", ">r</text>", ">a</text>", ">offer 10</text>",
     ">offer</text>", ">stray 99</text>"],
    ["<title>The run of a scenario</title>", ">publish</text>", ">strike</text>",
     ">round 1 of 1</text>", ">restart</text>", ">restarts</text>", ">begins anew</text>",
     ">stray 99</text>", ">queue full</text>"]))

# Three nodes, the root first, and the root between its two descendants, up to what a case adds: the
# capacity and the number of labels of each link.
THREE = [
    '{"capacity":1,"labels":4,"tree":[{"name":"r"},{"name":"a","parent":"r"},'
    '{"name":"b","parent":"a"}],"items":[7,8],',
    '{"capacity":1,"labels":4,"tree":[{"name":"b","parent":"a"},{"name":"r"},'
    '{"name":"a","parent":"r"}],"items":[7,8],',
]
LINKS = [
    ('"turns":1', (1, 4), (1, 4)),
    ('"links":[{"capacity":64,"labels":1000},null]', (64, 1000), (1, 4)),
    ('"links":[{"capacity":2,"labels":6},{"labels":8,"capacity":3,"more":null}]', (2, 6), (3, 8)),
    ('"links":[null,{"capacity":2,"labels":6}]', (1, 4), (2, 6)),
]


def has_links(*numbers):
    """A picture of links with these capacities and numbers of labels, in their order."""
    def fault(text, _):
        found = re.findall(">capacity ([0-9]+), ([0-9]+) labels<", text)
        seen = tuple((int(capacity), int(labels)) for capacity, labels in found)
        return None if seen == numbers else f"it has the links {seen}, and not {numbers}"

    return fault


ROWS = [
    Row("draws a run", ["draw"], JOB, out=link_text(json.loads(JOB))),
    Row("draws a schedule", ["draw"], TREE_JOB, out=schedule_text(json.loads(TREE_JOB))),
    Row("draws the run of a file", ["draw", "job"], files={"job": JOB},
        out=link_text(json.loads(JOB))),
    Row("draws a picture", ["draw", "--svg"], JOB, out=PICTURE),
    Row("draws the picture of a schedule", ["draw", "--svg"], TREE_JOB, out=TREE_PICTURE),
    *(Row(f"draws a link of capacity {capacity} with {labels} labels", ["draw", "--svg"],
          JOB.replace('"capacity": 1, "labels": 4', f'"capacity": {capacity}, "labels": {labels}'),
          out=like(parts=[f">capacity {capacity}, {labels} labels</text>"]))
      for capacity, labels in [(64, 130), (1, 1000)]),
    Row("draws the picture of a file", ["draw", "job", "--svg"], files={"job": JOB}, out=PICTURE),
    *(Row(f"draws the numbers of each link: {members}, {place}", ["draw", "--svg"],
          before + members + "}", out=has_links(*numbers))
      for place, before in enumerate(THREE) for members, *numbers in LINKS),
    Row("draws a lone root without links", ["draw", "--svg"],
        '{"capacity":1,"labels":4,"tree":[{"name":"r"}],"items":[7],"links":[]}', out=has_links()),
    Row("draws a scenario", ["draw"], SCENARIO, out=drawn_text(json.loads(SCENARIO))),
    Row("draws the picture of a scenario", ["draw", "--svg"], SCENARIO, out=SCENARIO_PICTURE),
    Row("draws no steps that are no list", ["draw"],
        SCENARIO.replace('"steps": [', '"steps": 5, "s": ['),
        status=1, err="rignolda: scenario: no list of steps\n"),
    Row("draws no scenario with a step that is none", ["draw", "--svg"],
        SCENARIO.replace('["b", "offer"]', '["r", "offer"]'), status=1,
        err="rignolda: scenario: step 6: no link into the root\n"),
    Row("draws no scenario that cannot begin", ["draw"],
        SCENARIO.replace('"items": [7]', '"items": [7], "starts": [{"frames": [[0, 1], [0, 2]], '
                         '"send": 0, "recv": 0}, {"send": 0, "recv": 0}]'),
        status=3, err="rignolda: start: too many frames\n"),
    *(Row(f"draws the example {file.stem}", ["draw"], file.read_text(),
          out=drawn_text(json.loads(file.read_text())))
      for file in sorted(DATA.glob("scenarios/*.json"))),
]
