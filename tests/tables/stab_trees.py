"""How `stab tree` and `stab run` read texts of one job of a tree, in the plain form or not.

A schedule in the plain form is read token by token, and any other text by way of a tree of values.
What has to come of each text is found by reader.py: of `stab run`, how many nodes it reports, or
why it refuses the job."""

import json
from functools import partial

from programs import paragraphs
from tables.reader import row
from tables.rows import HERE, Row
from tables.texts import FURTHER, WHOLE, broken, swapped

RUNS = [["run"], ["run", "--words"], ["run", "--mixed"]]
LONE = '{"capacity":1,"labels":4,"tree":[{"name":"r"}],"items":[7,8]}'
TREE = '"tree":[{"name":"r"},{"name":"a","parent":"r"},{"name":"b","parent":"a"}]'
ROOT_BETWEEN = '"tree":[{"name":"b","parent":"a"},{"name":"r"},{"name":"a","parent":"r"}]'
NUMBERS = '"capacity":1,"labels":4,"items":[7,8]'
STARTS = '"starts":[{"send":0,"recv":1},{"frames":[[2,99]],"acks":[0],"send":0,"recv":1}]'
STEPS = """\
"schedule":[["a","offer"],["a","send_frame"],["a","recv_frame_keep"],["b","recv_ack"],\
["b","recv_frame"],["b","offer"],["a","send_ack"],["b","send_frame"],["a","recv_ack"],\
["b","lose_frame",0],["b","send_frame"],["a","offer"],["b","recv_frame"],["a","lose_frame",0],\
["a","send_ack"],["a","lose_ack",0],["a","close"]]"""
PLAIN = "{" + ",".join([NUMBERS, TREE, STARTS, STEPS]) + "}"
# The plain text, with each of some others in place of a part of it.
changed = partial(swapped, PLAIN)

# The text of the tree of this job, found by hand.
TEXT = """\
r depth 0 received 2 acked -
items: 7 8
a depth 1 received 1 acked 1
items: 7
b depth 2 received 2 acked 0
items: 99 7
"""


def many(*more):
    """A job of a root with 63 children, whose schedule names each of them, and then has these
    steps."""
    names = [f"n{place}" for place in range(64)]
    tree = [{"name": name, **({"parent": "n0"} if name != "n0" else {})} for name in names]
    return json.dumps({"capacity": 1, "labels": 4, "tree": tree, "items": [7],
                       "schedule": [*([name, "offer"] for name in names[1:]), *more]})


TEXTS = [
    # as many names as a tree has, and more
    many(), many(["n0", "close"]), many(["x", "close"]), many(["n0", "close"], ["x", "close"]),
    many(["x", "close"], ["n1", "jump"]), many(["n0", "close"], ["x", "close"], ["y"]),
    many(*([f"x{place}", "close"] for place in range(70))), many(["n63", "send_frame"]),
    # the members in another order, white space, and escapes
    PLAIN, *("{" + ",".join(parts) + "}" for parts in [
        [STEPS, STARTS, TREE, NUMBERS], [TREE, STEPS, NUMBERS, STARTS],
        [NUMBERS, TREE, STEPS], [STEPS, NUMBERS, TREE], [NUMBERS, TREE, STARTS], [NUMBERS, TREE],
    ]),
    " \t\r\n" + PLAIN.replace(",", " ,\n").replace(":", "\t: ") + "\n ",
    # numbers in each place of one
    *(text for old, new in [
        ('"capacity":1', '"capacity":%s'), ('"labels":4', '"labels":%s'), ("[7,8]", "[7,%s]"),
        ('["b","lose_frame",0]', '["b","lose_frame",%s]'),
        ('["a","lose_ack",0]', '["a","lose_ack",%s]'),
        ("[[2,99]]", "[[2,%s]]"), ('"capacity":1', '"capacity":1,"turns":%s'),
        ('"capacity":1', '"capacity":1,"version":%s'),
    ] for number_text in [*WHOLE, "2", "1000000", "1000001"]
      for text in changed(old, new % number_text)),
    # further members, and members that come again
    *(text for further in FURTHER for old in ("{" + NUMBERS, '{"name":"r"')
      for text in changed(old, old + ',"note":' + further)),
    # a root between its children, so that the order of the links is not that of their depths
    *(PLAIN.replace(TREE, ROOT_BETWEEN).replace(*change) for change in [
        ("", ""), ('["b","recv_ack"]', '["c","recv_ack"]'),
        ('["b","recv_ack"]', '["r","recv_ack"]'), ("[7,8]", "[]"), (STARTS + ",", ""),
        ('"schedule"', '"schedule":null,"schedule"'),
    ]),
    # one part of it changed, as trees.rows has it
    *(text for it in paragraphs(HERE / "trees.rows") for old in it.get("old", [])
      for text in changed(old, *it["new"])),
    # texts that are cut short, go on, or are not UTF-8
    *broken(PLAIN),
]
ROWS = [row(place, words, text)
        for place, text in enumerate(TEXTS) for words in (["tree"], ["run"])]
# (worked out by hand)
ROWS += [Row("a tree", ["tree"], PLAIN, out=TEXT)]

# ---- other members, and which of two checks that fail is reported: the beginnings of jobs, the
# tasks that read them, and how they may go on

ROWS += [row(f"goes on with {more}", words.split(), f"{it['begins'][0]}{more}}}")
         for it in paragraphs(HERE / "trees.rows")
         for more in it.get("more", []) for words in it["words"]]
# (each task refuses what is no job)
ROWS += [row("no job", words, text) for text in broken(LONE) for words in RUNS]
