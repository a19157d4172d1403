"""Jobs of `stab` at the limits of what they may have, and beyond: long lists, scripts and files."""

from tables.rows import Row, made, refusals

# The most bytes of a file.
MOST = 16_777_216
OF_TREES = [["tree"], ["run"], ["run", "--words"], ["run", "--mixed"]]

# A job of one node, one of two, and a link job.
LONE = {"capacity": 1, "labels": 4, "tree": [{"name": "r"}], "items": [7, 8]}
PAIR = {**LONE, "tree": [{"name": "r"}, {"name": "a", "parent": "r"}]}
LINK = {"capacity": 1, "labels": 4, "start": {"send": 0, "recv": 3}, "events": []}

# The lists of a script, each with as many letters as it may have, and what is printed of it.
LISTS = {name: letter * 100_000 for name, letter in [
    ("frames_out", "E"), ("frames_in", "K"), ("acks_out", "D"), ("acks_in", "T")]}
NO_ITEMS = "r depth 0 received 0 acked -\nitems:\na depth 1 received 0 acked 0\nitems:\n"

# What is printed of a link that has room for the first of its acknowledgements, and is closed.
CLOSED = """\
delivered:
offered:
acked: 0
send label: 0
recv label: 3
frames:
acks: 3
closed: yes
"""


def script(**more):
    """A job of two nodes with these lists in its script."""
    return made(PAIR, items=[], scripts=[more])


def events(count, last, first="send_ack"):
    """A link job with `count` events, of which the last and the first are these."""
    return made(LINK, events=[first, *["send_ack"] * (count - 2), last])


ROWS = [
    # (the last one of 1,000,000 steps delivers a stray)
    Row("makes 1000000 steps", ["tree"],
        made(PAIR, starts=[{"frames": [[2, 99]], "send": 0, "recv": 1}],
             schedule=[["a", "offer"]] * 999_999 + [["a", "recv_frame"]]),
        out="r depth 0 received 2 acked -\nitems: 7 8\na depth 1 received 1 acked 0\nitems: 99\n"),
    Row("reads a script of 100000 acts", ["tree"], script(frames_out=LISTS["frames_out"]),
        out=NO_ITEMS),
    Row("reads 100000 letters in each list", ["tree"], script(**LISTS), out=NO_ITEMS),
    Row("reads a link job of 1000000 events", ["link"], events(1_000_000, "close"), out=CLOSED),
]
ROWS += [
    row for name, job, said, *tasks in [
        ("reads 10000 items", made(LONE, turns=0, items=[7] * 10_000), "job: turns out of range"),
        ("refuses 10001 items", made(LONE, turns=0, items=[7] * 10_001), "job: too many items"),
        ("reads 1000000 steps", made(LONE, schedule=[["r", "close"]] * 1_000_000),
         "step: no such link"),
        ("refuses 1000001 steps", made(LONE, schedule=[0] * 1_000_001), "job: too many events"),
        ("refuses a bad event after 999999 others", events(1_000_000, "jump"), "job: bad event",
         ["link"]),
        ("refuses a bad event before 999999 others", events(1_000_000, "close", ["jump", 0]),
         "job: bad event", ["link"]),
        ("refuses 1000001 events before a bad one", events(1_000_001, "jump"),
         "job: too many events", ["link"]),
        ("refuses 1000001 events before a bad one that is the first of them",
         events(1_000_001, "close", "jump"), "job: too many events", ["link"]),
        ("refuses 100001 letters", script(**{**LISTS, "acks_in": "T" * 100_001}),
         "job: script too long", *OF_TREES),
        *((f"refuses 100001 letters of {name}", script(**{name: letters + letters[0]}),
           "job: script too long") for name, letters in LISTS.items()),
        ("refuses 100001 letters and a wrong one among them",
         script(**{**LISTS, "acks_in": LISTS["acks_in"] + "X"}), "job: wrong shape"),
        ("reads 16777216 bytes", lambda _: " " * MOST, "job: not JSON", ["tree"], ["link"]),
        ("refuses 16777217 bytes", lambda _: " " * (MOST + 1), "file: too long",
         ["tree"], ["link"]),
        ("refuses a file without an end", "", "file: too long", ["link", "/dev/zero"]),
    ]
    for row in refusals(name, job, said, tasks or [["tree"]])
]
