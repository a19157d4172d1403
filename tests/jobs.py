"""Drawn jobs of a link or a tree, and spoilt lists, for the checks that compare what is said of
them."""
import json
import re
import sys

from programs import answered


def asked(*usual):
    """The numbers that the command line says, and where it says fewer what is usual."""
    given = [int(word) for word in sys.argv[1:]]
    return [*given, *usual[len(given):]]


def drawn_tree(draw, rignolda, names=(), **options):
    """A job of `rignolda random` with these options, in which some parts are left out. Its nodes
    get some of these names, if any are given."""
    options = {"seed": draw.randrange(1 << 32), **options}
    said = answered(rignolda, "random", *(f"--{it}={n}" for it, n in options.items()))[1]
    if names:
        names = draw.sample(names, len(names))
        said = re.sub(r'"n(\d+)"', lambda it: f'"{names[int(it[1])]}"', said)
    made = json.loads(said)
    for parts in ["links"], ["starts"], ["scripts"], ["version", "h", "openings"]:
        if draw.random() < 0.3:
            for part in parts:
                made.pop(part, None)
    return made


def drawn_items(draw, top):
    """A function that draws an item below `top`."""
    return lambda: draw.choice([draw.randrange(min(top, 100)), draw.randrange(top), top - 1])


def drawn_start(draw, capacity, labels, top):
    """Any start that fits; what is empty may be left out."""
    label = lambda: draw.choice([draw.randrange(4), draw.randrange(labels), draw.randrange(labels),
                                 draw.randrange(1 << 16)])
    item = drawn_items(draw, top)
    start = {"frames": [[label(), item()] for _ in range(draw.randint(0, capacity))],
             "acks": [label() for _ in range(draw.randint(0, capacity))],
             "send": label(), "recv": label()}
    return {name: value for name, value in start.items() if value != [] or draw.random() < 0.5}


def drawn_link(draw, top=1 << 32):
    """A job that `stab link` accepts: any start that fits, and events that mostly do something. Its
    items are below `top`, so that many are equal where that is small."""
    capacity = draw.choice([1, 1, 1, 2, 2, 3, 4, 8, draw.randint(1, 64)])
    least, item = 2 * capacity + 2, drawn_items(draw, top)
    labels = draw.choice([least, least + 1, least + draw.randrange(4), draw.randint(least, 1000)])
    start = drawn_start(draw, capacity, labels, top)
    words = ["offer"] * 3 + ["send_frame", "recv_frame", "send_ack", "recv_ack"] * 4
    words += ["recv_frame_keep", "recv_ack_keep", "lose_frame", "lose_ack"]
    events = []
    for _ in range(draw.choice([0, 5, 40, 200, 400])):
        word = draw.choice(words)
        if word == "offer":
            word = [word, item()]
        elif word.startswith("lose"):
            word = [word, draw.choice([0, 1, draw.randrange(capacity + 1), 65535])]
        events.append(word)
    if draw.random() < 0.1:
        events.insert(draw.randint(0, len(events)), "close")
    return {"capacity": capacity, "labels": labels, "start": start, "events": events}


def spoilt_items(draw, way, items, top):
    """These items, but for one place: there two are swapped, or one is doubled, altered, dropped or
    added."""
    at, added = draw.randrange(len(items)) if items else 0, draw.randrange(top)
    front, rest = items[:at], items[at:]
    return front + {
        "swap": rest[:2][::-1] + rest[2:], "double": rest[:1] + rest, "drop": rest[1:],
        "alter": [draw.choice([item ^ 1, added]) for item in rest[:1]] + rest[1:],
        "add": [added, *rest]}[way]
