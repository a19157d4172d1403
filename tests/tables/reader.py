"""What `stab` has to answer to the bytes of a job: by Python's own reader of JSON, the checks of
docs/FORMATS.md in their order, and the plain link and tree of tests/faults/reference.py."""

import json
import math
from functools import partial

from faults.reference import Link, Tree
from tables.rows import Row, like

MOST_16, MOST_32, MOST_64 = 2**16 - 1, 2**32 - 1, 2**64 - 1
LEVELS = 127
EVENTS = {"send_frame", "recv_frame", "recv_frame_keep", "send_ack", "recv_ack", "recv_ack_keep",
          "close"}
LOSSES = {"lose_frame", "lose_ack"}
LETTERS = {"frames_out": "PDE", "frames_in": "TK", "acks_out": "PDE", "acks_in": "TK"}
NAME_BYTES = set("abcdefghijklmnopqrstuvwxyz0123456789_-")
SHAPE = "job: wrong shape"


class Refused(Exception):
    """A check that a job fails, and the text of its fault."""


class Pairs(list):
    """The members of an object, in their order, with those that come again."""


def must(holds, fault=SHAPE):
    """The fault where this does not hold."""
    if not holds:
        raise Refused(fault)


# ---- JSON


def number(text):
    """A number of JSON: an int where it is a whole one, and a float where it is not."""
    if math.isinf(float(text)):
        raise ValueError("too large")
    return int(text) if text.isdigit() and int(text) <= MOST_64 else float(text)


def checked(value, level=0):
    """Passes over a value, and refuses more levels and halves of surrogate pairs."""
    if isinstance(value, str):
        value.encode()
    elif isinstance(value, (list, tuple)):
        # (a member, as a tuple of its name and its value, is no level)
        level += isinstance(value, list)
        if level > LEVELS:
            raise ValueError("too deep")
        for entry in value:
            checked(entry, level)


def value_of(data):
    """The value that these bytes are as JSON: objects are `Pairs`."""
    try:
        # (Python's own words for numbers are no JSON, and int takes none of them)
        value = json.loads(data.decode(), parse_int=number, parse_float=number,
                           parse_constant=int, object_pairs_hook=Pairs)
        checked(value)
    except (ValueError, RecursionError):
        raise Refused("job: not JSON") from None
    return value


def has(value, name):
    """Whether an object has a member of that name."""
    return any(called == name for called, _ in value)


def member(value, name, *absent):
    """The last member of that name."""
    must(isinstance(value, Pairs))
    found = [of for called, of in value if called == name] or list(absent)
    must(found)
    return found[-1]


def whole(most, value):
    """Whether a value is a whole number up to this one."""
    return type(value) is int and value <= most


is_label, is_item, is_number = (partial(whole, most) for most in (MOST_16, MOST_32, MOST_64))


def entries(value, is_one=lambda _: True):
    """A list, and no object, of which each entry is one."""
    must(type(value) is list and all(map(is_one, value)))
    return value


# ---- parts of jobs


def is_frame(value):
    return type(value) is list and len(value) == 2 and is_label(value[0]) and is_item(value[1])


def numbers_of(value, *names):
    """The whole numbers that these members are."""
    found = [member(value, name) for name in names]
    must(all(map(is_number, found)))
    return found


def own_numbers_of(value):
    """The capacity and the number of labels of an entry of `links`, or None where it has none."""
    return None if value is None else numbers_of(value, "capacity", "labels")


def check_numbers(capacity, labels):
    """The three checks of these numbers."""
    must(1 <= capacity <= 64, "job: capacity out of range")
    must(labels >= 2 * capacity + 2, "job: too few labels")
    must(labels <= 1000, "job: too many labels")


def start_of(value):
    """A start: its frames, its acknowledgements and its two labels."""
    frames = entries(member(value, "frames", []), is_frame)
    acks = entries(member(value, "acks", []), is_label)
    ends = [member(value, name) for name in ("send", "recv")]
    must(all(map(is_label, ends)))
    return frames, acks, *ends


def check_start(start, capacity):
    """Whether a link of this capacity can begin so."""
    must(len(start[0]) <= capacity, "start: too many frames")
    must(len(start[1]) <= capacity, "start: too many acknowledgements")


def script_of(value):
    """How many acts a list of a script has at most, and its greatest rate."""
    if value is None:
        return 0, 0
    must(isinstance(value, Pairs))
    if not has(value, "seed"):
        lists = [member(value, name, "") for name in LETTERS]
        must(all(isinstance(of, str) for of in lists))
        must(all(set(of) <= set(kind) for of, kind in zip(lists, LETTERS.values())))
        return max(map(len, lists)), 0
    must(len(entries(member(value, "seed"), is_number)) == 2)
    length, *rates = numbers_of(value, "length", "loss", "repeat")
    return length, max(rates)


def parents_of(value):
    """The names of a tree's nodes, and by them those of their parents, after its eight checks."""
    must(type(value) is list and all(isinstance(of, Pairs) for of in value), "tree: wrong shape")
    names = [dict(of).get("name") for of in value]
    above = [dict(of).get("parent") for of in value]
    must(all(isinstance(of, str) for of in names), "tree: wrong shape")
    must(all(of is None or isinstance(of, str) for of in above), "tree: wrong shape")
    must(len(names) <= 64, "tree: too many nodes")
    must(all(1 <= len(of) <= 32 and set(of) <= NAME_BYTES for of in names), "tree: bad name")
    must(len(set(names)) == len(names), "tree: same name twice")
    must(all(of is None or of in names for of in above), "tree: unknown parent")
    must(None in above, "tree: no root")
    must(above.count(None) == 1, "tree: two roots")
    parents = dict(zip(names, above))
    for name in names:
        for _ in names:
            name = parents.get(name)
        must(name is None, "tree: cycle")
    return parents


def check_openings(openings, hold, parents):
    """The checks of what the nodes of a tree begin with."""
    must(hold <= 64, "job: h out of range")
    must(len(openings) == len(parents), "job: wrong number of openings")
    must(not any(opening for opening, (name, above) in zip(openings, parents.items())
                 if above is None or name not in parents.values()),
         "job: opening at the root or a leaf")
    must(all(len(opening) <= hold for opening in openings), "job: opening too long")


def is_event(word, *numbers, has_item=False):
    """Whether a word is the name of an event that needs these numbers; an offer may need its item.
    """
    if word == "offer":
        return len(numbers) == has_item and all(map(is_item, numbers))
    if not isinstance(word, str) or word not in LOSSES:
        return isinstance(word, str) and word in EVENTS and not numbers
    return len(numbers) == 1 and is_label(*numbers)


def is_link_event(value):
    """Whether a value is an event of a link job, where what needs nothing is a word alone."""
    if type(value) is list:
        return len(value) == 2 and is_event(*value, has_item=True)
    return isinstance(value, str) and value in EVENTS


def is_step(value):
    """Whether a value is a step of a schedule."""
    return (type(value) is list and len(value) > 1 and isinstance(value[0], str)
            and is_event(*value[1:]))


# ---- whole jobs


def link_of(data):
    """The link that the bytes of a link job mean, with the origin beside each item, and its events.
    """
    value = value_of(data)
    capacity, labels = numbers_of(value, "capacity", "labels")
    start, events = start_of(member(value, "start")), entries(member(value, "events"))
    check_numbers(capacity, labels)
    must(len(events) <= 1_000_000, "job: too many events")
    must(all(map(is_link_event, events)), "job: bad event")
    check_start(start, capacity)
    frames = [(label, (item, f"s{place}")) for place, (label, item) in enumerate(start[0])]
    return Link(capacity, labels, frames, *start[1:]), events


def tree_of(data):
    """The tree that the bytes of a job mean, the names of its nodes, and its schedule."""
    value = value_of(data)
    version = member(value, "version", 1) if isinstance(value, Pairs) else 1
    must(type(version) is int and version in (1, 2), "job: unknown version")
    own, tree = numbers_of(value, "capacity", "labels"), member(value, "tree")
    items = entries(member(value, "items"), is_item)
    links, starts, scripts = (
        has(value, name) and [of(one) for one in entries(member(value, name))]
        for name, of in (("links", own_numbers_of), ("starts", start_of), ("scripts", script_of)))
    turns = member(value, "turns", 100_000)
    must(is_number(turns))
    schedule = entries(member(value, "schedule", []))
    hold, openings = 0, None
    if version == 2:
        hold, = numbers_of(value, "h")
        if has(value, "openings"):
            openings = [entries(of, is_item)
                        for of in entries(member(value, "openings"))]
    check_numbers(*own)
    parents = parents_of(tree)
    children = [name for name, above in parents.items() if above is not None]
    must(len(items) <= 10_000, "job: too many items")
    must(len(schedule) <= 1_000_000, "job: too many events")
    must(starts is False or len(starts) == len(children), "job: wrong number of starts")
    must(scripts is False or len(scripts) == len(children), "job: wrong number of scripts")
    for acts, rate in scripts or []:
        must(acts <= 100_000, "job: script too long")
        must(rate <= 1000, "job: rate out of range")
    must(1 <= turns <= 1_000_000, "job: turns out of range")
    must(all(map(is_step, schedule)), "job: bad event")
    must(all(name in parents for name, *_ in schedule), "job: unknown node")
    must(links is False or len(links) == len(children), "job: wrong number of links")
    links = [numbers or own for numbers in links or [None] * len(children)]
    for numbers in links:
        check_numbers(*numbers)
    openings = [[] for _ in parents] if openings is None else openings
    check_openings(openings, hold, parents)
    of_child = dict(zip(children, zip(links, starts or [([], [], 0, MOST_16)] * len(children))))
    names = list(parents)
    tree = Tree([above and names.index(above) for above in parents.values()],
                [of_child.get(name) for name in names], items)
    tree.openings = openings
    return tree, names, schedule


def begin(tree, words):
    """Has the links of a tree begin, in their order, for a task that these words name."""
    wide = [numbers[0] > 1 for numbers, _ in filter(None, tree.links)]
    must("--words" not in words or not any(wide), "run: capacity is not one")
    for place, (numbers, start) in enumerate(of or (None, None) for of in tree.links):
        if numbers:
            check_start(start, numbers[0])
            tree.links[place] = Link(*numbers, *start)


# ---- texts


def line(name, *listed):
    return " ".join([f"{name}:", *map(str, listed)]) + "\n"


def text_of_link(data, is_traced=False):
    """The text of a link after its events, by the table of docs/PROTOCOL.md."""
    link, events = link_of(data)
    for event in events:
        word, place = (event, 0) if isinstance(event, str) else event
        link.act(word, [*link.offered, (place, f"i{len(link.offered)}")], place)
    delivered, origins = zip(*link.delivered) if link.delivered else ((), ())
    text = line("delivered", *delivered) + line("offered", *(item for item, _ in link.offered))
    text += line("acked", link.acked) + line("send label", link.send)
    text += line("recv label", link.recv)
    text += line("frames", *(f"{label}={item}" for label, (item, _) in link.frames))
    text += line("acks", *link.acks) + line("closed", "yes" if link.closed else "no")
    return text + line("origins", *origins) * is_traced


def text_of_tree(data):
    """The text of a tree after its schedule."""
    tree, names, schedule = tree_of(data)
    begin(tree, ["tree"])
    for name, word, *place in schedule:
        child = names.index(name)
        must(tree.links[child], "step: no such link")
        tree.act(child, word, *place)
    text = ""
    for node, name in enumerate(names):
        depth, link, items = len(list(tree.path(node))), tree.links[node], tree.list_of(node)
        text += (f"{name} depth {depth} received {len(items)} acked "
                 f"{link.acked if link else '-'}\n" + line("items", *items))
    return text


def report_of(data, words):
    """What a report of a run has to be like: how far it comes is up to its threads."""
    tree, names, _ = tree_of(data)
    begin(tree, words)
    heads = [f"\n{name} depth {len(list(tree.path(node)))} received "
             for node, name in enumerate(names)]
    return like(begins=heads[0][1:], parts=heads[1:], lines=2 * len(names))


def row(name, words, given):
    """The row of `stab` with these words and this job, as a text or as bytes."""
    data = given if isinstance(given, bytes) else given.encode("utf-8", "surrogatepass")
    made = Row(f"{' '.join(words)}: {name}: {data[:200]!r}", words, data)
    try:
        if words[0] == "link":
            made.out = text_of_link(data, "--trace" in words)
        else:
            made.out = text_of_tree(data) if words[0] == "tree" else report_of(data, words)
    except Refused as refused:
        made.status = 1 if str(refused).startswith(("job", "tree")) else 3
        made.err = f"stab: {refused}\n"
    return made
