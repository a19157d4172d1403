"""scenario.py: what `rignolda scenario` prints, and the runs that `rignolda draw` draws, in plain
Python, from man/rignolda.1, docs/USING.md and the rules of reference.py beside it; and random
scenarios, for tests/check_scenarios.py.

It is an independent program: nothing of it is made from the crates. It takes scenarios that are
well formed; what is refused is in the tables of tests/check_tables.py."""
import json
import re

from jobs import drawn_start, drawn_tree
from faults.reference import ACTS, ROUND, Count, Link, reading_round
from tables.reader import Pairs, begin, line, start_of, tree_of

# What nodes may be called, some of them as steps are.
WORDS = ["publish", "strike", "restart", "rounds", "reading_rounds", "offer", "a", "b", "c"]

LINE = "{:<5} {:<9} {:<19} {:<7} {:<5} {:<5} {:<5} {:<11} {:<7} {:<9} {}"
HEAD = "step link event effect label holds acked frames acks remembers delivers"


def listed(entries):
    return ",".join(map(str, entries)) or "-"


def cells(link, event, effect="-"):
    """What a line says of a link as it is now."""
    holds = link.offered[link.acked:] or ["-"]
    frames = listed(f"{label}={item}" for label, item in link.frames)
    return (event, effect, link.send, holds[0], link.acked, frames, listed(link.acks), link.recv,
            link.delivered[-1] if effect == "Fresh" else "-")


class Scenario:
    """What becomes of a tree, and a line for all that happens, the starts of its links first."""

    def __init__(s, job):
        s.tree, s.names, _ = tree_of(json.dumps(job).encode())
        begin(s.tree, ["tree"])
        s.since, s.counts = [0] * len(s.names), {0: Count(s.tree)}
        s.number, s.out = 0, [LINE.format(*HEAD.split())]
        for child, link in enumerate(s.tree.links):
            if link:
                s.draw(child, "start")
        for number, step in enumerate(job["steps"], 1):
            s.step(number, step)

    def draw(s, child, event, effect="-"):
        """The line of a link as it is now."""
        shown = cells(s.tree.links[child], event, effect)
        s.out.append(LINE.format(s.number, s.names[child], *shown))

    def mark(s, node, event, items=None):
        """The line of a node, or of all links."""
        if items is not None:
            event = f"{event:<19} " + line("items", *items)[:-1]
        s.out.append(f"{s.number:<5} {'-' if node is None else s.names[node]:<9} {event}")

    def take(s, child, act, place=0):
        """The link into a node takes an act."""
        link, above = s.tree.links[child], s.tree.list_of(s.tree.parents[child])
        word = json.dumps(act)
        if act.startswith("lose"):
            word = f'["{act}",{place}]'
        if act == "offer" and len(link.offered) < len(above):
            word = f'["offer",{above[len(link.offered)]}]'
        s.draw(child, word, s.tree.act(child, act, place))

    def step(s, number, step):
        """A step is told by its last value, since a node may be called like a step."""
        s.number, last, tree = number, step[-1], s.tree
        if len(step) == 2 and isinstance(last, list):
            tree.published += last
            s.mark(tree.parents.index(None), "publish", last)
        elif len(step) == 2 and isinstance(last, int):
            reads = step[0] == "reading_rounds"
            for place in range(1, last + 1):
                s.mark(None, f"{'reading ' * reads}round {place} of {last}")
                for child, link in enumerate(tree.links):
                    for act in (reading_round(link.capacity) if reads else ROUND) if link else ():
                        s.take(child, act)
        elif isinstance(last, dict):
            node = s.names.index(step[1])
            tree.links[node].strike(*start_of(Pairs(last.items())))
            s.hit(number, node)
            s.draw(node, "strike")
        elif isinstance(last, list):
            node = s.names.index(step[1])
            tree.restart(node, last)
            s.hit(number, node)
            s.mark(node, "restart", last)
            for child, parent in enumerate(tree.parents):
                if parent == node:
                    s.draw(child, "anew")
        else:
            s.take(s.names.index(step[0]), *step[1:])

    def hit(s, number, place):
        """A fault at this node, or at the link into it, hits it and all nodes beneath."""
        s.counts[number] = Count(s.tree)
        for node in range(len(s.names)):
            at = node
            while at is not None and at != place:
                at = s.tree.parents[at]
            if at == place:
                s.since[node] = number

    def lines(s):
        for node, name in enumerate(s.names):
            since, got = s.since[node], s.tree.published
            if s.tree.links[node]:
                strays, missing, published, got = s.counts[since].of(s.tree, node)
                yield (f"{name} since {since} received {len(got)}, strays at most {strays}, "
                       f"missing among the first {missing}\n" + line("items", *got)
                       + line("published", *published))
            else:
                yield f"{name} since {since} published {len(got)}\n" + line("items", *got)


def text_of(job):
    return "".join(Scenario(job).lines())


def drawn_text(job):
    return "\n".join([*Scenario(job).out, ""])


def schedule_text(job):
    """The run of a schedule, which is drawn as a scenario of its events, without their numbers."""
    return re.sub("(?m)^.{6}", "", drawn_text({**job, "steps": job["schedule"]}))


def link_text(job):
    """The run of a link job, which is drawn without the name of a node as well."""
    link = Link(job["capacity"], job["labels"], **job["start"])
    rows = [HEAD.split()[2:], cells(link, "start")]
    for event in job["events"]:
        effect = link.take(event)
        rows.append(cells(link, json.dumps(event, separators=(",", ":")), effect))
    return "".join(LINE.format("", "", *row)[16:] + "\n" for row in rows)


# ---- random scenarios

def random_step(rng, names, links):
    """One step of a tree with these links, by the names of their children."""
    draw = rng.random()
    items = [rng.randrange(100, 200) for _ in range(rng.randint(0, 3))]
    if draw < 0.04:
        return ["publish", items]
    if draw < 0.08:
        return ["restart", rng.choice(names), items]
    if draw < 0.1 or not links:
        return ["rounds" if rng.random() < 0.5 else "reading_rounds", rng.randint(0, 4)]
    child = rng.choice(list(links))
    if draw < 0.15:
        return ["strike", child, drawn_start(rng, *links[child], 1000)]
    if draw < 0.153:
        return [child, "close"]
    act = rng.choice(ACTS)
    return [child, act, rng.randrange(3)] if act.startswith("lose") else [child, act]


def random_job(rng, rignolda):
    """A tree of `rignolda random`, whose nodes may be called like steps, with drawn steps."""
    capacity = rng.randint(1, 3)
    job = drawn_tree(rng, rignolda, WORDS, nodes=rng.randint(1, 6), capacity=capacity,
                     labels=2 * capacity + 2 + rng.randint(0, 2), items=rng.randint(0, 6), hold=3)
    for part in "scripts", "schedule":
        job.pop(part, None)
    names = [node["name"] for node in job["tree"]]
    children = [node["name"] for node in job["tree"] if "parent" in node]
    own = job.get("links") or [None] * len(children)
    links = {child: ((it or job)["capacity"], (it or job)["labels"])
             for child, it in zip(children, own)}
    job["steps"] = [random_step(rng, names, links) for _ in range(rng.randint(0, 60))]
    return job
