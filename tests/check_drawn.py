#!/usr/bin/env -S python3 -B
"""Compares the drawn runs of this repository with those that `rignolda draw` prints.

    tests/check_drawn.py            compares the files NAME.run of the examples, the drawn runs of
                                    docs/PROTOCOL.md, the pictures of docs/pictures, and what the
                                    README says that ./rignolda and ./stab print
    tests/check_drawn.py --write    writes the pictures of `rignolda draw` anew

A file NAME.run has the words of the printed run of NAME.json, whatever the spaces between them. A
drawn run of the page is that of the example that is cited last before it, with the same cells and
with marks: v, ^ and x that an entry was received or lost, and * what comes from the start, or is a
copy of a label from there.

The programs are those of check_tables.py. The last line is 'N passed, M failed'.
"""

import json
import re
import sys

from programs import TOP, answered, counted, run_with
from faults.reference import Link

DATA = TOP / "crates/gate_checks/data"
PAGE = TOP / "docs/PROTOCOL.md"
PICTURES = TOP / "docs/pictures"
# Each picture, with its example.
DRAWN = {
    "a_clean_round": "links/two_clean_rounds",
    "the_worst_start": "worst_start",
    "labels_enough": "links/why_two_labels_are_too_few",
    "worst_start_of_capacity_two": "links/worst_start_of_capacity_two",
    "two_links": "trees/two_links_under_one_schedule",
}
# The picture of a tree, by hand, and its example: of each node what `rignolda scenario` prints that
# it received.
TREE, SCENARIO = "seven_machines", "scenarios/seven_machines"
# The run of the page that no job has: two labels are refused.
WITHOUT_JOB = ["What goes wrong with two labels"]


def draw(drawer, name, *words, command="draw"):
    """What the program draws of an example, or None and what it said."""
    status, text, said = answered(drawer, command, *words, DATA / f"{name}.json")
    return (None, said.strip() or f"status {status}") if status else (text, None)


def pictures(drawer):
    """Each picture: its name, and its text, or None and what the program said."""
    for name, example in DRAWN.items():
        yield name, *draw(drawer, example, "--svg")


def words_in_tree(text):
    """By the name of each node of a printed scenario the words of its picture, each with the name
    of its colour: strays, and then published items, of which it may lack some."""
    found = {}
    for line in text.splitlines():
        words = line.split()
        if words[1:2] == ["since"]:
            name = words[0]
        elif words[0] == "items:":
            received = published = words[1:]
        elif words[0] == "published:":
            published = words[1:]
        if words[0] in ("items:", "published:"):
            strays = [it for it in received if it not in published]
            found[name] = [(it, "odd") for it in strays] + [
                (it, "good" if it in received else "bad") for it in published]
    return found


def fault_of_tree(drawer):
    """What is wrong with the picture of the tree: with what a node received, or with the lines,
    each from under a box to one below it."""
    text, said = draw(drawer, SCENARIO, command="scenario")
    if text is None:
        return said
    picture, at, found = (PICTURES / f"{TREE}.svg").read_text(), {}, {}
    for x, y, name, row in re.findall(r'<text class="name mid" x="(.*?)" y="(.*?)">(.*?)</text>\n'
                                      r'<text class="mono mid" .*?>(.*?)</text>', picture):
        at[name] = int(x), int(y)
        found[name] = [(word, kind) for kind, word in re.findall(
            r'<tspan class="(\w+)">(.*?)</tspan>', row)]
    if found != words_in_tree(text):
        return f"it shows {found}, and not {words_in_tree(text)}"
    tree = json.loads((DATA / f"{SCENARIO}.json").read_text())["tree"]
    wanted = [(*at[it["parent"]], *at[it["name"]]) for it in tree if "parent" in it]
    lines = re.findall(r'<path class="line" d="M(\d+) (\d+)L(\d+) (\d+)"/>', picture)
    lines = [(x, y - 30, to, high + 20) for x, y, to, high in (map(int, it) for it in lines)]
    return None if lines == wanted else f"its lines are {lines}, and not {wanted}"


def words_of(text):
    """The words of each line."""
    return [line.split() for line in text.splitlines()]


# ---- the drawn runs of the page


class Mark(int):
    """A label of the start, or a copy of one, which the page draws with a star."""

    def __str__(self):
        return f"{int(self)}*"


def cells_of(job, rows):
    """The cells of the page for each row of a printed run, with marks as they have to be, or
    nothing where its queues are other ones."""
    start = job["start"]
    link = Link(job["capacity"], job["labels"],
                [(Mark(label), item) for label, item in start.get("frames", [])],
                [*map(Mark, start.get("acks", []))], start["send"], Mark(start["recv"]))
    for row in rows:
        event, marks, star = "start", {}, ""
        if row["event"] != event:
            event = json.loads(row["event"])
            name = event if isinstance(event, str) else event[0]
            if row["effect"] != "Nothing" and name.startswith(("recv", "lose")):
                marks = {"frames": "v"} if "frame" in name else {"acks": "^"}
                if name.startswith("lose"):
                    marks = dict.fromkeys(marks, "x")
            if row["effect"] == "Fresh":
                star = "*" * isinstance(link.frames[0][0], Mark)
            link.take(event)
            event = event if isinstance(event, str) else " ".join(map(str, event))
        yield (queue([f"{int(label)}={item}" for label, item in link.frames], ",") == row["frames"]
               and queue([int(label) for label in link.acks], ",") == row["acks"]) and {
            **row, "event": event, "remembers": str(link.recv), "delivers": row["delivers"] + star,
            "frames": queue([f"{int(label)}={item}{'*' * isinstance(label, Mark)}"
                             for label, item in link.frames], " ", marks.get("frames")),
            "acks": queue(link.acks, " ", marks.get("acks"))}


def queue(entries, apart, *marks):
    """A queue as it is drawn, after its mark."""
    return apart.join(map(str, [*filter(None, marks), *entries])) or "-"


def blocks():
    """The drawn runs of the page: the line of each, the example cited last before it, its heading,
    and its lines."""
    example, heading, block, start = None, None, None, 0
    for number, line in enumerate(PAGE.read_text().splitlines(), 1):
        if line.startswith("```"):
            if block and any(is_head(one) for one in block):
                yield start, example, heading, block
            block, start = (None, 0) if block is not None else ([], number)
        elif block is not None:
            block.append(line)
        else:
            if line.startswith("#"):
                heading, example = line.lstrip("# "), None
            for token in re.findall(r"`([\w/]+)`", line):
                if (DATA / (token + ".run")).is_file():
                    example = token


def is_head(line):
    """Whether a line names the columns of a run of a link."""
    return line.split()[:5] == ["event", "effect", "label", "holds", "acked"]


NAMES = ["event", "effect", "label", "holds", "acked", "frames", "acks", "remembers", "delivers"]


def cut(head, line):
    """The number of a drawn row, and its cells by name."""
    at = [found.start() for found in re.finditer(r"\S+", head)][:10]
    ends = at[1:] + [len(line) + 1]
    cells = {name: line[first:last].strip() for name, first, last in zip(NAMES, at, ends)}
    return line[:at[0]].strip(), cells


def compare_block(drawer, example, lines):
    """What is wrong with a drawn run of the page, or None."""
    text, said = draw(drawer, example)
    if text is None:
        return said
    head, *rows = map(str.split, text.splitlines())
    cells = cells_of(json.loads((DATA / f"{example}.json").read_text()),
                     [dict(zip(head, row)) for row in rows])
    wanted = {str(place) if place else "": row for place, row in enumerate(cells)}
    if not all(wanted.values()):
        return "the printed run is not one of queues"
    top = next(at for at, line in enumerate(lines) if is_head(line))
    drawn = [cut(lines[top], line) for line in lines[top + 1:] if line.strip()]
    order = list(wanted)
    if [number for number, _ in drawn] != order[-len(drawn):]:
        return "its rows are not all up to the last one"
    for number, cells in drawn:
        effect = wanted[number]
        if number == "":
            effect = dict(effect, effect="")
        if cells["delivers"] == "" and effect["delivers"] == "-":
            effect = dict(effect, delivers="")
        # (an item that is a stray of the link above has a mark, which this link knows nothing of)
        for name in ("event", "holds"):
            if cells[name].endswith("*"):
                effect = dict(effect, **{name: effect[name] + "*"})
        for name in NAMES:
            if cells[name] != effect[name]:
                return f"row {number or 'start'}, {name}: {cells[name]!r}, and not {effect[name]!r}"
    return None


# ---- what the README says that commands print


def commands():
    """The commands of the README's blocks of code: each its line, its words without a comment, and
    the lines that follow it up to the next one, as what it prints."""
    found, code = [], False
    for number, line in enumerate((TOP / "README.md").read_text().splitlines(), 1):
        if line.startswith("```"):
            code = not code
        elif code and line.startswith("$ "):
            found.append((number, line[2:].partition(" # ")[0].strip(), []))
        elif code and found:
            found[-1][2].append(line)
    return found


def compare_command(files, words, lines):
    """What is wrong with what a command is said to print, or None; `...` is for any lines. Of other
    commands than ./rignolda and ./stab only the file is looked for."""
    name, _, rest = words.partition(" ")
    if name not in files:
        return None if (TOP / name).is_file() else f"there is no {name}"
    # (the file comes as a word, since its path may have spaces)
    text, said = answered("bash", "-c", f'"$0" {rest}', files[name], cwd=TOP)[1:]
    wanted = "".join(
        r"(?:.*\n)*?" if line == "..." else re.escape(f"{line}\n") for line in lines)
    return None if re.fullmatch(wanted, text) else f"it prints:\n{text}{said}"


# ---- all of it


def check(drawer, replayer):
    """Compares everything: the name of each, and what is wrong, or None."""
    for path in sorted(DATA.glob("**/*.run")):
        name = str(path.relative_to(DATA).with_suffix(""))
        text, said = draw(drawer, name)
        same = text is not None and words_of(text) == words_of(path.read_text())
        yield f"examples/{name}.run", None if same else said or "the program draws another run"
    for line, example, heading, lines in blocks():
        if example:
            yield f"docs/PROTOCOL.md:{line}, {example}", compare_block(drawer, example, lines)
        elif heading not in WITHOUT_JOB:
            yield f"docs/PROTOCOL.md:{line}", "no example is cited before this run"
    for name, text, said in pictures(drawer):
        path = PICTURES / (name + ".svg")
        same = text is not None and path.is_file() and path.read_text() == text
        fault = None if same else said or "tests/check_drawn.py --write draws it anew"
        yield f"docs/pictures/{name}.svg", fault
    yield f"docs/pictures/{TREE}.svg", fault_of_tree(drawer)
    unknown = sorted(it.name for it in PICTURES.glob("*") if it.stem not in {*DRAWN, TREE})
    yield "docs/pictures has no other files", ", ".join(unknown) or None
    files = {"./rignolda": drawer, "./stab": replayer}
    for number, words, lines in commands():
        yield f"README.md:{number}, {words}", compare_command(files, words, lines)


def write(drawer):
    """Writes the pictures."""
    PICTURES.mkdir(exist_ok=True)
    for name, text, said in pictures(drawer):
        if text is None:
            sys.exit(f"{name}: {said}")
        (PICTURES / (name + ".svg")).write_text(text)


def main(drawer, replayer):
    if sys.argv[1:]:
        write(drawer)
        return 0
    print(f"drawn: by {drawer}; where the sources are newer, run ./release.sh first")
    return counted(check(drawer, replayer))


if __name__ == "__main__":
    if sys.argv[1:] not in ([], ["--write"]):
        sys.exit("tests/check_drawn.py takes --write, or no words at all")
    sys.exit(run_with(main, "rignolda", "stab"))
