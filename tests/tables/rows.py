"""Rows of tests: a command line with what it reads, and what it has to print.

A file NAME.rows has rows by paragraphs, each line of which is a word, a colon and a text; texts of
one word are joined as lines, and `\\n` is the end of a line. A paragraph with `rows:` says what
those after it have in common. Each of those is a row: `words:` is the command line, `given:` is
read from standard input, `file X:` is a file beside it, and `old:` and `new:` change one of these,
which `in:` names, or what is read. It ends with `status:` or 0, and prints `out:` and `err:`; or
what it prints `on:` one of these `begins:` and `ends:` so, and may have as many `lines:`."""

import json
from dataclasses import dataclass, field
from pathlib import Path

from examples import DATA
from programs import paragraphs

# The worst start of capacity 1, and the text of its link.
WORST_START, WORST_TEXT = ((DATA / f"worst_start.{it}").read_text() for it in ("json", "out"))


@dataclass
class Row:
    """A run of a program. What is read is a text or bytes, or a function makes it; what is printed
    is a text, or a function says what is wrong with it. Such a function is made by one below, and
    given what tells the output of a run with some words."""

    name: str
    words: list  # the command line, without the name of the program
    given: object = ""  # what is read from standard input
    files: dict = field(default_factory=dict)  # by its name, the text of a file beside it
    status: int = 0
    out: object = ""
    err: object = ""

    def fault(self, status, out, err, prints=None):
        """What is wrong with a run that ended so, or None."""
        if status != self.status:
            return f"status {status}, and not {self.status}; it printed {(out + err)[:1000]!r}"
        for where, text, wanted in ("output", out, self.out), ("error", err, self.err):
            if callable(wanted):
                fault = wanted(text, prints)
            else:
                fault = None if text == wanted else f"it has to be {wanted!r}"
            if fault:
                return f"standard {where}: {fault}; it is {text[:1000]!r}"
        return None


def printed(words):
    """What a run with these words and no input prints, which has to end with status 0."""
    return lambda prints: prints(words)


def made(job, **more):
    """The text of a job with these members, which may be long, as short as it can be."""
    return lambda _: json.dumps({**job, **more}, separators=(",", ":"))


def like(begins="", ends="", parts=(), without=(), width=None, lines=None):
    """A text with this beginning, this end and these parts, which has none of the others, no line
    with more bytes, and as many lines."""
    def fault(text, _):
        seen = text.splitlines()
        faults = [
            (not text.startswith(begins), f"it does not begin with {begins!r}"),
            (not text.endswith(ends), f"it does not end with {ends!r}"),
            *((part not in text, f"it has no {part!r}") for part in parts),
            *((part in text, f"it has {part!r}") for part in without),
            (width and any(len(line.encode()) > width for line in seen),
             f"a line has more than {width} bytes"),
            (lines not in (None, len(seen)), f"it does not have {lines} lines"),
        ]
        return next((said for is_so, said in faults if is_so), None)

    return fault


def same(words, is_same=True):
    """What a run with other words prints, or another text than that."""
    return lambda text, prints: None if (text == prints(words)) == is_same else (
        f"{' '.join(words)} prints {'another text' if is_same else 'the same'}")


def replaced(text, part, instead):
    """A text, the first such part of it replaced."""
    if part not in text:
        raise ValueError(f"there is no {part!r} to replace")
    return text.replace(part, instead, 1)


HERE = Path(__file__).parent


def told(name):
    """The rows of such a file."""
    for at, paragraph in enumerate(paragraphs(HERE / f"{name}.rows")):
        own = {word: "\n".join(texts) for word, texts in paragraph.items()}
        if "rows" in own:
            shared = own
            continue
        of = {"in": "given", "given": "", "status": "0", **shared, **own}
        if "old" in of:
            of[of["in"]] = replaced(of[of["in"]], of["old"], of["new"])
        files = {word[5:]: text for word, text in of.items() if word.startswith("file ")}
        said = {it: f"{of[it]}\n" if it in of else "" for it in ("out", "err")}
        if "on" in of:
            said[of["on"]] = like(of["begins"], of["ends"], lines=int(of.get("lines", 0)) or None)
        yield Row(f"{of['rows']}: {of.get('new', '')}, {at}", of["words"].split(), of["given"],
                  files, int(of["status"]), **said)


def refusals(name, job, said, tasks=(["tree"],)):
    """Rows in which each of these tasks of `stab` refuses a job with this text."""
    status = 3 if said.startswith(("start:", "step:", "run:")) else 1
    return [Row(f"{name}, by {' '.join(words)}", words, job, status=status, err=f"stab: {said}\n")
            for words in tasks]
