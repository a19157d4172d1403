#!/usr/bin/env -S python3 -B
"""Sees that no more lines of Rattle than before are copies of others.

    tests/duplicates.py        compares their numbers with those of tests/duplicates.txt, as the
                               gate does: this takes some seconds, and proves nothing
    tests/duplicates.py N      lists the N longest copies of each kind

A copy is a run of at least eight lines that equals an earlier one once its words, each a name, a
number or a text, are replaced by others one for one. A line counts where it has a word, and is no
comment, attribute or import; and of lines in a row that have the same form, whatever their words
are, the first one alone. The lines of a run have at least four forms: else it is a table. Files are
read in the order of their paths, and a copy is as long as it can be. So no line is in two copies,
and of a run that is there three times there are two.

The numbers of lines in copies, in all folders src, specs and proofs, may only fall: each is a case,
and fails where it is larger than in the table. One that is smaller is to be written there. The last
line is 'N passed, M failed'.
"""
import collections
import glob
import itertools
import re
import sys

from programs import TOP, counted
from crates import first_number, read

TABLE, LEAST, FORMS = "tests/duplicates.txt", 8, 4
NO_CODE = re.compile(r"\s*(//|--|#|(pub )?(ghost )?use\b|open\b|import\b)")
WORD = re.compile(r'"(?:\\.|[^"\\])*"|\w+|[^\w\s]')

# A line that counts, with its words and marks, and its form, which has nothing in place of a word.
Line = collections.namedtuple("Line", "number words form")
# A copy: how many of its lines count, and where the earlier run and the copy are.
Copy = collections.namedtuple("Copy", "lines earlier place")


def is_word(it):
    return it[0] == '"' or it[0] == "_" or it[0].isalnum()


def lines_of(path):
    """The lines of a file that count."""
    found = []
    for number, line in enumerate(read(path).split("\n"), 1):
        words = [] if NO_CODE.match(line) else WORD.findall(re.sub(r"\s(//|--).*", "", line))
        form = tuple("" if is_word(it) else it for it in words)
        if "" in form and not (found and found[-1].form == form):
            found.append(Line(number, words, form))
    return found


def renamed(run):
    """A run with a number in place of each word: which of its words this is."""
    names = {}
    return tuple(tuple(names.setdefault(it, len(names)) if is_word(it) else it
                       for it in line.words) for line in run)


def runs_of(files):
    """The runs of the least length in each file, by the place where they begin: renamed where there
    are others of the same forms, which are enough, and else None."""
    runs = {path: [lines[at:at + LEAST] for at in range(len(lines) - LEAST + 1)]
            for path, lines in files.items()}
    forms = {path: [tuple(it.form for it in run) for run in found] for path, found in runs.items()}
    count = collections.Counter(form for found in forms.values() for form in found)
    return {path: [renamed(run) if count[form] > 1 and len({*form}) >= FORMS else None
                   for run, form in zip(found, forms[path])] for path, found in runs.items()}


def copies(kind):
    """The copies in the folders of this name, the longest first."""
    files = {path.removeprefix(f"{TOP}/"): lines_of(path) for path in sorted(
        it for end in ("rt", "antt")
        for it in glob.glob(f"{TOP}/crates/*/{kind}/**/*.{end}", recursive=True))}
    runs, first, found = runs_of(files), {}, []

    def place(path, at, lines):
        return f"{path}:{files[path][at].number}-{files[path][at + lines - 1].number}"

    for path, here in runs.items():
        at = 0
        while at < len(here):
            home, start = first.get(here[at], (path, at))
            # (an earlier run ends before its copy begins)
            until = max(at - LEAST + 1, 0) if home == path else None
            pairs = zip(here[at:], runs[home][start:until])
            same = sum(1 for _ in itertools.takewhile(lambda it: it[0] and it[0] == it[1], pairs))
            lines = same + LEAST - 1 if same else 1
            if same:
                found.append(Copy(lines, place(home, start, lines), place(path, at, lines)))
            for it in range(at, min(at + lines, len(here))):
                first.setdefault(here[it], (path, it))
            at += lines
    return sorted(found, key=lambda it: -it.lines)


def looked_at(kind, most):
    """The name of a case, and what is wrong with the number of lines in copies, or None."""
    found = copies(kind)
    for it in found[:most]:
        print(f"{it.lines} lines: {it.place} as {it.earlier}")
    lines = sum(it.lines for it in found)
    known = first_number(f"{TOP}/{TABLE}", kind)
    if known is not None and lines < known:
        print(f"{TABLE}: write {lines} in place of {known} for {kind}")
    fault = None if known is not None and lines <= known else (
        f"{TABLE} says {known}: `tests/duplicates.py N` lists the N longest copies of each kind")
    return f"{len(found)} copies in {kind}, of {lines} lines", fault


def main(words):
    most = int(words[0]) if words else 0
    return counted(looked_at(kind, most) for kind in ("src", "specs", "proofs"))


if __name__ == "__main__":
    sys.exit(main(sys.argv[1:]))
