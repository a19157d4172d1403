"""The examples of crates/gate_checks/data: their words, what they read, and what has to be printed.

Their README says what each file is. The list there names each file that says what is expected.
Those of a run, NAME.run, are compared by tests/check_drawn.py."""

from examples import DATA, example, names
from tables.rows import Row

# The files that say what is expected, as the list names them, and as they are there.
LISTED = (DATA / "list").read_text().splitlines()
THERE = sorted(
    str(path.relative_to(DATA))
    for path in DATA.glob("**/*") if path.suffix in (".out", ".err", ".run"))


def listed_otherwise():
    """What is wrong with the list, or None: it has each name once, in the order of bytes."""
    differ = sorted({*LISTED} ^ {*THERE}) or "its order"
    return None if LISTED == THERE else f"the list and the folder differ: {differ}"


def row_of(name):
    """The run of an example."""
    it = example(name)
    beside = {word: (DATA / word).read_bytes().decode() for word in it.words
              if (DATA / word).is_file()}
    return Row(name, it.words, it.job.read_bytes() if it.job else "", beside, it.status,
               it.out.decode(), it.err.decode())


ROWS = [row_of(name) for name in names()]
