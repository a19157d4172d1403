"""The examples of crates/gate_checks/data, whose README says what each file is."""
from collections import namedtuple
from pathlib import Path

DATA = Path(__file__).resolve().parent.parent / "crates/gate_checks/data"


# What `stab` is given, its standard input a file or None, and how it has to end.
Example = namedtuple("Example", "words job status out err")


def words_of(path):
    """The command line of an example."""
    args = path.with_suffix(".args")
    return args.read_text().splitlines() if args.is_file() else []


def names():
    """The names of those that say how `stab` ends."""
    return sorted(str(path.relative_to(DATA).with_suffix(""))
                  for path in DATA.rglob("*") if path.suffix in (".out", ".err"))


def example(name):
    """The example of this name."""
    path = DATA / f"{name}.json"
    status, out, err = 0, b"", b""
    if path.with_suffix(".out").is_file():
        out = path.with_suffix(".out").read_bytes()
    else:
        line, status = path.with_suffix(".err").read_bytes().split(b"\nstatus ")
        err = line + b"\n"
    return Example(words_of(path), path if path.is_file() else None, int(status), out, err)
