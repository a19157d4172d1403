#!/usr/bin/env -S python3 -B
"""Plants each bug of planted/ in a copy of the daemon: the test that it names has to find it.

    tests/daemon/planted.py [NAME..]         by hand: a build and a test each, in minutes
    tests/daemon/planted.py --fits [NAME..]  whether each fits the code and names a test, at once
    tests/daemon/planted.py --table          of each file of tests what it tries, and what it finds

A file has the lines `file:`, `old:`, `new:`, as the planted bugs of the crates, and `by:`, the test
that finds it, and that the daemon passes as it is: one of check.py; of the library or a crate of
the daemon, as FILE::TEST, or CRATE/FILE::TEST in sources; or a target of fuzz.py in two minutes, as
fuzz::TARGET. The copy is built in PLANTED_TARGET, or in a folder beside other temporary
files.
"""
import os
import pathlib
import re
import shutil
import sys
import tempfile
import time

import check  # noqa: F401 (which tells all tests)
import fuzz
from daemons import HOME
from programs import ran
from runner import HERE, TESTS, options, sum_up

TARGET = os.environ.get("PLANTED_TARGET", tempfile.gettempdir() + "/rignolda-planted")


class Edit:
    """One bug, and the file of the daemon that it is planted in."""

    def __init__(self, path, rust):
        self.name = path.stem
        parts = dict(line.split(": ", 1) for line in path.read_text().splitlines())
        self.path = rust / "rignoldad" / parts["file"]
        self.old, self.new, self.by = parts["old"], parts["new"], parts["by"]

    def fits(self, rust):
        """Whether it can be tried; else it says why not."""
        times = self.path.read_text().count(self.old)
        file, _, name = self.by.rpartition("::")
        if file == "fuzz":
            is_there = name in fuzz.TARGETS
        elif file:
            is_there = f"fn {name}()" in crate_of(file, rust)[1].read_text()
        else:
            is_there = name in {function.__name__ for function in TESTS}
        if times != 1 or not is_there:
            print(f"{self.name}: its text is there {times} times; {self.by}: {is_there}")
        return times == 1 and is_there


def crate_of(file, rust):
    """What names the tests of a file to cargo, the file, and what is before their names."""
    for crate in "rignolda_machine", "rignoldad", "rignolda_tls":
        path = rust / crate / f"tests/{file}.rs"
        if path.exists():
            return ["-p", crate, "--test", file], path, ""
    crate, _, file = file.partition("/")
    has_lib = (rust / crate / "src/lib.rs").exists()
    within = file.replace("/", "::") + ("::tests::" if has_lib else "::")
    return ["-p", crate, "--lib" if has_lib else "--bins"], rust / crate / f"src/{file}.rs", within


def fuzzed(name, rust):
    """Whether no input did harm in two minutes, or None where it could not be tried; and why."""
    work = pathlib.Path(TARGET, "fuzz")
    shutil.rmtree(work / "found", ignore_errors=True)
    for path in work.glob("harm-*"):
        path.unlink()
    status, said = fuzz.build(rust, work)
    if not status:
        status, said = fuzz.tried(name, 120, work)
        if not status or list(work.glob(f"harm-{name}-crash-*")):
            return not status, said[-300:]
    return None, said[-2000:]


def run(test, rust):
    """Builds the copy and runs a test: whether it passed, None where it was not tried; and why."""
    file, _, name = test.rpartition("::")
    if file == "fuzz":
        return fuzzed(name, rust)

    def cargo(*words):
        return ran("cargo", *words, cwd=rust, env={
            **os.environ, "CARGO_TARGET_DIR": TARGET, "CARGO_PROFILE_DEV_DEBUG": "0"})

    library, _, before = crate_of(file, rust)
    status, said = cargo(*(["test", "-q", "--no-run", *library] if file
                           else ["build", "-q", "-p", "rignoldad", "-p", "rignoldactl"]))
    if status:
        return None, said[-2000:]
    if file:
        said = cargo("test", *library, before + name, "--", "--exact")[1]
    else:
        of_copy = {**os.environ, "RIGNOLDAD_BIN": f"{TARGET}/debug"}
        said = ran(HERE / "check.py", test, env=of_copy)[1]
    # (a word may be a part of the names of others)
    result = re.search(rf"\b{name}( \.\.\.|:) (ok|FAILED)", said)
    words = re.findall(r"^(?:\w*Error:|assertion|\w+Expired) .*", said, re.M)
    return result and result[2] == "ok", words[-1][:150] if words else said[-300:]


def file_of(test, rust):
    """The file of a test, in Rust or in Python."""
    file, _, name = test.rpartition("::")
    if file == "fuzz":
        return HERE / "fuzz.py"
    known = {it.__name__: HERE / f"{it.__module__}.py".replace("__main__", "check") for it in TESTS}
    return crate_of(file, rust)[1] if file else known[name]


def table(edits, rust):
    """Prints what each file of tests tries, by its first words, and which bugs it finds."""
    files = {HERE / f"{it.__module__}.py": [] for it in TESTS}
    files |= {it: [] for it in rust.glob("*/tests/**/*.rs") if "#[test]" in it.read_text()}
    for edit in edits:
        files.setdefault(file_of(edit.by, rust), []).append(edit.name)
    for file, names in sorted(files.items()):
        first = re.search(r'"""(.+?)(?:\n\n|""")|((?://![^\n]*\n)+)', file.read_text(), re.DOTALL)
        says = " ".join(re.sub("//!", "", first[1] or first[2]).split()).partition(". ")[0]
        at = file.relative_to(rust if rust in file.parents else HERE.parent)
        print(f"{at}: {says.rstrip('.')}. Finds {len(names)}: {', '.join(sorted(names)) or 'none'}")


def timed(name, what, test, rust, good):
    """Runs a test: whether that ended as it ought to, of which it says how long it took."""
    begun = time.monotonic()
    passed, why = run(test, rust)
    is_good = passed is good
    print(f"{name}: {'' if is_good else 'NOT '}{what} by {test} in "
          f"{time.monotonic() - begun:.1f} s" + ("" if passed else f": {why}"), flush=True)
    return is_good


def attempt(edits, rust):
    """Tries each of them: whether it was found."""
    sound = {test: timed("as it is", "passed", test, rust, True)
             for test in sorted({edit.by for edit in edits})}
    for edit in edits:
        text = edit.path.read_text()
        edit.path.write_text(text.replace(edit.old, edit.new))
        yield timed(edit.name, "found", edit.by, rust, False) and sound[edit.by]
        edit.path.write_text(text)


def main():
    chosen = options("names", fits=False, table=False)
    with tempfile.TemporaryDirectory(prefix="rignolda-planted-") as work:
        rust = pathlib.Path(work) / "rust"
        shutil.copytree(HOME / "rust", rust, ignore=shutil.ignore_patterns("target"))
        shutil.copytree(HOME / "include", rust.parent / "include")
        edits = [Edit(path, rust) for path in sorted((HERE / "planted").glob("*.edit"))
                 if not chosen.names or path.stem in chosen.names]
        fit = [edit for edit in edits if edit.fits(rust)]
        if chosen.table:
            return table(fit, rust)
        good = [True] * len(fit) if chosen.fits else list(attempt(fit, rust))
        return sum_up(good + [False] * (len(edits) - len(fit)))


if __name__ == "__main__":
    sys.exit(main())
