#!/usr/bin/env -S python3 -B
"""The daemon: its tests and those of its library, the linter, its trials in trees of processes, its
kept programs, and what validators say of its alarms, counts, manuals, unit and package.

Where it cannot be built here, the kept programs are tried, and a line says what to run. Where
another compiler built the kept ones, a line says that they are not compared, which is not counted.
The last line is 'N passed, M failed'.
"""
import os
import re
import shutil
import sys
import tempfile
from pathlib import Path

from programs import TOP, Cases, ran


OFFLINE = "--offline", "--locked", "--quiet"
DAEMON = ("-p", "rignolda_machine", "-p", "rignoldad", "-p", "rignoldactl", "-p", "rignolda_redis",
          "-p", "rignolda_tls", "-p", "rignolda_simulator")
# The library's crate stands outside, and needs no other; so it is not built in rust/, where the
# settings of cargo name those of Debian.
LIBRARY = "--manifest-path", "rust/rignolda/Cargo.toml"
APART = "--target-dir", "rust/target/library"
# Tests that are built once, and not looked into, need nothing for a next build or a debugger.
ONCE = {"CARGO_INCREMENTAL": "0", "CARGO_PROFILE_DEV_DEBUG": "0"}
SOURCES = ("rignolda_machine/src", "rignolda_machine/tests", "rignoldad/src", "rignoldad/tests",
           "rignoldactl/src", "rignoldactl/tests", "rignolda_redis/src", "rignolda_simulator/src",
           "rignolda_tls/src", "rignolda_tls/tests")


def of_sources(cases):
    """What is looked at where the daemon is built from its sources."""
    cases.works("unit tests, and drawn bytes", "cargo", "test", *OFFLINE, *DAEMON, cwd="rust")
    for name, at, words in ("the daemon", "rust", DAEMON), ("its library", ".", LIBRARY):
        if shutil.which("cargo-clippy"):
            apart = [] if words == DAEMON else APART
            cases.works(f"the linter, {name}", "cargo", "clippy", *OFFLINE, *words, *apart,
                        "--all-targets", "--", "-D", "warnings", cwd=at)
        if shutil.which("cargo-fmt"):
            cases.works(f"the form, {name}", "cargo", "fmt", *words, "--check", cwd=at)
    cases.works("simulated trees keep what the pages promise", "cargo", "run", "--profile",
                "simulate", *OFFLINE, "-p", "rignolda_simulator", "--", "runs=60", cwd="rust")
    # (what a process does with spoilt memory, it does without the checks of a debug build)
    cases.works("simulated trees recover from any field of memory", "cargo", "run", "--profile",
                "spoil", *OFFLINE, "-p", "rignolda_simulator", "--", "class=fields", "runs=32",
                cwd="rust")
    long = [f"{file}: {line}" for part in SOURCES for file in Path("rust", part).rglob("*.rs")
            for line in file.read_text().splitlines() if len(line) > 100]
    cases.holds("no line is longer than 100 characters", not long, "\n".join(long))


def main():
    os.chdir(TOP)
    cases = Cases()
    with tempfile.TemporaryDirectory() as room:
        status, said = ran("tools/build_daemon", "--check")
        print(said, end="", flush=True)
        if status == 3:
            print("the daemon is not built here, so not tested: its kept programs are tried")
            cases.works("the kept programs", "tools/build_daemon", "--unpack", room)
            os.environ["RIGNOLDAD_BIN"] = room
        else:
            # (4: they are not compared, as the lines above say)
            if status != 4:
                cases.holds("the kept programs are those of the sources", status == 0)
            os.environ.update(ONCE)
            of_sources(cases)
            cases.works("the fuzzer's targets fit", "tests/daemon/fuzz.py", "--fits")
        if shutil.which("cargo"):
            cases.works("the tests of the library for Rust", "cargo", "test", *OFFLINE, *LIBRARY,
                        *APART)
        cases.works("each planted bug fits", "tests/daemon/planted.py", "--fits")
        cases.works("the demonstration goes as it says", "tests/daemon/demo")
        for script in "check.py", "check_validators.py":
            said = ran(f"tests/daemon/{script}")[1]
            print(said, end="", flush=True)
            found = re.search(r"^(\d+) passed, (\d+) failed\n\Z", said, re.M)
            cases.passed += int(found[1]) if found else 0
            cases.failed += int(found[2]) if found else 1
    return cases.sum_up()


if __name__ == "__main__":
    sys.exit(main())
