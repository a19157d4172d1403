#!/usr/bin/env python3
"""Says which functions of a crate cost most to prove.

  bench/functions.py CRATE [FOLDER]

It proves the crate from nothing, one function after the other, over the libraries that `rt ci` has
left in this folder (run ./gate first), and prints the seconds of the dearest functions. The first
function of a run, and the first one to use a type, also pay for loading. A long run is done in
parts, so the first function of each part pays as well, up to 25 seconds; it has a mark. With FOLDER
it proves the sources that are there: a changed copy of crates/CRATE. It changes nothing and keeps
nothing.
"""

import os
import re
import subprocess
import sys
import tempfile
import time

TOP = os.path.dirname(os.path.dirname(os.path.realpath(__file__)))
sys.dont_write_bytecode = True
sys.path.insert(0, f"{TOP}/tools")
from crates import compiler, listed  # noqa: E402

SHOWN = 25


def main():
    if len(sys.argv) not in (2, 3) or sys.argv[1] not in listed():
        sys.exit(__doc__)
    crate = sys.argv[1]
    folder = os.path.abspath(sys.argv[2]) if len(sys.argv) == 3 else f"{TOP}/crates/{crate}"
    root = next(it for it in ("src/lib.rt", "src/main.rt") if os.path.isfile(f"{folder}/{it}"))
    times, said, mark = [], [], " (first of its part)"
    with tempfile.TemporaryDirectory() as kept:
        words = [*compiler("check", crate, root), "--jobs", "1", "--progress", "--incremental",
                 kept]
        began = last = time.monotonic()
        with subprocess.Popen(words, cwd=folder, text=True, stdout=subprocess.PIPE,
                              stderr=subprocess.STDOUT) as running:
            for line in running.stdout:
                now = time.monotonic()
                if found := re.match(r"checked (\S+),", line):
                    times.append((now - last, found[1] + mark))
                    last, mark = now, ""
                elif line.startswith("so far:"):
                    last, mark = now, " (first of its part)"
                elif re.search("error|no proof|not proved|^logic=", line):
                    said.append(line.rstrip())
    for seconds, name in sorted(times, reverse=True)[:SHOWN]:
        print(f"{seconds:7.1f}  {name}")
    print(f"{time.monotonic() - began:7.1f}  all {len(times)} functions of {crate}")
    if running.returncode:
        print(*said[:20], sep="\n")
    sys.exit(running.returncode)


if __name__ == "__main__":
    main()
