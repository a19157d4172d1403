"""What the gate and its parts cost: ./gate uses it. The times are exact: they are those of
processes that have ended."""
import os
import re
import resource
import subprocess
import threading
import time
from pathlib import Path

from crates import TOP, first_number, processors

# How often the memory is looked at, and how often a line says how far a part is, in seconds.
LOOK, TELL = 1.0, 120.0
# What rt ci says at its end of how much it has done itself, where it took the rest from earlier
# runs.
SHARE = re.compile(r"rt: ok; .*; done in this run: (.*); the others are kept from earlier runs")


def used():
    """The processor seconds of this process and of all that have ended below it."""
    both = (resource.getrusage(it) for it in (resource.RUSAGE_SELF, resource.RUSAGE_CHILDREN))
    return sum(it.ru_utime + it.ru_stime for it in both)


def minutes(seconds):
    return f"{seconds / 60:.1f}"


def clock(seconds):
    return f"{int(seconds) // 60} min {int(seconds) % 60:2d} s"


class Costs:
    """What the gate takes so far."""

    def __init__(self, tell):
        self.start = first_number("/proc/meminfo", "MemAvailable:") or 0
        self.begin, self.ended = time.monotonic(), threading.Event()
        # Of each part when the last of it ended, and the processor seconds that it took.
        self.parts = {}
        self.peak = self.proved = 0
        self.share, self.tell = "", tell
        self.watching = threading.Thread(target=self.keep, daemon=True)
        self.watching.start()

    def keep(self):
        """Looks at the memory until all has ended, and tells now and then how far the gate is."""
        told = self.begin
        while not self.ended.wait(LOOK):
            left = first_number("/proc/meminfo", "MemAvailable:") or self.start
            now = 1024 * max(self.start - left, 0)
            self.peak = max(self.peak, now)
            if time.monotonic() - told >= TELL:
                told = time.monotonic()
                self.tell(f"{clock(told - self.begin)}: {self.proved} proved; {now / 1e9:.1f} GB")

    def hear(self, line):
        """Notes what a line that the part writes says of how far it is."""
        self.proved += bool(re.match(r"rt: \w+(: its tests are)? proved$", line))
        share = SHARE.match(line)
        self.share = share[1] if share else self.share

    def add(self, part, seconds):
        """Notes that of this part something has ended that took so many processor seconds."""
        _, before = self.parts.get(part, (0.0, 0.0))
        self.parts[part] = time.monotonic() - self.begin, before + seconds

    def end(self):
        """No longer looks."""
        self.ended.set()
        self.watching.join()


def write_table(costs, to, wall, taken):
    """Writes what the gate and its parts cost to this file, with the time of the gate and all
    processor seconds."""
    kit = subprocess.run(["rt", "version"], stdout=subprocess.PIPE, text=True).stdout.strip()
    lines = ["# What the gate costs", "",
             f"{time.strftime('%Y-%m-%d')}, {processors()} processors, "
             f"{os.environ.get('RT_JOBS', '')} tasks at once, kit `{kit}`. Written by `./gate`, "
             "which leaves such a page in `out/gate.md` after a whole run.", "",
             f"**{minutes(wall)} minutes, {minutes(taken)} processor minutes, "
             f"{costs.peak / 1e9:.1f} GB of memory at the peak.**", ""]
    if costs.share:
        lines += [f"**This was not a run from nothing:** `rt ci` did {costs.share}, and took "
                  "the others from earlier runs of the same files on this machine. `./gate --anew` "
                  "does all of it.", ""]
    lines += ["Parts run beside each other: of each, when it had ended, and its processor time. "
              "The peak is by how much the free memory of the machine went down, looked at once a "
              "second.", "", "| Part | minutes | processor minutes |", "|---|---|---|"]
    lines += [f"| `{part}` | {minutes(ended)} | {minutes(seconds)} |"
              for part, (ended, seconds) in costs.parts.items()]
    to = Path(to)
    to.parent.mkdir(exist_ok=True)
    to.write_text("\n".join(lines) + "\n", encoding="utf-8")
    print(f"gate: {minutes(wall)} minutes, {minutes(taken)} processor minutes; its parts are in "
          f"{os.path.relpath(to, TOP)}", flush=True)
