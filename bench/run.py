#!/usr/bin/env python3
"""Measures runs of worker threads of `stab`, in turn with the same tree of threads over channels
(channels.rs, which rustc builds): bench/run.py

It runs them alone, and beside one busy loop for each processor. Linux gives each session a share of
the processors, and within one each thread (see autogroup in sched(7)). So the loops are in sessions
of their own, or in the one of the programs. It prints the medians of wall time, and of the ratios
in turn. A run that has not delivered every item is named. The program is that of ./stab, or the one
that PROGRAM_STAB names. (Jobs without threads are measured by tests/hostile/largest.py.)
"""
import contextlib
import json
import os
import statistics
import subprocess
import sys
import time
from pathlib import Path

HERE = os.path.dirname(os.path.abspath(__file__))
BUILD = f"{HERE}/build"
sys.dont_write_bytecode = True
sys.path.insert(0, f"{HERE}/../tools")
from programs import built, options  # noqa: E402

TURNS = 7
PATIENCE = 60  # seconds, of one run of worker threads

# Of each run of worker threads the name, the number of items, and the places of the parents of all
# nodes but the first.
THREADS = [("chain of 2", 10_000, [0]), ("chain of 64", 1_000, [*range(63)]),
           ("star of 64", 1_000, [0] * 63),
           ("binary tree of 64", 1_000, [node // 2 for node in range(63)])]


def run_job(items, parents):
    """The job of a run of capacity 1 from a clean start, without loss."""
    tree = [{"name": f"n{node}", "parent": f"n{parent}"} for node, parent in enumerate(parents, 1)]
    return {"capacity": 1, "labels": 4, "tree": [{"name": "n0"}, *tree],
            "items": list(range(items))}


@contextlib.contextmanager
def busy_loops(beside):
    """A busy loop for each processor, or none. A loop ends by itself after some minutes."""
    words = ["sh", "-c", "ulimit -t 300; while :; do :; done"]
    with contextlib.ExitStack() as loops:
        for _ in range(os.cpu_count() if beside else 0):
            loop = loops.enter_context(subprocess.Popen(
                words, start_new_session=beside == "other sessions"))
            loops.callback(loop.kill)
        yield


def wall_of(words, all_items):
    """The wall time of a program in seconds, and whether it has delivered every item."""
    begun = time.perf_counter()
    try:
        ended = subprocess.run(words, capture_output=True, timeout=PATIENCE)
    except subprocess.TimeoutExpired:
        return PATIENCE, False
    wall = time.perf_counter() - begun
    return wall, ended.returncode == 0 and all_items(ended.stdout)


def measure_runs(program):
    """Measures each run of worker threads in turn with its channels, alone and beside loops."""
    channels = f"{BUILD}/channels"
    subprocess.run(["rustc", "-O", "-o", channels, f"{HERE}/channels.rs"], check=True)
    print(f"{'run':18} {'beside':15} {'channels ms':>11} {'locks':>8} {'ratio':>6} {'words':>8} "
          f"{'ratio':>6}")
    for name, items, parents in THREADS:
        path = path_of(name, items, parents)
        full = f" received {items} acked ".encode()
        has_all = lambda said: said.count(full) == len(parents) + 1
        columns = [([channels, str(items), *map(str, parents)], lambda _: True),
                   ([program, "run", path], has_all), ([program, "run", "--words", path], has_all)]
        for beside in ("", "this session", "other sessions"):
            taken = [[] for _ in columns]
            for turn in range(TURNS):
                with busy_loops(beside):
                    for place in range(turn, turn + len(columns)):
                        words, all_items = columns[place % len(columns)]
                        wall, all_delivered = wall_of(words, all_items)
                        taken[place % len(columns)].append(wall)
                        if not all_delivered:
                            print(f"{' '.join(words[1:3])} has not delivered all")
            line = f"{name:18} {beside or 'nothing':15} {statistics.median(taken[0]) * 1000:11.0f}"
            for walls in taken[1:]:
                ratio = statistics.median(it / peer for it, peer in zip(walls, taken[0]))
                line += f" {statistics.median(walls) * 1000:8.0f} {ratio:6.2f}"
            print(line, flush=True)


def path_of(name, items, parents):
    """The file of a job, made where it is not there yet."""
    path = Path(BUILD, f"run {name} {items}.json".replace(" ", "_"))
    if not path.exists():
        path.write_text(json.dumps(run_job(items, parents), separators=(",", ":")))
    return path


def main():
    options()
    os.makedirs(BUILD, exist_ok=True)
    load = os.getloadavg()[0]
    print(f"{time.strftime('%Y-%m-%d')}, {os.cpu_count()} processors, load {load:.1f}")
    measure_runs(built("stab", BUILD))


if __name__ == "__main__":
    main()
