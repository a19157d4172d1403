"""Runs the tests of trees of agents."""
import concurrent.futures
import functools
import os
import pathlib
import shutil
import sys
import time
import traceback

sys.dont_write_bytecode = True

HERE = pathlib.Path(__file__).resolve().parent
sys.path.append(str(HERE.parents[1] / "tools"))
import debian  # noqa: E402
from programs import options, sum_up  # noqa: E402

TESTS = []


def test(function=None, *, begins=False, needs=None):
    """Makes a function a test. One that takes long begins. One is tried only where the program is
    that it needs, or where `needs` says nothing that lacks."""
    if function is None:
        return lambda function: test(function, begins=begins, needs=needs)
    function.begins, function.needs = begins, needs
    TESTS.append(function)
    return function


def sure(holds, *words):
    """An assertion that python -O keeps."""
    if not holds:
        raise AssertionError(" ".join(map(str, words)))


def run(function, name=None):
    """Runs a test: whether it passed."""
    started = time.monotonic()
    try:
        function()
        result = "ok"
    except Exception:
        result = "FAILED\n" + traceback.format_exc()
    print(f"{name or function.__name__}: {result} ({time.monotonic() - started:.1f} s)", flush=True)
    return result == "ok"


def run_seeds(chosen, act):
    """Runs an act with each of the seeds that the command line says: the status of a script."""
    seeds = range(chosen.seed, chosen.seed + chosen.runs)
    return sum_up([run(functools.partial(act, seed), f"seed {seed}") for seed in seeds])


def lacking(needs):
    """What a test lacks, or None. A program that is missing is installed, where that may be."""
    if callable(needs):
        return needs()
    if not shutil.which(needs):
        debian.install(*(["gcc", "libc6-dev"] if needs == "cc" else [needs]))
    return None if shutil.which(needs) else f"there is no {needs}"


def main():
    """Runs what the command line says: all, files without their ending, or parts of names."""
    names = options("words").words
    os.chdir(HERE)
    begun = time.monotonic()
    chosen = [it for it in TESTS if not names
              or any(word == it.__module__ or word in it.__name__ for word in names)]
    lacks = {needs: lacking(needs) for needs in {it.needs for it in chosen if it.needs}}
    for needs, lack in lacks.items():
        if lack:
            print(*(it.__name__ for it in chosen if it.needs == needs), f"are NOT TRIED: {lack}")
    chosen = sorted((it for it in chosen if not lacks.get(it.needs)), key=lambda it: not it.begins)
    # (most of them wait most of the time)
    with concurrent.futures.ThreadPoolExecutor(4) as pool:
        results = list(pool.map(run, chosen))
    print(f"in {time.monotonic() - begun:.0f} s")
    return sum_up(results)
