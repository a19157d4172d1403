"""Spoils the memory of a process of this user, as a fault of the machine could."""
import contextlib
import os
import pathlib
import signal

from daemons import until


def stands_still(process):
    """Whether all threads of a process are stopped."""
    stats = [path.read_text() for path in pathlib.Path(f"/proc/{process}/task").glob("*/stat")]
    return all(stat.rsplit(") ", 1)[1][0] in "Tt" for stat in stats)


def writable(process, rights="rw"):
    """Where the mappings of a process begin and end that it may write, and what they are called; or
    those of which it has other rights."""
    for line in pathlib.Path(f"/proc/{process}/maps").read_text().splitlines():
        place, own, *_, name = (line + " ").split(" ")[:2] + [line[73:].strip()]
        if own.startswith(rights):
            yield (*(int(word, 16) for word in place.split("-")), name)


@contextlib.contextmanager
def stopped(process):
    """Stops a process and lets it go on: its memory, as a file."""
    os.kill(process, signal.SIGSTOP)
    try:
        if not until(lambda: stands_still(process), 5, 0.001):
            raise RuntimeError("a process cannot be stopped")
        with open(f"/proc/{process}/mem", "r+b", buffering=0) as memory:
            yield memory.fileno()
    finally:
        os.kill(process, signal.SIGCONT)
