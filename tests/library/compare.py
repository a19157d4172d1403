"""Compares a program that is a link of two halves, and reads jobs as link.c says, with what is
known of links: what it prints has to be the columns of a drawn run."""
import concurrent.futures
import json
import random
import tempfile

from examples import DATA
from jobs import drawn_link
from programs import answered, built

LETTERS = {"send_frame": "f", "recv_frame": "r", "recv_frame_keep": "R", "send_ack": "s",
           "recv_ack": "a", "recv_ack_keep": "A", "close": "c",
           "offer": "o", "lose_frame": "l", "lose_ack": "L"}


def words_of(job):
    """A link job in the words that the programs read."""
    start = job["start"]
    words = [job["capacity"], job["labels"], start["send"], start["recv"]]
    frames, acks = start.get("frames", []), start.get("acks", [])
    words += [len(frames), *(number for frame in frames for number in frame), len(acks), *acks]
    words.append(len(job["events"]))
    for event in job["events"]:
        name, *numbers = [event] if isinstance(event, str) else event
        words += [LETTERS[name], *numbers]
    return " ".join(map(str, words)) + "\n"


def differs(program, job, run):
    """Whether a program that replays a job prints other columns than a drawn run has."""
    said = answered(program, given=words_of(job))[1]
    return [line.split() for line in said.splitlines()] != [
        line.split()[1:] for line in run.splitlines()[1:]]


def runs(program):
    """Replays each drawn run of the examples: the names of those that are other ones."""
    for path in sorted(DATA.rglob("*.run")):
        job = json.loads(path.with_suffix(".json").read_text())
        if differs(program, job, path.read_text()):
            yield path.relative_to(DATA)


def drawn(program, count):
    """Replays drawn jobs beside `rignolda draw`: the jobs of those that differ."""
    draw = random.Random(1)
    jobs = [drawn_link(draw) for _ in range(count)]
    with tempfile.TemporaryDirectory() as folder:
        drawer = built("rignolda", folder)
        with concurrent.futures.ThreadPoolExecutor(4) as pool:
            differ = pool.map(lambda job: differs(
                program, job, answered(drawer, "draw", given=job)[1]), jobs)
            yield from (json.dumps(job) for job, other in zip(jobs, differ) if other)
