#!/usr/bin/env -S python3 -B
"""Judges right and wrong ends by lab/check_ends.py, as a student would. Each run that is said to
break the law is played again here, with objects of the ends themselves, and the law is read from
its lists. The last line is 'N passed, M failed'."""
import ast
import base64
import json
import os
import re
import runpy
import sys
import tempfile
from pathlib import Path

from programs import TOP, Cases, paragraphs, ran


def judged(ends, *words, **more):
    return ran(sys.executable, TOP / "lab/check_ends.py", ends, *words, timeout=4_000, **more)


# ---- a run, played again

def broken(delivered, offered, acked, strays, may_miss):
    """Whether the law does not hold of these lists and numbers."""
    items = [item for item in delivered if item < 90]
    of_start = [item for item in delivered if item >= 90]
    return (delivered != of_start + items or of_start != sorted(set(of_start) & strays)
            or items != sorted(set(items)) or any(item >= offered for item in items)
            or not 0 <= offered - acked <= 1
            or any(item not in items for item in range(may_miss, acked)))


def replayed(file, said, page, misses):
    """What is wrong with a run that the lab says to break the law, or None."""
    run, job = (json.loads(base64.urlsafe_b64decode(packed + "=="))
                for packed in re.findall(r"#(?:run|job)=([\w-]+)", page))
    if run["job"] != job:
        return "the two links have other events"
    lines = [line for line in said.splitlines() if re.match(r" *\d+  ", line)]
    if not said.startswith(f"BROKEN after {len(lines)} events") or len(lines) != len(job["events"]):
        return "there are more or fewer events"
    ends = runpy.run_path(str(file))
    begun = re.search(r"^start: .*, sender (\{.*\}), receiver (\{.*\})$", said, re.M)
    sender, receiver = (ends[kind].__new__(ends[kind]) for kind in ("Sender", "Receiver"))
    for end, memory in zip((sender, receiver), begun.groups()):
        vars(end).update(ast.literal_eval(memory))
    frames = [tuple(frame) for frame in job["start"]["frames"]]
    acks, delivered, strays = list(job["start"]["acks"]), [], {item for _, item in frames}
    offered = acked = 0
    has = "with the sender since the start" in lines[0]
    may_miss = 2 * job["capacity"] + 1 if misses else int(has)
    counts = []
    for place, (event, line) in enumerate(zip(job["events"], lines)):
        name, number = event if isinstance(event, list) else (event, None)
        if broken(delivered, offered, acked, strays, may_miss):
            return f"the law is broken before event {place + 1}"
        if name == "offer":
            took = has if place == 0 and has else sender.offer(offered)
            if number != offered:
                return f"event {place + 1} offers another item"
            offered += bool(took)
        elif name == "send_frame":
            frame = sender.send()
            frames += [frame] * (frame is not None and len(frames) < job["capacity"])
        elif name == "send_ack":
            ack = receiver.acknowledge()
            acks += [ack] * (ack is not None and len(acks) < job["capacity"])
        elif name.startswith("recv_frame"):
            given = receiver.frame(*frames[0])
            delivered += [given] * (given is not None)
            del frames[:not name.endswith("_keep")]
        elif name.startswith("recv_ack"):
            acked += sender.ack(acks[0])
            del acks[:not name.endswith("_keep")]
        else:
            del (frames if name == "lose_frame" else acks)[number]
        counts.append(acked)
        if not line.endswith(f"  frames {frames}  acknowledgements {acks}  delivered {delivered}"):
            return f"after event {place + 1} are {frames}, {acks}, {delivered}, and not: {line}"
    if broken(delivered, offered, acked, strays, may_miss):
        return None
    # (then no item more counts in the last rounds, in which each of the five events is, but
    # arrivals where nothing is)
    rounds = int(re.search(r"in the last (\d+) rounds", said)[1])
    names = [event[0] if isinstance(event, list) else event for event in job["events"]]
    begins = [place for place, name in enumerate(names) if name == "offer"][-rounds]
    if "lose_frame" in names[begins:] or "lose_ack" in names[begins:]:
        return "something is lost in the last rounds"
    if names.count("send_ack") < rounds or counts[begins - 1] != counts[-1]:
        return "an item more counts in the last rounds"
    return None


def main():
    cases = Cases()
    with tempfile.TemporaryDirectory() as folder:
        page = Path(folder, "run.html")
        mine = Path(folder, "mine.py")

        def holds(name, file, words, status, text):
            page.unlink(missing_ok=True)
            found, said = judged(file, "-o", page, *words.split())
            wrong = None if found == status and text in said else said
            if not wrong and status == 1:
                wrong = replayed(file, said, page.read_text(), "--miss" not in words)
            cases.holds(name, not wrong, wrong)

        Path(folder, "right.py").write_text((TOP / "lab/ends/right.py").read_text())
        for it in paragraphs(TOP / "tests/lab.rows"):
            code, (ends,), (words,) = (it.get(word, [""]) for word in ("with", "ends", "words"))
            mine.write_text("\n".join(["from right import Sender, Receiver", *code, ""]))
            holds(f"{ends} {words} {' '.join(''.join(code).split())[:60]}: {it['says'][0]}",
                  TOP / f"lab/ends/{ends}.py" if ends else mine, words, int(it["status"][0]),
                  it["says"][0])
        # a browser that writes down what it is to open
        browser, opened = Path(folder, "browser"), Path(folder, "opened")
        browser.write_text(f'#!/bin/sh\nprintf "%s" "$1" > "{opened}"\n')
        browser.chmod(0o755)
        two = TOP / "lab/ends/two_labels.py"
        _, said = judged(two, "--open",
                         env={**os.environ, "BROWSER": str(browser), "TMPDIR": folder})
        file = Path(opened.read_text().removeprefix("file://")) if opened.exists() else None
        cases.holds("--open", file and file.parent.parent == Path(folder)
                    and "#run=" in file.read_text() and str(file) in said, said)
        status, said = judged(two, "-o", Path(folder, "no/run.html"))
        cases.holds("-o to a folder that is not there",
                    status == 1 and "the run cannot be written" in said, said)
        _, said = judged(two)
        longest = max(map(len, said.splitlines()))
        cases.holds("no line is an address", longest < 160 and "#run" not in said, longest)
    return cases.sum_up()


sys.exit(main())
