#!/usr/bin/env python3
"""Judges two ends of a link by all runs from all starts of a small line.

    lab/check_ends.py YOUR_ENDS.py [-c CAPACITY] [-k LABELS] [--miss-nothing] [--states COUNT]
                      [-o FILE] [--open]

YOUR_ENDS.py has the classes Sender and Receiver, as lab/template.py says. The line, what is lost
and repeated, and the garbage of the start are made here. At the start the line is full of any
labels; one that is not full is one after losses. The ends begin as they are made, with any label;
and then as any messages may have left them, the sender idle or with an item, and with what they
list in MAY_BE. Any number of items is offered. Every state that can be reached is visited, the
nearest first, so a run that is printed is a shortest one that breaks the law of a link (with
capacity 2, of those that begin with the same memory of the sender):

- first come at most CAPACITY strays, items that lay on the line at the start, in their order;
- then come items that were offered, in their order, each at most once;
- none but the first 2 * CAPACITY + 1 counts as acknowledged before it is delivered;
- and wherever a run has led, in 2 * CAPACITY + 1 rounds without a loss an item more counts as
  acknowledged. In a round an item is offered, a frame is sent, the frame at the front arrives, an
  acknowledgement is sent, and the one at the front arrives.

An item that the sender has at the start is the first of those that were offered. With
--miss-nothing none but this one counts as acknowledged before it is delivered; the rounds may then
be any number, which is printed.

The status is 0 if the ends obey the law, 1 if not, 2 if they cannot be judged, or not all runs
were tried.
"""
from __future__ import annotations

import argparse
import os
import sys
import tempfile
import traceback
import webbrowser
from pathlib import Path

sys.dont_write_bytecode = True
from judge.ends import Apart, End, Endless, Left, Unfit, loaded  # noqa: E402
from judge.link import Link, Search  # noqa: E402
from judge.runs import Run  # noqa: E402


# (with capacity 2 the right ends have 1,136,168, and need half a minute)
MOST_STATES = 3_000_000


def spoilt(ends: dict[End, list[Left]]) -> str:
    """What the starts have in the attributes, and of which of them they have but one value."""
    seen: dict[str, dict[str, None]] = {}
    for end, memories in ends.items():
        for memory, _ in memories:
            for name, value in end.shown(memory).items():
                seen.setdefault(f"{end.name}.{name}", {})[str(value)] = None
    said = {name: f"{name} ({', '.join(list(values)[:8])}{', ..' * (len(values) > 8)})"
            for name, values in seen.items()}
    several = [said[name] for name, values in seen.items() if len(values) > 1]
    single = [said[name] for name, values in seen.items() if len(values) == 1]
    return (f"Spoilt at the start: {', '.join(several) or 'nothing'}.\n"
            f"Never spoilt, so never any other value: {', '.join(single) or 'nothing'}."
            + " List in MAY_BE what else may be." * bool(single))


def batches(link: Link, memories: tuple[list[Left], list[Left]]) -> list[tuple[list[Left], ...]]:
    """The memories that runs begin with, one batch after the other: first as the ends are made.
    With capacity 2 the sender has one memory in a batch, so that wrong ends are found soon."""
    made = tuple([(one, False) for one in link.begun[end.name]]
                 for end in (link.sender, link.receiver))
    if link.capacity == 1:
        return [made, memories]
    return [(made[0][:1], made[1])] + [([one], memories[1]) for one in reversed(memories[0])]


def judge(asked: argparse.Namespace, labels: int) -> int:
    apart = Apart(os.path.dirname(os.path.abspath(asked.ends)))
    sender, receiver = loaded(asked.ends, [*range(labels), 65535], apart)
    link = Link(sender, receiver, labels, asked.capacity, not asked.miss_nothing)
    memories = link.memories()
    search = Search(link, asked.states)
    finding, todo = None, batches(link, memories)
    while todo and search.whole and not finding:
        finding = search.visit(link.starts(*todo.pop(0)))
    sender.check_again()
    receiver.check_again()
    law = "the law of a link" + " that misses nothing" * asked.miss_nothing
    what = f"capacity {asked.capacity}, {labels} labels, {len(search.before)} states"
    if finding:
        run = Run(link, finding)
        print(run.text())
        print(f"searched: {what}")
        show(run, labels, asked)
    elif search.whole:
        print(f"These ends obey {law}: {what}.")
        print(f"An item more counts as acknowledged in at most {search.most_rounds} rounds; where "
              f"nothing disturbs them, each takes {link.exchanges():g}.")
        early = ", ".join(map(str, sorted(link.early)))
        print("Acknowledged before they were delivered: "
              + (f"only items {early}." if early else "none."))
    else:
        print(f"No run that was tried breaks {law}, but not all were tried: {what}.")
        print(f"Left out: runs of more than {search.depth} events from the starts tried last, and "
              "whether they always bring an item more; and starts from "
              f"{sum(len(senders) for senders, _ in todo)} of {len(memories[0])} memories of the "
              "sender. Let the ends remember less, or give more --states.")
    if not finding:
        print(spoilt(dict(zip((sender, receiver), memories))))
    if apart.printed.getvalue():
        print("(What the ends print is left out; it begins with "
              f"{apart.printed.getvalue().splitlines()[0]!r}.)")
    return 1 if finding else 0 if search.whole else 2


def show(run: Run, labels: int, asked: argparse.Namespace) -> None:
    """Writes the run as a page, and opens it, if either is asked for."""
    if not (asked.output or asked.open):
        print("--open draws this run, and plays its events with right ends; -o FILE.html writes it")
        return
    path = Path(asked.output or Path(tempfile.mkdtemp(), "run.html")).resolve()
    try:
        path.write_text(run.page(labels), encoding="utf-8")
    except OSError as error:
        print(f"the run cannot be written: {error}", file=sys.stderr)
        return
    print(f"drawn, and the same events with right ends: {path}")
    if asked.open and not webbrowser.open(path.as_uri()):
        print("(no browser was found: open it yourself)")


def place_of(error: BaseException, ends: str) -> str:
    """Where in a student's code it came about."""
    folder = os.path.dirname(os.path.abspath(ends))
    for place in reversed(traceback.extract_tb(error.__traceback__)):
        file = place.filename
        if os.path.dirname(file) == folder and file != os.path.abspath(__file__):
            return f" ({os.path.basename(file)}, line {place.lineno}, in {place.name})"
    return ""


def main() -> int:
    words = argparse.ArgumentParser(description=__doc__,
                                    formatter_class=argparse.RawDescriptionHelpFormatter)
    words.add_argument("ends", metavar="YOUR_ENDS.py")
    words.add_argument("-c", "--capacity", type=int, default=1, choices=(1, 2))
    words.add_argument("-k", "--labels", type=int, choices=range(2, 17), metavar="LABELS",
                       help="2 * CAPACITY + 2 unless it is said")
    words.add_argument("--miss-nothing", action="store_true", help="no item may be missing")
    words.add_argument("--states", type=int, default=MOST_STATES, metavar="COUNT",
                       help=f"the most states that are visited: {MOST_STATES} unless it is said")
    words.add_argument("-o", "--output", metavar="FILE", help="writes the run as a page")
    words.add_argument("--open", action="store_true", help="opens this page in a browser")
    asked = words.parse_args()
    try:
        return judge(asked, asked.labels or 2 * asked.capacity + 2)
    except BrokenPipeError:  # nobody reads on
        sys.stdout = None
        return 2
    except (Unfit, OSError, SyntaxError) as error:
        said = str(error)
    except Endless as error:
        said = str(error) + place_of(error, asked.ends)
    except (Exception, SystemExit) as error:  # what the ends themselves raise
        said = f"{type(error).__name__}: {error}" + place_of(error, asked.ends)
    print(f"{asked.ends} cannot be judged: {said}", file=sys.stderr)
    return 2


if __name__ == "__main__":
    sys.exit(main())
