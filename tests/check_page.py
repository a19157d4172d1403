#!/usr/bin/env python3
"""Checks page/index.html in Chromium and Firefox, run headless, from a file. By hand:

    tests/check_page.py [--jobs N] [--seed N] [chromium|firefox]..

It takes Debian's packages chromium-driver, firefox-esr and python3-websocket, and the programs. In
each browser it looks at all that the methods of `Checks` say: that texts, counts and refusals are
those of the program, for all examples and 1,000 drawn jobs of a link and of a tree; that exercises,
proof, questions, addresses, keys, faults and backlogs do what was worked out by hand; and that all
of it is seen, announced once, and in time. The last line is 'N passed, M failed'.
"""
import base64
import contextlib
import functools
import json
import os
import pathlib
import random
import re
import subprocess
import sys
import tempfile
import threading
import time
from unittest.mock import ANY

import websocket

from programs import TOP, Cases, answered, built, options, ran
from check_drawn import blocks, cut, is_head
from check_report import parts_of
from jobs import drawn_link, drawn_tree

PAGE = TOP / "page" / "index.html"
DATA = TOP / "crates" / "gate_checks" / "data"
MOST_BYTES = 120_000
MOST_MILLISECONDS = 200
MOST_MILLISECONDS_OF_A_STEP = 50
SECONDS = 60

WIDE = 1100, 900
SCREENS = (1280, 800), (1024, 768), (390, 844)
CONTROLS = "button, input, select, textarea"


class Browser:
    """Chromium or Firefox, driven by WebDriver BiDi over a socket of this machine."""

    def __init__(self, name, folder):
        self.count = 0
        words, wanted = ["chromedriver", "--port=0"], {"goog:chromeOptions": {"args": [
            "--headless=new", "--no-sandbox", "--disable-gpu", f"--user-data-dir={folder}"]}}
        if name == "firefox":
            words, wanted = ["firefox-esr", "--headless", "--remote-debugging-port=0",
                             "--no-remote", "--profile", folder], {}
        self.process = subprocess.Popen(words, env={**os.environ, "HOME": folder}, text=True,
                                        stdout=subprocess.PIPE, stderr=subprocess.STDOUT)
        for line in self.process.stdout:
            if found := re.search(r"(?:successfully on port |listening on ws:\S+:)(\d+)", line):
                break
        else:
            raise RuntimeError(f"{words[0]} has ended")
        # (what it says later is not read)
        threading.Thread(target=self.process.stdout.read, daemon=True).start()
        self.socket = websocket.create_connection(f"ws://127.0.0.1:{found[1]}/session",
                                                  suppress_origin=True)
        self.ask("session.new", capabilities={"alwaysMatch": wanted})
        # (in the first tab of Firefox, which has no focus, Enter presses no button)
        self.context = self.ask("browsingContext.create", type="tab")["context"]

    def ask(self, method, /, **params):
        self.count += 1
        self.socket.send(json.dumps({"id": self.count, "method": method, "params": params}))
        while True:
            said = json.loads(self.socket.recv())
            if said.get("id") == self.count:
                if said["type"] == "error":
                    raise RuntimeError(f"{method}: {said['message']}")
                return said["result"]

    def ask_chromium(self, method, /, **params):
        """What no standard has yet."""
        its = self.ask("goog:cdp.getSession", context=self.context)
        return self.ask("goog:cdp.sendCommand", method=method, params=params, **its)["result"]

    def size(self, width, height):
        self.ask("browsingContext.setViewport", context=self.context,
                 viewport={"width": width, "height": height})

    def go(self, address):
        for url in "about:blank", address:
            self.ask("browsingContext.navigate", context=self.context, url=url, wait="complete")

    def run(self, text):
        """The value of an expression of the page, which is a text of JSON."""
        said = self.ask("script.evaluate", expression=text, target={"context": self.context},
                        awaitPromise=False)
        if said["type"] != "success":
            raise RuntimeError(json.dumps(said)[:500])
        return json.loads(said["result"]["value"])

    def spoken(self):
        """What a screen reader is told: the role, name, description and properties of each."""
        value = lambda node, key: node.get(key, {}).get("value", "")
        return [(value(node, "role"), value(node, "name"), value(node, "description"),
                 {one["name"]: one["value"].get("value") for one in node.get("properties", [])})
                for node in self.ask_chromium("Accessibility.getFullAXTree")["nodes"]
                if not node["ignored"]]

    def key(self, name, shift=False):
        """Presses Enter or a digit, as a keyboard does."""
        keys = ["\ue008"] * shift + ["\ue006" if name == "Enter" else name]
        steps = ([{"type": "keyDown", "value": key} for key in keys]
                 + [{"type": "keyUp", "value": key} for key in reversed(keys)])
        self.ask("input.performActions", context=self.context,
                 actions=[{"type": "key", "id": "keyboard", "actions": steps}])

    def end(self):
        with contextlib.suppress(RuntimeError, OSError, websocket.WebSocketException):
            self.ask("browser.close")
        self.process.terminate()
        self.process.wait()


@functools.lru_cache(None)
def programs():
    """The programs stab and rignolda, and the folder that they may lie in."""
    room = tempfile.TemporaryDirectory()
    return built("stab", room.name), built("rignolda", room.name), room


def program(job, *words):
    """The text of `stab link --trace`, or of other words; None where it refuses."""
    status, text, _ = answered(programs()[0], *(words or ["link", "--trace"]), given=job)
    return text if status == 0 else None


def long_job():
    """As many events as the page takes, so that the lists are as long as they get."""
    events = [event for item in range(0, 4095, 5) for event in one_round(item)] + ["send_ack"]
    start = {"frames": [[9, 9]] * 64, "acks": [9] * 64, "send": 0, "recv": 65535}
    return json.dumps({"capacity": 64, "labels": 130, "start": start, "events": events})


# the published items of a drawn tree begin here, and those of its openings; what is in its links is
# below
PUBLISHED, OPENED = 1000, 5000


NAMES = ["r", "a", "b", "c-1", "node_2", "x", "y", "a-long-name-of-a-node"]


def small_tree(draw):
    """A drawn tree that fits the page, mostly, with a schedule that mostly does something. Each
    item is published once, or is in one opening, or in links."""
    capacity = draw.choice([1, 1, 1, 2, 3, 8])
    job = drawn_tree(
        draw, programs()[1], NAMES, nodes=draw.choice([1, 2, 2, 3, 3, 4, 5, 8]), capacity=capacity,
        labels=draw.choice([2 * capacity + 2, 2 * capacity + 3, 1000]),
        items=draw.choice([0, 3, 10, 30, 256]), schedule=draw.choice([0, 20, 100, 256, 256]),
        hold=draw.choice([0, 1, 3, 8, 9]))
    job["items"] = [PUBLISHED + i for i in range(len(job["items"]))]
    for i, items in enumerate(job.get("openings", [])):
        items[:] = [OPENED + 100 * i + k for k in range(len(items))]
    for start in job.get("starts", []):
        if draw.random() < 0.3:
            start.update(send=draw.randrange(65536), recv=draw.randrange(65536))
    for step in job["schedule"]:
        if step[1].startswith("lose") and draw.random() < 0.2:
            step[2] = 65535
    if job["schedule"] and draw.random() < 0.1:
        draw.choice(job["schedule"])[1:] = ["close"]
    return json.dumps(job)


def fits_page(job):
    """Whether a tree that the program takes fits the page."""
    job = json.loads(job)
    wide = [job["capacity"]] + [own["capacity"] for own in job.get("links", []) if own]
    held = job.get("version") == 2 and any(len(own) > 8 for own in job.get("openings", []))
    return (len(job["tree"]) <= 8 and len(job.get("schedule", [])) <= 256
            and len(job["items"]) <= 256 and max(wide) <= 8 and not held)


def standing(job, text):
    """Of each node its strays of links, its strays of openings, its missing items and the bound of
    each, counted in the text of the program; and whether they can be told apart: each item is
    published once, none is in a link at its start or in an opening, and none in both of these."""
    job, rows = json.loads(job), []
    above, _, openings, starts, capacity = parts_of(job)
    lists = [[int(word) for word in line.split()[1:]] for line in text.splitlines()[1::2]]
    hold = job["h"] if job.get("version") == 2 else 0
    opened = {item for own in openings.values() for item in own}
    for name, items in zip(above, lists):
        places = [job["items"].index(item) for item in items if item in job["items"]]
        path, most_held = [], 0
        while above[name] is not None:
            path.append(capacity[name])
            most_held += hold if name in above.values() else 0
            name = above[name]
        held = len([item for item in items if item in opened])
        missing = len(set(range(max(places, default=0))) - set(places))
        rows.append([len(items) - len(places) - held, sum(path), held, most_held, missing,
                     sum(2 * c + 1 for c in path)])
    strays = {item for start in starts.values() for _, item in start.get("frames", [])}
    return rows, (len({*job["items"]}) == len(job["items"]) and not strays & opened
                  and not (strays | opened) & {*job["items"]})


def events(text):
    """The events of a link that a text names: a number is of the word before it."""
    return [[word, int(number)] if number else word
            for word, number in re.findall(r"([a-z_]+) ?(\d*)", text)]


def one_round(item):
    return events(f"offer {item} send_frame recv_frame send_ack recv_ack")


LATE = [event for item in (11, 12, 13)
        for event in events(f"offer {item} send_frame recv_ack send_ack recv_frame")]
WORST = events("offer 10 recv_ack send_ack offer 11 recv_ack recv_frame send_ack offer 12 recv_ack")

# for each exercise events that solve it; without the last of them it is not solved
SOLVED = [one_round(7) + one_round(8),
          events("offer 7 send_frame lose_frame 0 send_frame recv_frame send_ack recv_ack"),
          ["recv_frame"], WORST, events("offer 10 recv_ack send_ack recv_frame") + LATE
          + events("offer 14 send_frame lose_frame 0 recv_ack"), WORST + one_round(13)]

# the digit that is the key of an event: in the order of a round, then the losses, and then the rest
DIGITS = dict(zip("offer send_frame recv_frame send_ack recv_ack lose_frame lose_ack "
                  "recv_frame_keep recv_ack_keep close".split(), "1234567890"))

# events that only seem to solve an exercise, by its number, or after which it cannot be solved, and
# how what the page says of them begins
LOST = events("offer 7 send_frame lose_frame 0")
UNSOLVED = [
    (2, one_round(6), "No frame was lost"),
    (2, one_round(6) + LOST, "The item of the lost frame has to be delivered"),
    (2, LOST + events("send_frame recv_frame send_ack lose_ack 0"), "This item has to be"),
    (5, SOLVED[4][:4] + LATE[:-2], "Such an item is acknowledged, "
        "but its frame is still under way"),
    (5, SOLVED[4][:4] + LATE, "No such item is missing so far"),
    (5, WORST, "From here none can go missing any more"),
    (5, WORST + one_round(13)[:2], "From here none can go missing any more"),
    (5, [event for item in range(5) for event in one_round(item)], "From here none can go missing"),
    (6, [event for item in range(4) for event in one_round(item)],
        "So far 1 of 3 items are missing"),
    (6, WORST, "Item number 3 is not acknowledged so far"),
    (6, WORST + one_round(13)[:3], "Item number 3 is not acknowledged so far"),
]

# the same for the exercises of a tree: the node, and what happens on the link into it
ROUND = "offer send_frame recv_frame send_ack recv_ack".split()
WORST_ON = "offer recv_ack send_ack offer recv_ack recv_frame send_ack offer recv_ack".split()
A, B = 1, 2
on = lambda node, words: [[node, word] for word in words]
SOLVED_TREES = [on(A, ROUND) + on(B, ROUND[:3]), on(A, ROUND[2:3]) + on(B, ROUND[2:3] + ROUND[:3]),
                on(A, WORST_ON + ROUND * 3) + on(B, WORST_ON + ROUND[:3]),
                on(B, ["recv_ack", "recv_frame", *ROUND * 2]) + on(A, ["recv_ack", "recv_frame"])
                + on(B, ROUND[:3])]

# Of each step of the proof, worked out by hand: how many events have happened, the labels that are
# nowhere then, how many items are missing, and what is marked.
PROOF = [(int(events), [*map(int, labels.split())], int(missing), marks.strip())
         for events, labels, missing, marks in (
             line.split("|") for line in (TOP / "tests/page_proof").read_text().splitlines())]
# how many steps the parts have, and the labels and what is delivered at the end of each
PROOF_PARTS = [(6, 4, []), (8, 4, [99]), (4, 4, [99, 10]), (10, 4, [99, 13]),
               (6, 4, [99, 13, 14, 15]), (5, 3, [99, 13]), (6, 2, [99, 11])]

# What is announced now: the texts of the live regions, and which of them are others than before.
LIVE = """return [
    ...document.querySelectorAll('[role=status], [role=alert], [aria-live]')].map(e => [
    e.id || e.parentElement.id,
    e.checkVisibility() && e.getAttribute('aria-live') !== 'off' ? e.textContent : '']);"""


def announced(before, now):
    return [place for (_, was), (place, text) in zip(before, now, strict=True)
        if text not in (was, "")]


# What the functions of the page below are written with.
HELPERS = """
const all = words => [...document.querySelectorAll(words)],
  press = (key, at = document.body) =>
    at.dispatchEvent(new KeyboardEvent("keydown", { key, bubbles: true })),
  set = (id, value, event) => {
    $(id).value = value;
    $(id).dispatchEvent(new Event(event ?? (id.endsWith("at") ? "input" : "change")));
  },
  texts = (...ids) => ids.map(id => $(id).textContent),
  click = (...ids) => ids.forEach(id => $(id).click()),
  happens = (words, of = "act") => words.forEach(it => all(`[data-${of}=${it}]`)[0].click()),
  shows = (title, at) => show(RUNS[title], "x", at),
  showsTree = (title, at) => showTree(TREES[title], "x", at),
  begins = (task, of = "tasks") => $(of).children[task].click(),
  possible = kind => all(`[data-${kind}]`).filter(b => !isDim(b)).map(b => b.dataset[kind]),
  counts = (t, at) => treeAfter(t, at).nodes.map(n =>
    [n.strays, n.mostStrays, n.held, n.mostHeld, n.missing, n.mostMissing]);
"""

# A link with one event, and a tree with one; and a view of a tree that has done nothing.
SMALL_LINK = json.dumps({"capacity": 1, "labels": 4, "start": {"send": 0, "recv": 1},
                         "events": ["send_ack"]})
SMALL_TREE = json.dumps({"capacity": 1, "labels": 4, "items": [7], "tree": [
    {"name": "r"}, {"name": "a", "parent": "r"}], "schedule": [["a", "offer"]]})
CHAIN = "showsTree('A clean chain, nothing done yet');"


class Like:
    """Equals each text of this form, in which a star stands for anything."""

    def __init__(self, form):
        self.form = ".*".join(map(re.escape, form.split("*")))

    def __eq__(self, text):
        return isinstance(text, str) and bool(re.fullmatch(self.form, text, re.S))


def packed(text):
    """A text as an address of the page has it."""
    return base64.urlsafe_b64encode(text.encode()).decode().rstrip("=")


TREES = """return args[0].map(text => {
  try {
    const job = readTree(text), text_ = treeText(job), end = job.events.length;
    if (treeText(readTree(treeJobText(job))) !== text_) return ["another tree is saved"];
    if (treeAfter(job, end).nodes.some(node => node.list.length !== node.origins.length))
      return ["an item has no origin"];
    return [text_, counts(job, end)];
  } catch (error) { return error instanceof TooLarge ? ["too large"] : error instanceof Fault ?
      [null] : ["error: " + error]; }
});"""

TEXTS = """return args[0].map(text => {
  try {
    const job = readJob(text), link = linkAt(job, job.events.length), c = job.capacity;
    if (link.strays > c || missingPlaces(link).length !== link.missing) return 'counted wrong';
    if (missingPlaces(link).some(i => i > 2 * c)) return 'the law is broken';
    const { steps } = follow(job, asPairs(job.events), link.effects, link.offered);
    for (let k = 0; k <= job.events.length; k += k < 40 ? 1 : 37) {
      const row = rowAt(job, k), step = steps[k], said = s => JSON.stringify(s);
      if (row.send !== step.send || row.recv !== step.recv.label ||
          said(row.acks) !== said(step.acks.map(a => a.label))
        || said(row.frames) !== said(step.frames.map(f => [f.label, f.item]))
        || said(row.queued.map(o => o[0] ? o[1] : null)) !== said(step.frames.map(f => f.number)))
        return 'another state is drawn after ' + k;
    }
    const good = link.effects.flatMap((effect, k) => effect === "Acked" ? [steps[k].isGood] : []);
    if (good.some((is, i) => is && !hasCome(link, i)))
      return 'a good acknowledgement shows nothing';
    return traceText(job);
  } catch (error) { return error instanceof Fault ? null : "error: " + error; }
});"""


class Checks(Cases):
    """What is seen in one browser after the other."""

    def see(self, name, is_well, more=None):
        """Counts a case. If it does not hold, the page's last answer is said, or what is given."""
        more = self.said if more is None else more
        self.holds(f"{self.name}: {name}", is_well, more, quiet=True)

    def same(self, name, wanted, script, *args):
        """Whether a function of the page gives this."""
        self.see(name, self.run(script, *args) == wanted)

    def run(self, script, *args):
        """The answer of a function of the page with this body and arguments."""
        self.said = self.browser.run(f"JSON.stringify((function(...args) {{{HELPERS}{script}}})"
                                     f"(...{json.dumps(args)}) ?? null)")
        return self.said

    def go(self, address=None):
        """Opens an address, or the page, and waits until it is ready."""
        self.browser.go(address or PAGE.as_uri())
        self.wait("document.documentElement?.dataset.ready")

    def wait(self, what):
        """Waits until something holds of the page."""
        end = time.time() + SECONDS
        while not self.run(f"return {what}") and time.time() < end:
            time.sleep(0.01)

    def ready(self):
        """The page is ready in time, the best of five."""
        times = []
        for _ in range(5):
            self.go()
            times.append(int(self.run("return document.documentElement.dataset.ready")))
        print(f"{self.name}: ready after {min(times)} ms ({times})")
        self.see("ready in time", min(times) < MOST_MILLISECONDS, times)

    def answers(self, script, jobs):
        """What the page says of each job, with its name, its text and what the program says."""
        for first in range(0, len(jobs), 100):
            part = jobs[first:first + 100]
            yield from ((*job, answer) for job, answer in zip(
                part, self.run(script, [text for _, text, _ in part]), strict=True))

    def texts(self):
        """Each link gives the text of the program, within its bounds, or is refused as there."""
        for job, _, want, text in self.answers(TEXTS, self.jobs):
            self.see(job, text == want, f"{text}\nand not\n{want}")

    def trees(self):
        """Each tree that fits gives the text of the program, with the strays and missing items of
        each node that an own count finds in it, within bounds that are added up here."""
        for job, data, want, answer in self.answers(TREES, self.tree_jobs):
            if want is None:
                self.see(f"{job} is refused", answer[0] in (None, "too large"), answer)
            elif not fits_page(data):
                self.see(f"{job} does not fit", answer[0] == "too large", answer)
            elif answer[0] != want:
                self.see(job, False, f"{answer[0]}\nand not\n{want}")
            else:
                counts, are_apart = standing(data, want)
                self.see(f"bounds of {job}", [row[1::2] for row in answer[1]]
                         == [row[1::2] for row in counts], answer)
                self.see(f"within bounds of {job}", all(
                    a <= b and c <= d and e <= f for a, b, c, d, e, f in answer[1]), answer)
                if are_apart:
                    self.see(f"counts of {job}", answer[1] == counts,
                             f"{answer[1]} and not {counts}")

    def tree_hands(self):
        """Buttons, slider, keys and the address of the tree."""
        counted = ["0 of at most 0; 0 of at most 0", "1 of at most 1; 3 of at most 3",
                   "1 of at most 2; 5 of at most 6 (sharper: 5)"]
        self.same("the tree at its end", [True, 48, 48, "b", counted], """click('see-tree');
            $('t-runs').value = 'Two links under one schedule'; click('t-load', 't-last');
            return [isTreeSeen, treeAt, tree.events.length, tree.names[child],
                [...$('t-nodes').rows].map(row => [...row.cells]
                    .slice(2, 4).map(cell => cell.textContent).join('; '))];""")
        self.same("the slider of the tree", [6, Like("*99 is delivered: a stray*"), "a"],
                  "set('t-at', 6); return [treeAt, ...texts('t-happened'), tree.names[child]];")
        self.same("the left key in the tree", 5, "press('ArrowLeft'); return treeAt")
        self.same("an event replaces the rest of the schedule", [6, 6],
                  "happens(['recv_frame']); return [treeAt, tree.events.length]")
        self.same("the saved schedule", ["a", "recv_frame"],
                  "return JSON.parse(treeJobText(tree)).schedule[5]")
        self.same("nothing to offer yet", ["close", "send_ack"],
                  f"{CHAIN} pick(2); return possible('act');")
        self.same("the root offers", ["offer", "close", "send_ack"],
                  "pick(1); return possible('act');")
        self.go(self.run("showsTree('A wider second link', 12); share(); return location.href"))
        self.same("a tree in the address", [True, 12, 22, ""],
                  "return [isTreeSeen, treeAt, tree.events.length, ...texts('fault')];")
        many = {"capacity": 1, "labels": 4, "items": [], "tree": [
            {"name": f"n{i}", **({"parent": "n0"} if i else {})} for i in range(9)]}
        self.same("a tree that is too large", Like("*this page takes at most 8 nodes*"),
                  "tryJob(args[0]); return texts('fault')[0]", json.dumps(many))
        self.same("a link job shows the link", [False, 1],
                  "tryJob(args[0], 'x'); return [isTreeSeen, job.events.length]", SMALL_LINK)

    def drawn_rows(self):
        """The rows of the runs that docs/PROTOCOL.md draws, stars included; and rounds."""
        drawn = [it for it in blocks() if it[1] is None or it[1].startswith(("links/", "worst"))]
        self.see("there are drawn runs", len(drawn) >= 4, len(drawn))
        for _, title, _, lines in drawn:
            text = (DATA / f"{title}.json").read_text() if title else self.run(
                "return jobText(RUNS['The shortest run with two labels'])")
            said = self.run("show(readJob(args[0], true), 'x', 1e9); drawRows(); "
                            "return [...$('rows').rows].map(r => [...r.cells].map("
                            "c => c.textContent));", text)
            top = next(at for at, line in enumerate(lines) if is_head(line))
            for line in filter(str.strip, lines[top + 1:]):
                number, cell = cut(lines[top], line)
                row = said[int(number or 0)]
                self.see(f"event {number} of {title}", not number
                         or row[1] == cell["event"].rstrip("*"), f"{row[1]} and not {cell}")
                # (the offered item may have a star here, where it is a stray of the link above)
                wanted = [" ".join(word for word in cell[it].split() if word not in {*"v^x"}) or "-"
                          for it in ("frames", "acks")]
                wanted += [cell["remembers"], cell["delivers"]]
                self.see(f"row {number} of {title}", row[6:10] == wanted, f"{row} and not {wanted}")
        for title, wanted in (("links/three_rounds_for_an_item", [6, 13, 20]),
                              ("links/two_clean_rounds", [5, 10]), ("worst_start", [])):
            self.same(f"rounds of {title}", [wanted, f"Rounds: {len(wanted)}"],
                      "show(readJob(args[0]), 'x', 1e9); return [tracked.rounds, "
                      "...texts('rounds')];", (DATA / f"{title}.json").read_text())

    def lesson(self):
        """The circle, the exercise beside it, questions, the address, and where the focus is."""
        self.same("the start", [
            Like("*Nobody knows from when*"), [" next", "", "", "free"],
            ["msg old ", "msg old lie"], "badge msg old "], """
            show(RUNS['The worst start'], 'The worst start');
            return [...texts('happened'), [...$('labels').children].map(c => c.className),
                ['frames', 'acks'].map(id => $(id).querySelector('button').className),
                $('of-recv').className];""")
        for at, part, style, told in (
                (1, "does not show that it was delivered", "some",
                 "But a 0 is in the link already"),
                (2, "may be acknowledged and never arrive", "some",
                 "was on the line before you came. The sender waited for 0: "
                 "item 10 is acknowledged, and it was never"),
                (3, "may be acknowledged", "some",
                 "sends 1, the label that it remembers since the start"),
                (6, "may be acknowledged", "some",
                 "Its label 2 is not the remembered 1, so 99 is delivered: a stray"),
                (9, "cannot go missing", "done", "This 2 came with a stray."),
                (11, "will show that it was delivered", "done", "label 3, item 13")):
            self.same(f"what is said at {at}", [Like(f"*{part}*"), style, Like(f"*{told}*")],
                      "go(args[0]); return [$('says').textContent, $('says').className, "
                      "$('happened').textContent];", at)
        for title, capacity in (("The worst start", 1), ("The worst start of capacity two", 2)):
            self.same(f"the ring of {title}", [
                "When full, this is Dijkstra's ring of 2c + 2 machines, here "
                f"{2 * capacity + 2}: sender, c frames, receiver, c acknowledgements.",
                2 * capacity + 2], "shows(args[0], 6); return [$('ring').nextSibling.textContent, "
                "all('#ring .lane li:not(.unseen), #ring .badge').length];", title)
        # (the shape of this circle is always good, and the first item is missing all the same)
        self.same("a good shape is not enough", [Like("*does not show*"), Like("Missing: 0*")],
                  "shows('The receiver remembers the first label', 4); "
                  "return texts('says', 'missing');")

        says = "$('task').querySelector('[role=status]').textContent"
        card = (f"return [!$('task').hidden, {says}, "
                "...['Show a solution', 'Hint'].map(it => $('task').innerText.includes(it)), "
                "$('item').value];")
        self.same("an exercise begins",
                  [True, "So far 0 of 3 items are missing.", False, True, "10"],
                  "$('item').value = 77; begins(3);" + card)
        button = "all('#task button').find(b => b.textContent === args[0]).click();"
        self.same("a hint", Like("*Three labels are on the circle*"),
                  button + "return $('task').innerText", "Hint")
        self.same("it is solved by hand", [True, "Done.", True, False, ANY],
                  "for (const event of args[0]) { if (event[0] === 'offer') $('item').value ="
                  " event.pop(); happens([[].concat(event)[0]], 'event'); }" + card, WORST)
        self.same("the solution solves it", ["Done.", 9, False],
                  f"{button} click('last'); return [{says}, job.events.length, $('task').hidden]",
                  "Show a solution")
        self.same("another run has no exercise", True,
                  "$('runs').value = 'A clean start'; click('load'); return $('task').hidden")
        self.same("all solutions solve", [[""] * 6, [""] * 4], """return [
            [TASKS, checkTask], [TREE_TASKS, checkTree]].map(([tasks, check]) => tasks.map(
                (task, i) => check(i, { ...task.job, events: task.solution })))""")

        ask = "return [$('ask').hidden, at, $('ask').innerText, ...texts('happened', 'score')];"
        answer = "$('ask').querySelectorAll('button')[args[0]].click();"
        self.same("a question", [False, 1, Like("*What will the sender do now?*"), ANY, ANY],
                  "$('asks').checked = true; shows('The worst start', 1); click('forth');" + ask)
        self.same("a right answer", [True, 2, ANY, Like("*Right. This 0*"), "1 of 1 right"],
                  answer + ask, 0)
        self.same("a wrong answer", [True, 6, ANY, Like("*No. This frame*"), "1 of 2 right"],
                  f"go(5); happens(['recv_frame'], 'event'); {answer}{ask}", 1)
        self.run("$('asks').checked = false;")

        worst = {"frames": [[4, 97], [5, 98], [6, 99]], "acks": [0, 1, 2], "send": 0, "recv": 3}
        self.same("the worst start of capacity 3", [3, 8, worst, "a start of your own"],
                  "$('n-capacity').value = 3; fillWorst(); ownStart(); "
                  "return [job.capacity, job.labels, job.start, name];")
        focus = "document.activeElement.click(); const { id, dataset } = document.activeElement;"
        self.same("the focus stays", "offer", "shows('A clean start'); "
                  f"all('[data-event=offer]')[0].focus(); {focus} return dataset.event")
        self.same("a message is lost by pressing it",
                  ["frames", ["lose_frame", 0], Like("*label 0, item 10*")],
                  "happens(['send_frame'], 'event'); all('#frames button')[0].focus();"
                  f"{focus} return [id, job.events.at(-1), ...texts('happened')]")
        self.same("keys in the table do not step", True,
                  "const had = at; press('ArrowLeft', all('.table')[0]); return had === at")
        for garbage in ("#job=garbage", "#nothing", "#tree=e30"):
            self.go(PAGE.as_uri() + garbage)
            self.same(f"the address {garbage}", [Like("*cannot be read*"), 12],
                      "return [...texts('fault'), job.events.length];")
        self.same("another run clears the address", ["#job=", ""],
                  "share(); const had = location.hash; click('load'); return [had.slice(0, 5), "
                  "location.hash];")
        self.same("a number with a point", Like("*and not a number with a point*"),
                  "tryJob(args[0]); return texts('fault')[0]",
                  SMALL_LINK.replace('"capacity": 1', '"capacity": 1.0'))

    def proof(self):
        """Each step of the proof shows what it says, and its sentence alone is announced."""
        self.see("the steps of the proof", sum(count for count, _, _ in PROOF_PARTS)
                 == len(PROOF) == self.run("return PROOF_STEPS.length"))
        # with 2c + 1 labels the bound holds, and with 2c it does not: `texts` and `labels` try both
        self.same("what the last parts of the proof are called",
                  ["With 2c + 1 labels only this proof fails",
                   "And with 2c labels the bound is broken"],
                  "return PROOF.slice(5).map(it => it[0])")
        state = """const marked = e => /rgb/.test(getComputedStyle(e).boxShadow),
                link = linkAt(job, at), marks = words => all(words).map(marked);
            return { is: [at, all('#labels .free').map(e => Number(e.firstChild.data)),
                    link.missing, $('ring').dataset.mark],
                labels: job.labels, delivered: link.delivered, send: link.send,
                frames: marks('#frames button'), acks: marks('#acks button'),
                ends: marks('#of-send, #of-recv'), chips: marks('#labels > *'),
                ways: all('#ring svg path').map(e => getComputedStyle(e).stroke) };"""
        self.run("shows('A clean start');")
        before, step, plain = self.run(LIVE), 0, self.run(state)["ways"][0]
        for part, (count, labels, delivered) in enumerate(PROOF_PARTS):
            for _ in range(count):
                self.run("click(args[0]);", "proof-forth" if step else "proof-begin")
                said, live = self.run(state), self.run(LIVE)
                _, free, _, marks = PROOF[step]
                marks = marks.split()
                chips = ["labels" in marks or "free" in marks and label in free
                         or "next" in marks and label == said["send"] for label in range(labels)]
                self.see(f"step {step + 1} of the proof",
                         said["is"] == list(PROOF[step]) and said["labels"] == labels)
                self.see(f"what step {step + 1} of the proof marks", set(said["frames"])
                         <= {"frames" in marks} and set(said["acks"]) <= {"acks" in marks}
                         and said["ends"] == ["send" in marks, "recv" in marks]
                         and said["chips"] == chips and [way != plain for way in said["ways"]]
                         == ["frames" in marks, "acks" in marks])
                changed = announced(before, live)
                self.see(f"step {step + 1} of the proof is announced once",
                         changed == ["proof-says"], changed)
                before, step = live, step + 1
            self.see(f"what part {part + 1} of the proof delivers", said["delivered"] == delivered)
        place = """; return [proofAt, at, $('proof').hidden, $('proof-part').value,
            $('ring').dataset.mark, $('happened').getAttribute('aria-live')];"""
        for name, script, *wanted in (
                ("the proof ends", "click('proof-forth')", 44),
                ("the left key in the proof", "press('ArrowLeft')", 43, 12),
                ("the first step by a key", "press('Home')", 0, 0, False, "0", "frames"),
                ("a part of the proof", "$('proof-part').value = 3; $('proof-part').onchange()",
                 18, 10, False, "3", "frames recv acks"),
                ("an own event in the proof", "happen('send_frame')",
                 18, 11, False, "3", "", "polite"),
                ("and on with the proof", "click('proof-forth')", 19, 11, False, "3", "frames")):
            self.see(name, self.run(script + place)[:len(wanted)] == wanted)
        self.same("the proof is left", [-1, True, "", "#proof=20", "proof-begin"],
                  """share(); const had = location.hash; click('proof-leave'); return [proofAt,
                  $('proof').hidden, $('ring').dataset.mark, had, document.activeElement.id]""")
        for address, *wanted in ("#proof=24", 23, 16), ("#proof", 0, 0), ("#proof=99", 44, 14):
            self.go(PAGE.as_uri() + address)
            self.see(f"the address {address}", self.run(place)[:3] == [*wanted, False])
        self.same("another run ends the proof", [-1, True],
                  "click('load'); return [proofAt, $('proof').hidden]")

    def keys(self):
        """The keyboard alone, with as many keys as events."""
        done = "$(args[0]).querySelector('[role=status]').textContent"
        for view, tasks, task, solved, events in (
                ("see-link", "tasks", "task", [
                    [[A, it if isinstance(it, str) else it[0]] for it in events]
                    for events in SOLVED], "job.events.map(it => [1, [].concat(it)[0]])"),
                ("see-tree", "t-tasks", "t-task", SOLVED_TREES,
                 "tree.events.map(([at, word]) => [at, word])")):
            for i, solution in enumerate(solved):
                self.run("showsTree('A clean tree'); click(args[0]); "
                         "$(args[1]).children[args[2]].focus();", view, tasks, i)
                self.browser.key("Enter")
                self.same(f"exercise {i + 1} of {tasks} has the focus", True,
                          "return $(args[0]).contains(document.activeElement)", task)
                link = A
                for node, word in solution:
                    self.browser.key(DIGITS[word], node != link)
                    link = node
                self.same(f"exercise {i + 1} of {tasks} by {len(solution)} keys",
                          [solution, "Done."], f"return [{events}, {done}]", task)
        kept = ["recv_frame_keep", "recv_ack_keep", "lose_ack", "lose_frame", "close"]
        words = "return [job.events.map(event => [].concat(event)[0]), $('item').value]"
        empty = "shows('The worst start'); job = { ...job, events: [] }; go(0); "
        self.run(empty + "all('[data-event]')[0].focus();")
        for word in [*kept, "offer"]:
            self.browser.key(DIGITS[word])
        self.same("each other event has a key, and one that would do nothing does nothing",
                  [kept, "10"], words)
        for place, item in (("load", "10"), ("item", "3")):
            self.run(empty + "$(args[0]).focus(); $(args[0]).select?.();", place)
            self.browser.key("3")
            self.same(f"a digit at {place} is no event", [[], item], words)
        # the hint is hidden once the exercise is solved, and the focus stays beside it
        self.run("begins(2); all('#task button').find(b => b.textContent === 'Hint').focus();")
        self.browser.key("3")
        self.same("the focus stays in a card", ["task", "Done."],
                  f"return [document.activeElement.id, {done}]", "task")
        self.run("$('proof-begin').focus();")
        ends = "return [proofAt, document.activeElement.id]"
        for name, count in ("the proof by Enter", len(PROOF)), ("the proof by Enter ends", 1):
            for _ in range(count):
                self.browser.key("Enter")
            self.same(name, [len(PROOF) - 1, "proof-forth"], ends)
        self.go(PAGE.as_uri() + "#proof=7")
        self.browser.key("Enter")
        self.same("on from an address by Enter", [7, "proof-forth"], ends)

    def seen(self):
        """What an address or an exercise names is on the screen, with what moves it."""
        inside = ("const box = e => e.getBoundingClientRect(), "
                  "isIn = e => -1 < box(e).top && box(e).bottom < innerHeight + 1;")
        for width, height in SCREENS:
            self.browser.size(width, height)
            for address, names in ((f"#job={packed(SMALL_LINK)}", ["h-link", "lanes"]),
                                   (f"#tree={packed(SMALL_TREE)}&at=1", ["h-tree", "t-drawn"]),
                                   ("#proof=19", ["proof", "lanes"])):
                self.go(PAGE.as_uri() + address)
                self.same(f"{address[:7]} is seen at {width}", [True, True],
                          inside + "return args.map(id => isIn($(id)))", *names)
            for step in range(len(PROOF)):
                # (the event that tells the page of its address comes a little later)
                self.run("scrollTo(0, args[0] % 2 * 1e6); location.hash = '#proof=' + args[0]",
                         step + 1)
                self.wait(f"proofAt === {step}")
                self.same(f"step {step + 1} of the proof is seen at {width}",
                          [step, True, True, True], inside + "return [proofAt, isIn($('proof')), "
                          "box($('proof')).top < 9, isIn($('lanes'))]")
            for i in range(len(SOLVED)):
                self.same(f"exercise {i + 1} is seen at {width}", [True, True, True],
                          inside + "scrollTo(0, 1e6); begins(args[0]); "
                          "return [isIn($('task')), box($('task')).top < 9, isIn($('lanes'))]", i)
        moves = inside + """
            const lanes = $(args[0]), isSeen = e => {
                const { left, right, top, bottom } = box(e);
                return isIn(e) && e.contains(document.elementFromPoint(
                    (left + right) / 2, (top + bottom) / 2));
            };
            return all(args[1]).filter(e => e.checkVisibility()).map(e => {
                scrollTo(0, 0);
                e.scrollIntoView({ block: box(e).top < box(lanes).top ? 'start' : 'end' });
                const areSeen = isIn(lanes) && isSeen(e);
                scrollTo(0, 1e6);
                e.scrollIntoView({ block: 'nearest' });
                return [e.id || e.textContent, areSeen && isSeen(e)];
            });"""
        acts, times = ".acts button", ".time button, .time input"
        moved = f"{acts}, #item, {times}, #play, #asks"
        self.same("the narrow form", True, "return matchMedia('(max-width: 44rem)').matches")
        for view, lanes, controls, count in (
                ("shows('The worst start', 6);", "lanes", moved, 14),
                ("shows('The worst start of capacity two', 8);", "lanes", moved, 14),
                ("proofTo(23);", "lanes", "#proof button, #proof select", 5),
                ("$('asks').checked = true; shows('The worst start', 1); click('forth');", "lanes",
                 "#ask button", 2),
                ("$('asks').checked = false; begins(4);", "lanes", f"#task button, {acts}", 12),
                ("showsTree('Backlogs at two nodes', 9);", "t-lanes",
                 f"{acts}, {times}, #t-link, #t-rest, #t-strike, #t-restart", 15)):
            said = self.run(view + moves, lanes, controls)
            self.see(f"the circle and what moves it after {view}",
                     len(said) == count and all(is_seen for _, is_seen in said), said)
        self.browser.size(*WIDE)

    def announced(self):
        """A step of a run is announced once, and not again when it is drawn again."""
        # (what is hidden from a screen reader does not count)
        changes = """const seen = new MutationObserver(() => {}), found = new Set();
            seen.observe(document.body, { childList: true, subtree: true });
            click(args[0]);
            for (const { target } of seen.takeRecords())
                if (!target.closest('[aria-hidden], [role=img]')) found.add(target.id ||
                    target.parentElement.id);
            seen.disconnect();
            return [...found].sort();"""
        self.run("proofTo(0);")
        self.same("a step of the proof changes its sentence alone", ["proof-count", "proof-says"],
                  changes, "proof-forth")
        # the third event of this run puts the label 1 onto the way of the acknowledgements
        self.run("shows('The worst start', 2);")
        self.same("an event changes what it changes alone", ["acks", "happened", "rows"],
                  changes, "forth")
        for begin, forth, again in (
                ("shows('The worst start');", "forth", "draw();"),
                ("showsTree('Two links under one schedule');", "t-forth", "pick(1); pick(2);")):
            before, place = self.run(begin + LIVE), forth.replace("forth", "happened")
            for k in range(12):
                live = self.run("click(args[0]);" + LIVE, forth)
                changed = announced(before, live)
                self.see(f"event {k + 1} is announced once by {forth}", changed == [place], changed)
                before = live
            self.same(f"what is drawn again is not announced again by {forth}", True,
                      "const had = $(args[0]).firstChild;"
                      f"{again} return had === $(args[0]).firstChild;", place)

    def spoken(self):
        """Chromium's tree for screen readers, in every state of the page."""
        controls = {"button", "combobox", "spinbutton", "slider", "checkbox", "textbox",
                    "DisclosureTriangle"}
        for state in ("shows('The worst start', 6);",
                      "shows('The worst start of capacity two', 20);",
                      "show(readJob(args[0]), 'x', 9);", "proofTo(20);", "begins(3);",
                      "$('asks').checked = true; shows('The worst start', 1); click('forth');",
                      "all('details').forEach(e => { e.open = true; });",
                      "showsTree('A clean tree', 20);", "begins(1, 't-tasks');",
                      "showsTree('Backlogs at two nodes', 6);",
                      f"{CHAIN} click('t-rest', 't-strike');"):
            self.run(state, long_job())
            tree = self.browser.spoken()
            for name, wrong in (
                    ("all has a name", [one for one in tree if not one[1] and one[0] in controls | {
                        "image", "region", "columnheader"}]),
                    ("all controls have a role", [
                        one for one in tree if one[3].get("focusable") and one[0] not in controls
                        | {"RootWebArea", "option", "region", "list", "group"}]),
                    ("nothing is said twice", [
                        one for one in tree if one[2] and (one[1] in one[2] or one[2] in one[1])])):
                self.see(f"{name} after {state}", not wrong, wrong)
            texts = [one[1] for one in tree]
            self.see(f"the picture has a text after {state}", any(text.startswith(
                ("The run as a picture: ", "The tree: ")) for text in texts), texts)
        self.run("$('asks').checked = false; shows('The worst start', 6);"
                 "all('details').forEach(e => { e.open = false; });")

        def named(role):
            return [one[1] for one in self.browser.spoken() if one[0] == role and one[1]]

        # after six events: no message is on the line, the receiver remembers 2, and 99 was
        # delivered
        items = sorted(named("listitem"))
        self.see("the labels and items are said", items == [
            "0: nowhere", "10: acknowledged and missing", "11: acknowledged and missing",
            "1: nowhere", "2: in the link, the sender's", "3: nowhere",
            "99: a stray, from place 0 of the start's frames"], items)
        self.run("go(0);")
        buttons = named("button")
        self.see("the messages are said", [name for name in buttons if "label" in name] == [
            "front: label 2, item 99, from the start",
            "front: label 0, from the start, the sender's label, but not from its item"], buttons)

    def lab(self):
        """Runs of wrong ends, as lab/check_ends.py writes them into an address."""
        for ends, events, missing, strays, last in (
                ("two_labels", 14, 3, 1, "item 3 counts as acknowledged"),
                ("flushes_once", 14, 3, 1, "item 3 counts as acknowledged"),
                ("any_acknowledgement", 8, 4, 0, "item 3 counts as acknowledged"),
                ("every_frame", 2, 0, 2, "90 is delivered")):
            with tempfile.TemporaryDirectory() as folder:
                file = pathlib.Path(folder, "run.html")
                ran(TOP / "lab/check_ends.py", TOP / f"lab/ends/{ends}.py", "-o", file)
                address = re.search(r"index.html(#run=[\w-]+)", file.read_text())[1]
            self.go(PAGE.as_uri() + address)
            self.same(f"a run of {ends}", [
                "", f"Missing: {missing} of at most 3", f"Strays: {strays} of at most 1",
                Like(f"*{last}"), Like("These are other ends*"), events, 0],
                """for (let k = 0; k <= job.events.length; k++) go(k);
                return [...texts('fault', 'missing', 'strays', 'happened', 'says'), at,
                    possible('event').length];""")
        text = base64.urlsafe_b64decode(address[5:] + "==").decode()
        text = text.replace("[[65535, 90]]", "[[7, 90]]").replace("[[0, 90]]", "[[7, 90]]", 1)
        self.go(PAGE.as_uri() + "#run=" + packed(text))
        self.same("a run that does not follow", [Like("*do not follow*"), False],
                  "return [...texts('fault'), 'record' in job];")

    def slides(self):
        """The runs on the slides are drawn as the page draws them, and nothing is cut off."""
        drawn = self.run("return args.map(title => { show(RUNS[title], 'x', 1e9); "
                         "return all('#drawn text').map(e => e.textContent); });",
                         "The worst start", "The shortest run with two labels")
        slides = TOP / "lab/slides.html"
        said = [re.findall(r"<text[^>]*>([^<]*)</text>", svg)
                for svg in re.findall(r'<svg class="run".*?</svg>', slides.read_text(), re.S)]
        self.see("the runs on the slides", said == drawn, f"{said} and not {drawn}")
        self.browser.size(1024, 768)
        self.browser.go(slides.as_uri())
        time.sleep(0.5)
        said = self.run("""const slides = all('section'), over = e => Math.max(
                e.scrollWidth - e.clientWidth, e.scrollHeight - innerHeight);
            return [slides.length, Math.max(...all('section, pre').map(over)), ...args.map(
                key => (press(key), slides.findIndex(e => e.getBoundingClientRect().top > -2)))];
            """, "ArrowLeft", "ArrowRight", "PageDown", "PageUp", *["ArrowRight"] * 11, "ArrowLeft")
        self.see("the slides", said == [12, 0, 0, 1, 2, 1, *range(2, 12), 11, 10])
        self.browser.size(*WIDE)
        self.go(PAGE.as_uri())

    def time(self):
        """A step of the slider at 4,096 events, the best of ten, is drawn in time."""
        times = self.run("""show(readJob(args[0]), 'x', 4000);
            return [4001, 2000, 4096, 4095, 2100, 4090, 3000, 4001, 2000, 3500].map(to => {
                const from = performance.now();
                set('at', to);
                return Math.round(performance.now() - from);
            });""", long_job())
        print(f"{self.name}: steps of the slider take {times} ms")
        self.see("a step of the slider", min(times) < MOST_MILLISECONDS_OF_A_STEP, times)

    def narrow(self):
        """At 360 pixels, if the browser can be so narrow, and in print."""
        self.browser.size(360, 800)
        for view in ("shows('The worst start of capacity two', 8);", "begins(4);",
                     "click('see-tree');", "showsTree('Backlogs at two nodes', 10);",
                     "begins(3, 't-tasks');", "show(readJob(args[0]), 'x', 9);"):
            said = self.run(f"{view} return [document.documentElement.scrollWidth, innerWidth]",
                            long_job())
            self.see("nothing is cut off at 360 pixels",
                     said[0] <= max(360, said[1] if self.name == "firefox" else 0))
        self.browser.size(*WIDE)
        if self.name == "chromium":
            self.run("shows('The worst start', 9);")
            self.browser.ask_chromium("Emulation.setEmulatedMedia", media="print")
            self.same("no control is printed", 0, f"""return all('{CONTROLS}, summary').filter(e =>
                e.checkVisibility() && !e.classList.contains('msg')).length""")
            self.same("the table is printed whole, its head where it begins", ["none", "static"],
                      """const [table, head] = ['.table', '.table thead th'].map(
                          words => getComputedStyle(all(words)[0]));
                      return [table.maxHeight, head.position]""")
            self.same("the sentence of the proof is printed", [True, True, False],
                      "proofTo(7); return ['proof-name', 'proof-says', 'proof-forth'].map("
                      "id => $(id).checkVisibility())")
            self.browser.ask_chromium("Emulation.setEmulatedMedia", media="")

    def faults(self):
        """A struck link and a restarted node, against the program's answer to that job."""
        state = ("return [treeAt, isAtRest(stateOf(treeAt)), ['t-rest', 't-strike', "
                 "'t-restart'].map(id => isDim($(id)))];")
        self.same("a tree with work left", [0, False, [False, True, True]], CHAIN + state)
        self.same("no fault before the rest", "", "click('t-strike'); return tree.since ?? ''")
        self.same("everything comes to rest", [40, True, [True, False, False]],
                  "click('t-rest');" + state)
        struck = {"acks": [0], "send": 0, "recv": 1}
        empty = {"frames": [], "acks": [], "send": 0, "recv": 0}
        for button, node, start, events, cost in (
                ("t-strike", 1, {"frames": [[2, 910]], **struck}, WORST_ON + ROUND,
                 [[0, 0, 0], [1, 0, 3], [1, 0, 3]]),
                ("t-strike", 2, {"frames": [[2, 920]], **struck}, WORST_ON + ROUND,
                 [[0, 0, 0], [0, 0, 0], [1, 0, 3]]),
                ("t-restart", 1, empty, ROUND, [[0, 0, 0], [0, 0, 1], [0, 0, 2]])):
            self.same(f"the start after {button} at {node}", [start, 14], f"""{CHAIN}
                click('t-rest'); pick(args[1]); click(args[0]);
                const saved = JSON.parse(treeJobText(tree));
                return [saved.starts[args[1] - 1], saved.items[0]]""", button, node)
            if node == 2:
                self.run("pick(1); args[0].forEach(word => act(word)); pick(2);", ROUND * 5)
            text = self.run("args[0].forEach(word => act(word)); click('t-rest'); "
                            "return treeJobText(tree)", events)
            want = program(text.encode(), "tree")
            said = self.run("return [treeText(tree), counts(tree, tree.events.length), "
                            "...texts('t-since')];")
            self.see(f"the tree after {button} at {node}", said[0] == want
                     and said[1] == standing(text, want)[0], f"{said} and not {want}")
            self.see(f"what {button} at {node} costs", [row[::2] for row in said[1]] == cost,
                     said[1])
            self.see("it is said", "All numbers count from there" in said[2])
        self.same("a lone root has no link", True,
                  "showTree(readTree(args[0]), 'x'); return $('t-one').hidden", json.dumps(
                      {"capacity": 1, "labels": 4, "items": [1], "tree": [{"name": "r"}]}))

    def backlogs(self):
        """Inner nodes that begin or come back with a backlog."""
        # the four items of this chain have the labels 0 to 3; then a comes back with 50 and 51, and
        # the root publishes 14 to 18, the first of which has the label 0 that a remembers
        state = ("return [counts(tree, treeAt), "
                 "all('#t-bounds > *').map(e => e.querySelector('b').textContent)];")
        self.same("a backlog is filled in", ["710 711", "backlog of a"],
                  CHAIN + "click('t-rest'); pick(1); set('t-hold', 2); "
                  "return [$('t-held').value, ...texts('t-held-of')];")
        for typed, why in (("50 51 52", "This backlog has 3 items, and h is 2.*"),
                           ("50 x", "A backlog is a row of whole numbers*"),
                           ("1.5", "A backlog is a row*")):
            self.same(f"the backlog {typed} is refused", [Like(why), ""],
                      "$('t-held').value = args[0]; click('t-restart'); "
                      "return [...texts('t-why'), tree.since ?? ''];", typed)
        saved = json.loads(self.run(
            "$('t-held').value = '50, 51'; click('t-restart'); return treeJobText(tree)"))
        clean = {"frames": [], "acks": [], "send": 0}
        wanted = {"version": 2, "h": 2, "openings": [[], [50, 51], []],
                  "items": [14, 15, 16, 17, 18],
                  "starts": [{**clean, "recv": 0}, {**clean, "recv": 3}]}
        self.see("the job after a restart with a backlog", {**saved, **wanted} == saved, saved)
        none, some = [0] * 6, [0, 1, 2, 2, 0, 3]
        self.same("just after the restart", [[none, some, [0, 2, 0, 2, 0, 6]], [
            "Strays of links at a: 0 of at most C = 1", "Strays of backlogs: 2 of at most E = 2",
            "Missing: 0 of at most M = 3"]], state)
        self.same("it is said that a has a backlog",
                  Like("*with a backlog: 50 51. All numbers count from there*"),
                  "return texts('t-since')[0]")
        said = self.run("""pick(2); happens(['offer', 'send_frame']);
            const button = all('#t-frames button')[0];
            return [button.className, button.getAttribute('aria-label'),
                $('t-nodes').rows[2].cells[4].textContent,
                all('#t-drawn text').map(e => e.textContent), ...texts('t-sender'),
                $('t-held').hidden, isDim($('t-begin'))];""")
        self.see("an item of a backlog on its way", said[0] == "msg held own"
                 and said[1].startswith("front: label 0, item 50, of the backlog of a")
                 and said[2] == "0=50◆" and "1◆ ↓" in said[3] and "2 items, 2◆" in said[3]
                 and "holds50 ◆" in said[4])
        self.see("a leaf has no backlog", said[5:] == [True, True])
        self.same("an item of a backlog arrives", Like(
            "*so 50 is delivered, item number 0. It is a stray of the backlog of a."),
            "happens(['recv_frame']); return texts('t-happened')[0]")
        wanted = [none, [0, 1, 2, 2, 1, 3], [0, 2, 2, 2, 1, 6]]
        self.same("both of the backlog arrive, and one item is missing", [wanted, [
            "Strays of links at b: 0 of at most C = 2", "Strays of backlogs: 2 of at most E = 2",
            "Missing: 1 of at most M = 6"]],
            "happens(args[1]); pick(1); happens(args[0]); happens(args[0]); pick(2); "
            "happens(args[0]);" + state, ROUND, ROUND[3:] + ROUND)
        said = self.run("""return [treeText(tree), treeJobText(tree),
            [...$('t-nodes').rows[2].cells[1].querySelectorAll('li')].map(e =>
                [e.className, e.textContent])];""")
        self.see("the program says the same", said[0] == program(said[1].encode(), "tree")
                 and standing(said[1], said[0])[0] == wanted and "items: 50 51 15\n" in said[0])
        self.see("the marks of the list", said[2][1:] == [
            ["held", "50: a stray of the backlog of a"],
            ["held", "51: a stray of the backlog of a"], ["sent", "15: published item number 1"]])
        # the address has the backlogs, and one that has none is read as before
        own = "return [tree.hold, tree.openings, treeAt, tree.events.length, ...texts('fault')];"
        self.go(self.run("goTree(7); share(); return location.href"))
        self.same("backlogs in the address", [2, [[], [50, 51], []], 7, 25, ""], own)
        old = {**json.loads(SMALL_TREE), "links": [{"capacity": 1, "labels": 4}],
               "starts": [{**clean, "recv": 65535}]}
        self.go(PAGE.as_uri() + f"#tree={packed(json.dumps(old))}&at=1")
        self.same("an address without backlogs", [0, [[], []], 1, 1, ""], own)
        # of this tree a and c are inner nodes, numbers 1 and 3; h counts once for each leaf below
        self.same("all begin with backlogs, and one with another", [
            [[], [710, 711, 712], [], [5], [], []], 0,
            [[0, 0], [3, 3], [0, 3], [1, 3], [0, 3], [0, 3]]], """showsTree('A clean tree');
            set('t-hold', 3); click('t-begin-all'); pick(3); $('t-held').value = '5';
            click('t-begin'); return [tree.openings, tree.events.length,
                counts(tree, treeAt).map(row => row.slice(2, 4))]""")
        self.same("h is at least what the longest backlog has", [3, "3"],
                  "set('t-hold', 1); return [tree.hold, $('t-hold').value]")
        # below two inner nodes E is h twice, and c gets all: 98 is of the link into b
        said = self.run("showsTree('Backlogs at two nodes', 1e9); pick(3); "
                        "return treeText(tree)"), self.run(state)
        self.see("backlogs of two nodes",
                 said[0].splitlines()[7] == "items: 720 721 98 710 711 10" and said[1] == [
                     [none, some, [1, 2, 4, 4, 0, 6], [1, 3, 4, 4, 0, 9]],
                     ["Strays of links at c: 1 of at most C = 3",
                      "Strays of backlogs: 4 of at most E = 4", "Missing: 0 of at most M = 9"]])

    def exercises(self):
        """Each is refused with too few events, and solved with those that are given here."""
        body = "return {0}(args[0], {{ ...{1}[args[0]].job, events: args[1] }});".format
        for kind, check, tasks, other, solved in (
                ("", "checkTask", "TASKS", "RUNS['Two clean rounds']", SOLVED),
                ("tree ", "checkTree", "TREE_TASKS", "TREES['A clean tree']", SOLVED_TREES)):
            for i, events in enumerate(solved):
                name = f"{kind}exercise {i + 1}"
                self.same(f"{name} is solved", "", body(check, tasks), i, events)
                self.see(f"{name} fails", self.run(body(check, tasks), i, events[:-1]) != "")
                self.see(f"{name} from another start",
                         self.run(f"return {check}(args[0], {other});", i) != "")
        for exercise, events, wanted in UNSOLVED:
            said = self.run(body("checkTask", "TASKS"), exercise - 1, events)
            self.see(f"what seems to solve exercise {exercise}", said.startswith(wanted))

    def labels(self):
        """What is said of missing items, by the number of labels, and of one that is under way."""
        body = """show({...RUNS['Two labels are too few'], labels: args[0], capacity: args[1]},
                'x', args[2]);
            return texts('missing', 'missing-say', 'happened').concat(
                all('#offered > *').map(item => item.className));"""
        for labels, capacity, missing, why in [
                (4, 1, "of at most 3", "only among the first 3 acknowledged"),
                (3, 1, "of at most 3",
                 "The bound holds with 3 labels; the program asks for one more"),
                (2, 1, "Missing: ", "with 2 labels there is no bound: with capacity 1 it needs 3"),
                (6, 2, "of at most 5", "only among the first 5 acknowledged"),
                (5, 2, "of at most 5", "The bound holds with 5 labels"),
                (4, 2, "Missing: ", "with 4 labels there is no bound: with capacity 2 it needs 5")]:
            said = self.run(body, labels, capacity, 23)
            self.see(f"{labels} labels with capacity {capacity}", missing in said[0]
                     and why in said[1] and ("at most" in said[0]) == (labels > 2 * capacity)
                     and ("one more" in said[1]) == (labels < 2 * capacity + 2))
        for name, at, happened, classes in (
                ("an item under way", 7, "*is acknowledged, though its frame is still under way.",
                 ["gone", "late"]),
                ("and it comes", 9, "*item number 1*", ["gone", "sent"]),
                ("an item that was lost", 23, "*is acknowledged, and it was never delivered.",
                 None)):
            said = self.run(body, 2, 1, at)
            self.see(name, said[2] == Like(happened) and classes in (None, said[3:]))

    def hands(self):
        """Buttons, slider, keys and the address."""
        self.same("forward to the end",
                  [12, 12, "Strays: 1 of at most 1", "Missing: 3 of at most 3"],
                  "shows('The worst start'); for (let i = 0; i < 12; i++) click('forth');"
                  "return [at, job.events.length, ...texts('strays', 'missing')];")
        self.same("the slider", [6, Like("*a stray*")],
                  "set('at', 6); return [at, ...texts('happened')]")
        self.same("the left key", 5, "press('ArrowLeft'); return at")
        self.same("an event replaces the rest", [5, 5],
                  "click('back'); happens(['send_ack'], 'event'); return [at, job.events.length]")
        self.see("its text", self.run("return jobText(job)").count("send_ack") == 2)
        self.same("what can happen to a clean link", ["offer", "close", "send_ack"],
                  "shows('A clean start'); return possible('event');")
        self.go(self.run("shows('Two labels are too few', 99); share(); return location.href"))
        self.same("a run in the address", [23, 2, "over", ""],
                  "return [at, job.labels, $('missing-box').className, ...texts('fault')];")
        self.same("a refused job names the place", Like("*events[1]*"),
                  "tryJob(args[0]); return texts('fault')[0]",
                  SMALL_LINK.replace('"send_ack"', '"send_ack", "sent"'))
        self.same("each control has a name", 0, f"""return all('{CONTROLS}').filter(e =>
            !(e.textContent.trim() || e.getAttribute('aria-label') || e.closest('label'))
            ).length;""")


def main():
    words = options("browsers", jobs=1000, seed=1)
    checks, draw = Checks(), random.Random(words.seed)
    checks.holds("the page is at most 120 kB", PAGE.stat().st_size <= MOST_BYTES)

    def examples(*folders):
        """The examples that can be pasted, since they are UTF-8."""
        for path in (path for folder in folders for path in sorted(DATA.glob(folder))):
            with contextlib.suppress(UnicodeDecodeError):
                yield path.name, path.read_bytes().decode()

    drawn = range(words.jobs)
    jobs = [*examples("links/*.json", "refused/*.json", "worst_start.json"),
            *((f"drawn job {i}", json.dumps(drawn_link(draw))) for i in drawn),
            ("4096 events", long_job())]
    # (the page does not look at scripts and turns)
    trees = [*examples("trees/*.json"), *(it for it in examples("refused_trees/*.json")
                                          if '"scripts"' not in it[1] and '"turns"' not in it[1]),
             *((f"drawn tree {i}", small_tree(draw)) for i in drawn)]
    checks.jobs = [(*job, program(job[1].encode())) for job in jobs]
    checks.tree_jobs = [(*job, program(job[1].encode(), "tree")) for job in trees]
    fitting = sum(want is not None and fits_page(text) for _, text, want in checks.tree_jobs)
    print(f"{len(trees)} trees, of which {fitting} fit the page")
    accepted = sum(want is not None for _, _, want in checks.jobs)
    print(f"{len(jobs)} jobs, of which the program takes {accepted}")
    for name in words.browsers or ["chromium", "firefox"]:
        with tempfile.TemporaryDirectory(ignore_cleanup_errors=True) as folder:
            checks.name = name
            browser = checks.browser = Browser(name, folder)
            try:
                browser.size(*WIDE)
                for part in ("ready", "texts", "exercises", "labels", "hands", "drawn_rows",
                             "lesson", "proof", "keys", "seen", "announced",
                             *["spoken"] * (name == "chromium"), "lab", "slides", "time", "trees",
                             "tree_hands", "faults", "backlogs", "narrow"):
                    getattr(checks, part)()
            finally:
                browser.end()
    sys.exit(checks.sum_up())


main()
