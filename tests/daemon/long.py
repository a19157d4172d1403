#!/usr/bin/env -S python3 -B
"""A long trial by hand: a tree of daemons, kills, stops, broken connections, and each count judged.

    tests/daemon/long.py [--runs 1] [--kills 50] [--nodes 15] [--seed 1] [--stops] [--relays]
        [--loss PERCENT] [--store]

With --loss the agents have a network of their own (unshare), where nft drops PERCENT percent of
the packets; that needs root. With --store seven agents have some of their links in a store of
Redis, and two thirds of the faults are the store's. What the logs have between two moments at which
all processes were stopped at once is a job for `rignolda judge`, of each agent whose links were
begun before the first one: it received at most C + E bodies of before, and then published ones in
their order, each once, and of those before its last one only some of the first are missing. At the
end every agent has the settings of the root's folder. Each run has the next seed; what a run that
failed has judged is kept in a file that it names. The last line is 'N passed, M failed'.
"""
import contextlib
import json
import random
import re
import signal
import sys
import tempfile
import time
from pathlib import Path

import store
from daemons import Tree, during, fan, meanwhile, until
from memory import stands_still
from programs import answered, paragraphs, run_with
from relay import between, lose
from runner import options, run_seeds, sure

LIMIT = 60                  # of a backlog
GARBAGE = 2 ** 32 - 1       # an item that nobody publishes


def signal_all(agents, number):
    for agent in agents:
        agent.signal(number)


class Trial:
    """A tree, what is done to it, and how long its logs were when all were stopped at once."""

    def __init__(self, chosen, seed):
        self.chosen, self.draw = chosen, random.Random(seed)
        self.ends = contextlib.ExitStack()
        self.redis = self.ends.enter_context(store.Redis()) if chosen.store else None
        self.tree = self.ends.enter_context(
            Tree(None, store.in_store(self.redis)) if chosen.store else Tree(fan(chosen.nodes)))
        self.tree.root.tables["root"]["harmless"] = 11
        for agent in self.tree:
            agent.tables["link"] = {"ack_timeout": "500ms", "evict": "30s", "backlog": LIMIT}
        self.relays = [between(agent, cuts=(0.05, 1.5), delay=0.002 * (at % 5), seed=at)
                       for at, agent in enumerate(self.tree)
                       if chosen.relays and agent.parent and at % 2]
        self.cuts = []          # how many lines each log had
        self.changes = 0

    def change(self):
        """Changes the root's folder."""
        key = self.draw.randrange(30)
        self.tree.write(f"key{key}", f"{self.changes} {'x' * (self.changes * 7919 % 3000)}")
        self.changes += 1
        time.sleep(0.004)

    def stop_all(self):
        living = [agent for agent in self.tree if agent.alive()]
        signal_all(living, signal.SIGSTOP)
        for agent in living:
            until(lambda: not agent.alive() or stands_still(agent.process.pid), 5, 0.0005)
        return living

    def cut(self, victims=()):
        """A moment at which all are stopped: how long each log is. Victims end there."""
        living = self.stop_all()
        self.cuts.append({agent.name: len(lines_of(agent.text())) for agent in self.tree})
        for victim in victims:
            victim.kill()
        signal_all(set(living).difference(victims), signal.SIGCONT)

    def connects(self):
        """Asserts that each agent comes to be connected. Not all need be at once: on a machine
        where it takes ten seconds to ask them all, some link has always just been left."""
        away = {agent for agent in self.tree if agent.parent}

        def all_up():
            away.difference_update([agent for agent in away if agent.status().get("parent")])
            return not away

        if not until(all_up, 0.5, 0.05):
            for relay in self.relays:
                relay.calm = True
            sure(until(all_up, 30, 0.05), "not connected:", [agent.name for agent in away])
            for relay in self.relays:
                relay.calm = False

    def strike(self):
        """One fault of the store. It ends first, so that no agent has in hand what it got."""
        redis, how = self.redis, self.draw.randrange(4)
        if how == 0:
            redis.backup()
            redis.age()
        redis.kill()
        time.sleep(0.1)
        living = self.stop_all()
        redis.file.unlink(missing_ok=True)
        if how > 1 and redis.kept.exists():
            redis.restore()
        redis.start()
        if how == 3:
            redis.make_old()
            redis.spoil(self.draw)
            redis.make_old()
        self.cut()
        signal_all(living, signal.SIGCONT)

    def kill(self):
        """Some agents end at one moment, or all of them, and begin anew."""
        draw, agents = self.draw, list(self.tree)
        is_all = draw.random() < 0.06
        victims = agents if is_all else draw.sample(agents, draw.choice([1, 1, 1, 2, 3]))
        self.cut(victims)
        time.sleep(draw.choice([0, 0, 0.05, 0.3]))
        self.tree.start(victims)

    def goes_on(self):
        """Waits for a while, in which some may stand still."""
        for _ in during(self.draw.uniform(0.3, 1.0)):
            if self.chosen.stops:
                frozen = self.draw.sample(list(self.tree), 2)
                signal_all(frozen, signal.SIGSTOP)
                time.sleep(self.draw.uniform(0.05, 0.7))
                signal_all(frozen, signal.SIGCONT)
            time.sleep(0.1)

    def run(self, file):
        """The trial itself: whether nothing was wrong."""
        self.tree.start()
        self.connects()
        with meanwhile(self.change):
            for _ in range(self.chosen.kills):
                self.cut()
                self.goes_on()
                if self.redis and self.draw.randrange(3):
                    self.strike()
                else:
                    self.kill()
                self.connects()
        self.cut()
        good = self.tree.right()
        time.sleep(0.5)
        self.cut()
        logs = {agent.name: agent.text() for agent in self.tree}
        above = {agent.name: agent.parent.name for agent in self.tree if agent.parent}
        wrong, judged, left_out = judge(file, self.cuts, logs, above)
        if wrong:
            kept = tempfile.mkstemp(prefix="rignolda-judged-", suffix=".json")[1]
            Path(kept).write_text(json.dumps({"cuts": self.cuts, "logs": logs, "above": above}))
            print(f"what was judged is in {kept}")
        print(f"{self.chosen.kills} faults, {self.changes} changes: {judged} counts of agents "
              f"judged, {left_out} left out since a link began anew in them; not as the laws say: "
              f"{wrong[:5]}; settings right: {good} {self.tree.wrong()}", flush=True)
        return good and not wrong


def main(file):
    chosen = options(runs=1, kills=50, nodes=15, seed=1, loss=0.0, stops=False, relays=False,
                     store=False)
    lose(chosen.loss)

    def one(seed):
        trial = Trial(chosen, seed)
        with trial.ends:
            sure(trial.run(file), "what is said above was wrong")
    return run_seeds(chosen, one)


# ---- Judging

def lines_of(text):
    """The lines of a log. A process that is killed while it writes one leaves a part of it, and
    what the next process says first would be behind that part."""
    return re.sub(r"(?<=[^\n])(start \S+ life [0-9a-f]{16}\n)", r"\n\1", text).splitlines()


def counts_of(cuts, texts, above):
    """Between each two moments what the root published and, for each agent that is judged, where in
    that its count begins, and what it received. It is not where a link of its path began anew."""
    logs = {name: lines_of(text) for name, text in texts.items()}
    root = logs["root"]
    for start, end in zip(cuts, cuts[1:]):
        counts, part = {}, {name: log[start[name]:end[name]] for name, log in logs.items()}
        begun = max([place for place, line in enumerate(root[:end["root"]])
                     if line.startswith("start ")], default=0)
        published = numbers(root[begun:end["root"]], "published")
        for name in above:
            path = [name]
            while above[path[0]] in above:
                path.insert(0, above[path[0]])
            if begun >= start["root"] or any(began_anew(part, it, above[it]) for it in path):
                continue
            first = first_offered(root[begun:start["root"]], logs[path[0]][:start[path[0]]],
                                  part[path[0]], path[0])
            place = len(published) if first is None else sum(it < first for it in published)
            counts[name] = place, numbers(part[name], "received")
        yield published, counts


def job_of(above, published, counts):
    """A job with logs: what the root published, and for each agent that is judged the place in that
    where its count begins and what it received since. A node may have had LIMIT numbers for each of
    its children. An item of the job is a number in the order in which it is met here, since numbers
    of agents may be larger."""
    names, known = ["root", *above], {}
    item = lambda number: GARBAGE if number is None else known.setdefault(number, len(known))
    first = min([place for place, _ in counts.values()], default=len(published))
    return {
        "version": 2, "h": LIMIT, "capacity": 1, "labels": 4,
        "tree": [{"name": "root"}] + [{"name": name, "parent": parent}
                                      for name, parent in above.items()],
        "items": [item(number) for number in published[first:]],
        "received": [[item(number) for number in counts.get(name, (0, []))[1]] for name in names],
        "from": [counts[name][0] - first if name in counts else 0 for name in names],
    }


def broken_in(file, above, published, counts):
    """What is wrong between two moments, by the agent's name. The list of the root begins for its
    child with what the child had last or, where that was acknowledged, with the next number: so an
    agent is wrong where both are refused."""
    counts, moved, wrong = dict(counts), set(), {}
    while True:
        status, text, fault = answered(file, "judge", given=job_of(above, published, counts))
        if (status, text) == (0, "obeys\n"):
            return wrong
        sure(status == 1 and text, "status", status, fault)
        name = text.split(":", 1)[0]
        place, received = counts.pop(name)
        if name in moved:
            wrong[name] = text.splitlines()[0]
        else:
            moved.add(name)
            counts[name] = (min(place + 1, len(published)), received)


def judge(file, cuts, texts, above):
    """Judges logs: the moments as `Trial.cuts` has them, the text of each log by its agent's name,
    and the parent of each agent but the root. It returns what is wrong, as (part, agent, text), and
    how many counts of agents were judged and left out."""
    wrong, judged, left_out = [], 0, 0
    for at, (published, counts) in enumerate(counts_of(cuts, texts, above)):
        judged, left_out = judged + len(counts), left_out + len(above) - len(counts)
        if counts:
            wrong += [(at, *it) for it in broken_in(file, above, published, counts).items()]
    return wrong, judged, left_out


def first_offered(root, before, since, name):
    """The number with which the root's list begins for its child, in a count that begins there: the
    last one that the child had, or, where the link began anew and nothing came by it yet, the first
    one that comes in this count. Where none comes in it, there is none, and all that comes to those
    below the child was on its way or in a backlog."""
    before, after = ([number for number in numbers(log, "received") if number is not None]
                     for log in (before, since))
    anew = max([at for at, line in enumerate(root)
                if line.startswith(f"connected {name}, a new count")], default=0)
    published = numbers(root[:anew], "published")
    if before and (not published or before[-1] > published[-1]):
        return before[-1]
    return after[0] if after else None


def numbers(lines, fact):
    """The numbers of the bodies in some lines; None where one was garbage."""
    found = [re.match(rf"{fact} (\d+)$|garbage item", line) for line in lines]
    return [it[1] and int(it[1]) for it in found if it]


def began_anew(part, child, parent):
    """Whether the link to an agent began anew in these parts of the logs."""
    name = re.escape(child)
    above, own = part[parent], part[child]
    return (any(re.match(rf"(connected {name}, a new count|(left-behind|evicted) {name}\b)", line)
                for line in above)
            or any(re.match(r"start |connected the parent.*a new count", line) for line in own))


# ---- Its test, by logs that were made by hand, which tests/check_logs.py runs

ABOVE = {"inner": "root", "leaf": "inner"}


def start(name, life):
    return [f"start {name} life {life:016x}"]


def lines(fact, *numbers):
    return [f"{fact} {number}" for number in numbers]


def received(*numbers):
    return lines("received", *numbers)


# All have begun, and have received what was published.
BEGUN = {
    "root": start("root", 1) + ["connected inner, a new count"] + lines("published", 10, 11, 12),
    "inner": start("inner", 2) + ["connected the parent root, a new count",
                                  "connected leaf, a new count"] + received(10, 11, 12),
    "leaf": start("leaf", 3) + ["connected the parent inner, a new count"] + received(10, 11, 12)}


def part(text):
    """A part of logs as judged.rows has it."""
    if text in (known := {"begun": BEGUN, "anew": ANEW, "begun again": AGAIN}):
        return known[text]
    lists = [[number for first, _, last in (word.partition("-") for word in words.split())
              for number in range(int(first), int(last or first) + 1)] for words in text.split("|")]
    published, inner, leaf = lists
    return {"root": lines("published", *published), "inner": received(*inner),
            "leaf": received(*leaf)}


def judged(file, *parts, broken=()):
    """The verdict on logs of these parts. At the moments after those of `broken`, the last line
    of an agent's log has no end, since its process was killed while it wrote it."""
    texts = {name: "" for name in BEGUN}
    lengths = {name: 0 for name in BEGUN}
    cuts = []
    for at, phase in enumerate(parts):
        for name, found in phase.items():
            texts[name] += "".join(line + "\n" for line in found)
            lengths[name] += len(found)
            if (at, name) in broken:
                texts[name] = texts[name].removesuffix("\n")
        cuts.append(dict(lengths))
    wrong, count, left_out = judge(file, cuts, texts, ABOVE)
    return [name for _, name, _ in wrong], count, left_out


# The child begins anew, and the root.
ANEW = {"root": ["connected inner, a new count"],
        "inner": start("inner", 4) + ["connected the parent root, a new count",
                                      "connected leaf, a new count"] + received(*range(10, 31)),
        "leaf": ["connected the parent inner, a new count"] + received(*range(10, 21))}
AGAIN = {"root": start("root", 5) + ["connected inner, a new count"] + lines("published", 90),
         "inner": received(90), "leaf": received(90)}
CASES = [(it["case"][0], [*map(part, it["part"])],
          (it.get("wrong", []), int(it["judged"][0]), int(it["left out"][0])),
          {(int(at), name) for at, name in map(str.split, it.get("broken", []))})
         for it in paragraphs(Path(__file__).parent / "judged.rows")]


if __name__ == "__main__":
    sys.exit(run_with(main, "rignolda"))
