#!/usr/bin/env -S python3 -B
"""Faults of all kinds among 15 agents in rings, drawn, as a stranger would cause them.

    tests/daemon/trial.py [--runs 4] [--seed 1] [--trees 1] [--loss 0] [rings|two..]
                                                             by hand; check.py tries one run

The agents are a hub, four racks whose parents are the hub and the next rack, and ten leaves whose
parents are their own rack, the next one and the hub; one of them is dialled by its rack alone, and
one rack listens on IPv6. Some are of a group. All speak TLS. While settings change, faults are
drawn: kills, ends, stops, restarts of the hub of 0.2 s, folders and files spoilt in the ways of
file_faults.py. In `two` a leaf is a second root, and a parent of the racks: now and then it is
promoted while the hub is gone; the hub comes back, stands by, is demoted, and the two have changed
places. With --loss so many percent of all packets are lost, in a network of its own. No agent ends
by itself. After the last fault all comes to be right, as in memory_faults.py, and nobody moves on.
"""
import contextlib
import functools
import random
import re
import signal
import socket
import sys
import time

from daemons import by_tls, meanwhile, read, until
from file_faults import HOWS, KEEP, shell, spoil_some
from memory_faults import AGAIN, COLUMNS, Trials, count, main, run, table
from runner import sure, test

RACKS, LEAVES = 4, 10
NAMES = [f"rack{at + 1}" for at in range(RACKS)] + [f"leaf{at + 1}" for at in range(LEAVES)]
DIALLED = "leaf10"
BY_IPV6 = "rack3"
# The second root, if there are two; and who is of the group.
SECOND = "leaf9"
GROUP, OF_GROUP = "canary", ("rack2", "leaf2", "leaf4", "leaf6")


def parents_of(name, two=False):
    """The parents of an agent, the first one first, where there may be two roots."""
    if two and name in ("root", SECOND):
        return [SECOND if name == "root" else "root"]
    if name == "root":
        return []
    number = int(re.sub("[a-z]+", "", name))
    if name.startswith("rack"):
        return ["root", *[SECOND] * two, f"rack{number % RACKS + 1}"]
    own = (number - 1) % RACKS + 1
    return [f"rack{own}"] if name == DIALLED else [f"rack{own}", f"rack{own % RACKS + 1}", "root"]


def in_rings(tree, two):
    hosts = {}
    with contextlib.suppress(OSError), socket.create_server(("::1", 0), family=socket.AF_INET6):
        hosts[BY_IPV6] = "[::1]"
    host = lambda name: hosts.get(name, "127.0.0.1")
    at = lambda name: f"{name}@{host(name)}:{tree[name].port}"
    tree.root.tables["root"]["harmless"] = 15
    if two:
        second = tree[SECOND]
        second.truth = second.home / "truth"
        second.truth.mkdir()
        for agent in tree.root, second:
            agent.tables["root"] = {**tree.root.tables["root"], "settings": str(agent.truth),
                                    "standby": True}
    for agent in tree:
        name, top = agent.name, agent.top
        agent.tables["link"] = {"ack_timeout": "1s", "evict": "8s", "backlog": 80}
        # (also a folder that lost its marker is its own)
        agent.tables["apply"]["take"] = True
        agent.children = []
        children = [it for it in ["root", *NAMES] if name in parents_of(it, two)]
        if children:
            top["children"] = [at(it) if it == DIALLED else it for it in children]
        if children or name == DIALLED:
            top["listen"] = f"{host(name)}:{agent.port}"
        if parents := parents_of(name, two):
            top["parents"] = [it if name == DIALLED else at(it) for it in parents]
        if name in OF_GROUP:
            top["groups"] = [GROUP]


class Rings(Trials):
    """Such a tree, and faults of which some are at once."""
    trees = {it: [by_tls, functools.partial(in_rings, two=it == "two")] for it in ("rings", "two")}
    shapes = dict.fromkeys(trees, dict.fromkeys(NAMES, "root"))
    faults = 25

    def tree_of(self, kind, number):
        return kind

    def change(self, draw, often=0):
        """Changes one of many settings as well, or takes it away."""
        key = f"key{draw.randrange(400)}" + f"@{GROUP}" * (draw.random() < 0.1)
        if draw.random() < 0.15:
            (self.tree.root.truth / key).unlink(missing_ok=True)
        else:
            size = draw.choice([0, 10, 300, 3_000, 40_000 if draw.random() < 0.1 else 50])
            self.tree.write(key, draw.randbytes(size))
        return super().change(draw, often)

    def burst(self, draw):
        """Strikes some at once, and ends that."""
        root, second = self.units[0], self.tree.agents.get(SECOND)
        # (not the folder of the other root, which publishes what it applied)
        spoilt = [it.agent for it in self.units[1:]
                  if self.of != "two" or it.agent is not second]
        units = draw.sample(self.units, draw.choice([1, 1, 2, 3]))
        kinds = [draw.choices(["kill", "end", "stop", "hub", "spoil", "none"],
                              [20, 10, 9, 6, 44, 5])[0] for _ in units]
        for unit, kind in zip(units, kinds):
            self.what.append(f"{unit.agent.name}: {kind}")
            if kind == "stop":
                unit.agent.signal(signal.SIGSTOP)
            elif kind in ("kill", "end"):
                unit.agent.kill(signal.SIGTERM if kind == "end" else signal.SIGKILL)
            elif kind == "hub":
                root.agent.kill()
            if kind == "spoil" or kind != "stop" and draw.random() < 0.3:
                self.spoil(draw.choice(spoilt), draw)
        self.holds(lambda: False, 0.2 if "hub" in kinds else draw.choice([0, 0.1, 0.5, 1, 2.5]))
        for unit in self.units:
            if not unit.agent.process:
                unit.start()
            elif unit in units and kinds[units.index(unit)] == "stop":
                unit.agent.signal(signal.SIGCONT)
        self.holds(lambda: False, draw.choice([0, 0.05, 0.3, 0.6]))
        # (what will be an old copy)
        other = draw.choice(self.units).agent
        if not (other.home / "old").exists():
            shell(other, KEEP)

    def spoil(self, agent, draw):
        """Spoils some files of an agent, or what lies in its folder."""
        if draw.random() < 0.6:
            return spoil_some(agent, draw)
        path, how = draw.choice([("settings", it) for it in (
            "emptied", "deleted", "an older copy", "an older copy", "extra files",
            "extra odd names")] + [("settings/.pending", "a file")])
        return shell(agent, HOWS[how], path, f"old/{path}")

    def change_places(self, draw):
        """The root goes, and the other one is promoted; then it comes back, and is demoted."""
        tree, old = self.tree, self.tree.root
        new = tree[SECOND if old.name == "root" else "root"]
        old.kill()
        said = {}

        def promoted():
            nonlocal said
            said = new.request(do="promote", as_is=False)
            return said == "done" or "--as-is" in str(said)
        sure(self.holds(promoted), said, new.text()[-500:])
        if said != "done":
            # (it lacks a change, or its files are no whole table: what the old root had is put there)
            had = read(old.truth)
            for name in had.keys() | read(new.truth).keys():
                if had.get(name) is None:
                    (new.truth / name).unlink()
                else:
                    (new.truth / name).write_bytes(had[name])
            new.ask("promote", "--as-is")
        tree.root = new
        time.sleep(draw.choice([0, 0.5, 2]))
        old.start()
        old.becomes(standby="stands-by")
        old.ask("demote")

    def trial(self, kind, number):
        """One run of faults, after which all comes to be right, and to rest."""
        draw, other = (random.Random(f"{self.seed} {kind} {number} {it}") for it in (1, 2))
        self.ends, self.what = [], []
        with meanwhile(lambda: (self.change(other), time.sleep(other.choice([0.01, 0.03])))):
            for _ in range(self.faults):
                self.burst(draw)
                if kind == "two" and draw.random() < 0.1:
                    self.change_places(draw)
        ended = self.ends
        came = self.after(draw.choice(self.units).agent, draw, AGAIN)
        moves = lambda: [it.agent.status().get("reconnects") for it in self.units]

        def rests():
            before = moves()
            return not self.holds(lambda: moves() != before, 1)
        return ["trials", *ended, *came, *["wrong"] * (bool(ended) or not until(rests))]


@test(begins=True)
def faults_of_all_kinds_end_in_a_right_tree():
    came, _ = run([("rings", 5)], "gate", 1, Rings)
    sure(count(came, "right") == 1, "\n" + table(came))


if __name__ == "__main__":
    sys.exit(main(Rings, ["rings", "two"], COLUMNS, "runs"))
