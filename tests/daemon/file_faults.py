#!/usr/bin/env -S python3 -B
"""Faults in the files of agents, and copies of folders and of memory that are put back.

    tests/daemon/file_faults.py [--runs 100] [--seed 1] [--trees 3] [KIND or KIND:NUMBER..]

What lies at some place of an agent that may not pass over modes is spoiled in one of the ways of
HOWS, or the number of a marker is moved, while it runs or is stopped. Or some folders are put back
to a copy while their agents are stopped, or the memory of one or two to what it was up to 8 s
before. Then all comes to be right, as in memory_faults.py, and no value is applied after a newer
one. Or the root is lost, and `promote` at a spoiled one publishes what was published, or nothing.
"""
import contextlib
import os
import pathlib
import random
import subprocess
import sys
import time

from daemons import during, meanwhile, read
from memory import stopped, writable
from memory_faults import AGAIN, TREES, Trials, main
from programs import paragraphs
from runner import HERE

# How something is spoiled, and what a shell does then.
HOWS = {it["how"][0]: it["does"][0] for it in paragraphs(HERE / "spoils.rows")}
ALL, SOCKET = ["root", "second", "hub", "one", "two"], list(HOWS)[:6]
# Where each is, at whom, and what is no fault there, as a missing disk, or somebody else's folder.
PLACES = {
    "marker": ("settings/.rignolda", ALL), "pending": ("settings/.pending", ALL),
    "groups": ("settings/.groups", ALL), "value": ("settings/key1", ALL),
    "new": ("settings/.rignolda0.new", ALL),
    "folder": ("settings", ALL, "a link to nowhere", "a full folder"),
    "control": ("control", ALL, *SOCKET), "listen": ("listens", ["hub"], *SOCKET),
    "root": ("truth/.root", ["root"]), "applied": ("truth/.applied", ["second"]),
    "published": ("truth/.published", ["root"]), "record": ("truth/.rignolda/published", ["root"]),
    "number": ("", ALL), "folders": ("", ALL), "memory": ("", ALL), "promote": ("", ["second"])}
MOVES = [10**6, -10**6, 2**40, -2**40, 2**62, -2**62, 2**63 - 1, 2**63, 2**63 + 1]
# What keeps a copy, and puts back a folder of it, with a marker that is old, new or gone, and also that of the root.
KEEP = "rm -rf old; mkdir old; cp -a settings old; cp -a truth old"
BACK = """cp -a settings/.rignolda .; rm -rf settings; cp -a old/settings .
[ $1 != new ] || cp -a .rignolda settings; [ $1 != no ] || rm -f settings/.rignolda
[ $2 = False ] || { rm -rf truth; cp -a old/truth .; }"""


def shell(agent, words, *more):
    """Whether this is done in the folder of an agent."""
    words = ["sh", "-c", words, "sh", *map(str, more)]
    return not subprocess.run(words, cwd=agent.home, stderr=subprocess.DEVNULL).returncode


def spoil_some(agent, draw, least=1):
    """Spoils some of an agent's files, each in one of the ways, while it may write them."""
    path = agent.settings
    names = sorted(it.name for it in path.glob("[!.]*") if it.is_file() and not it.is_symlink())
    for name in draw.sample(names, min(len(names), draw.choice([least, least, 2 * least, 30]))):
        # (in one of them two names come to be one file)
        how = draw.choice([*HOWS.values(), 'ln -f "$3" "$1"'])
        shell(agent, how, f"settings/{name}", f"old/settings/{name}",
              f"settings/{draw.choice(names)}")


def bare(tree):
    """Its agents may not pass over modes, and one has its parent at a Unix socket."""
    for agent in () if os.geteuid() else tree:
        agent.prefix = ["setpriv", "--bounding-set=-dac_override,-dac_read_search"]
    at = f"unix:{tree['hub'].home}/listens"
    tree["hub"].top["listen"] = [f"127.0.0.1:{tree['hub'].port}", at]
    tree["two"].top["parents"] = [f"hub@{at}"]


class Files(Trials):
    """A tree, and faults of its files."""
    trees, is_of_root = {"roots": [*TREES["roots"], bare]}, False

    def wrong(self):
        root = self.tree.root
        if self.is_of_root and root.status(2).get("standby") in ("below", "stands-by"):
            # (as somebody does who sees that it is not the root)
            shell(root, "[ ! -d truth/.root ] || rm -r truth/.root")
            self.what.append(f"promoted: {root.run('promote', '--as-is').stderr}")
        return super().wrong()

    def look(self):
        """Looks whether an agent has a value after a newer one: each begins with its number."""
        for agent in self.tree:
            for key, value in agent.files().items():
                number = int(value.split()[0]) if value and value[:1].isdigit() else -1
                most = self.most.get((agent.name, key), number)
                self.most[agent.name, key] = max(most, number)
                if -1 < number < most:
                    self.older.append(f"{agent.name} has {number} of {key} after {most}")
        time.sleep(0.005)

    def goes_by(self, draw, seconds):
        """Lets some time go by, in which settings change."""
        for _ in during(seconds):
            self.change(draw)
            self.holds(lambda: False, 0.3)

    def spoil(self, kind, agent, draw):
        """Spoils what is at a place: whether that can be done."""
        path, _, *others = PLACES[kind]
        if kind == "number":
            move, marker = draw.choice([0, 1, 2**64 - 1, *MOVES]), agent.settings / ".rignolda"
            new = (move + int(marker.read_text()) * (move in MOVES)) % 2**64
            self.what.append(f"the marker of {agent.name}: {new}")
            return marker.write_text(f"{new:020}\n")
        how = draw.choice([it for it in HOWS if it not in others])
        self.what.append(f"{path} of {agent.name}: {how}" + ", stopped" * (not agent.alive()))
        other = self.tree["second" if agent.name == "root" else "root"].home
        return shell(agent, HOWS[how], path, f"old/{path}", other / path)

    def folders(self, draw):
        """Puts back folders of some agents: whether that may have something older applied."""
        self.goes_by(draw, draw.uniform(0.5, 3))
        marker = draw.choice(["old", "new", "no"])
        units = draw.sample(self.units, draw.choice([1, 1, 2, 5]))
        self.is_of_root = self.units[0] in units and draw.random() < 0.5
        self.what.append(f"{[it.agent.name for it in units]}, {marker} marker, {self.is_of_root=}")
        for unit in units:
            unit.agent.kill()
        for unit in units:
            shell(unit.agent, BACK, marker, self.is_of_root and unit is self.units[0])
            unit.start()
        return self.is_of_root or marker == "no"

    def memory(self, draw):
        """Puts back the memory of one agent or two, each thread of which waits where it did."""
        kept, is_back, seconds = [], [], draw.uniform(0.5, 8)
        waits = lambda process: {it.parent.name: it.read_text().split()[::-1][:2]
                                 for it in pathlib.Path(f"/proc/{process}/task").glob("*/syscall")}
        for agent in draw.sample(list(self.tree), draw.choice([1, 1, 2])):
            with stopped(process := agent.process.pid) as memory:
                kept.append((agent, process, waits(process), [
                    (start, os.pread(memory, end - start, start))
                    for start, end, name in writable(process) if not name.startswith("[v")]))
        self.goes_by(draw, seconds)
        for agent, process, where, pieces in kept:
            def put():
                with stopped(process) as memory:
                    for start, piece in pieces if waits(process) == where else ():
                        with contextlib.suppress(OSError):
                            os.pwrite(memory, piece, start)
                    return waits(process) == where
            is_back.append(self.holds(put, 2))
            self.what.append(f"{agent.name} by {seconds:.1f} s: {is_back[-1]}")
        return any(is_back)

    def promote(self, second, draw):
        """The root is lost, and what the other one has is spoiled: whether that is published."""
        self.tree.write("key2@canary", draw.random())
        self.of, truth = None, self.tree.truth()
        self.holds(lambda: self.waits(1, "--now") and (second.truth / ".applied").exists())
        self.tree.root.kill()
        self.spoil(draw.choice(["groups", "value", "marker", "folder", "applied"]), second, draw)
        said = second.request(20, do="promote", as_is=False)
        self.what.append(f"promote says {said}")
        return said == "done" and read(second.truth) != truth

    def fault(self, kind, unit, draw):
        """A fault: whether there is one."""
        self.is_of_root = PLACES[kind][0].startswith("truth")
        if is_stopped := draw.random() < 0.5:
            unit.agent.kill()
        is_done = self.spoil(kind, unit.agent, draw)
        if is_stopped or self.is_of_root:
            unit.start()
        return is_done

    def trial(self, kind, number):
        draw = random.Random(f"{self.seed} {kind} {number}")
        if draw.random() < 0.3 or not (self.tree.root.home / "old").exists():
            for agent in self.tree:
                shell(agent, KEEP)
            self.goes_by(draw, 0.5)
        self.what, self.older, self.most, self.is_of_root = self.what[-3:], [], {}, False
        if kind == "promote":
            return ["cases", *["wrong"] * self.promote(self.tree["second"], draw)]
        unit = draw.choice([it for it in self.units if it.agent.name in PLACES[kind][1]])
        # (what the fault itself puts there may be older, also where the marker is not right)
        may_be_older = kind == "folders" and self.folders(draw) or kind in (
            "folder", "marker", "value", "number")
        with contextlib.nullcontext() if may_be_older else meanwhile(self.look):
            if not (kind == "folders" or kind == "memory" and self.memory(draw)
                    or kind != "memory" and self.fault(kind, unit, draw)):
                return []
            came = self.after(unit.agent, draw, AGAIN, "--now")
        self.what += self.older[:3]
        return ["cases", *came, *["older"] * bool(self.older)]


if __name__ == "__main__":
    sys.exit(main(Files, [*PLACES], ["cases", "right", "late", "harm", "ended", "crashed", "hung",
                                     "older", "wrong", "lied", "open", "stuck"], "runs"))
