"""Links that lie in a store of Redis, in a tree of processes on this machine."""
import functools
import os
import pathlib
import random
import re
import shutil
import subprocess
import tempfile
import time

import runner
from daemons import Tree, becomes, free_port, root_has, until
from runner import sure

IN_STORE = ["left", "left1", "left2", "right2"]      # the others have connections

test = functools.partial(runner.test, begins=True, needs="redis-server")


def quoted(word):
    """Bytes as redis-cli reads them."""
    return '"' + "".join(f"\\x{byte:02x}" for byte in word) + '"'


class Redis:
    """A server of its own, in a folder of its own, with a password."""

    def __init__(self):
        self.home = pathlib.Path(tempfile.mkdtemp(prefix="rignolda-redis-"))
        self.port = free_port()
        self.address = f"redis://127.0.0.1:{self.port}/tree"
        self.password = self.home / "password"
        self.password.write_text("a word\n")
        self.file, self.kept = self.home / "dump.rdb", self.home / "backup"

    def __enter__(self):
        self.start()
        return self

    def __exit__(self, kind, value, trace):
        self.kill()
        shutil.rmtree(self.home, ignore_errors=True)

    def start(self):
        self.process = subprocess.Popen(
            ["redis-server", "--port", str(self.port), "--bind", "127.0.0.1", "--save", "",
             "--requirepass", "a word", "--dir", self.home], stdout=subprocess.DEVNULL,
            stderr=subprocess.DEVNULL, stdin=subprocess.DEVNULL)
        sure(until(lambda: self.ask("PING") == b"PONG\n"), "there is no server")

    def kill(self):
        self.process.kill()
        self.process.wait()

    def at(self, agent):
        """From its next start on an agent knows how to ask it."""
        agent.tables["store"] = {"password": str(self.password), "database": 2}

    def ask(self, *words, lines=()):
        """What it answers to a command, or to one a line."""
        command = ["redis-cli", "-p", str(self.port), "-n", "2", *words]
        return subprocess.run(command, input="\n".join(lines).encode(), capture_output=True,
                              env={**os.environ, "REDISCLI_AUTH": "a word"}).stdout

    def words(self):
        """The keys that are words of links."""
        keys = self.ask("KEYS", "tree:*").decode().split()
        return [key for key in keys if key.endswith((":up", ":down"))]

    def backup(self):
        """Keeps what it holds now."""
        self.ask("SAVE")
        shutil.copy(self.file, self.kept)

    def restore(self):
        """What it holds when it starts next."""
        shutil.copy(self.kept, self.file)

    def age(self):
        """Keeps each word beside it; and makes each what was kept, at another time."""
        self.ask(lines=[f"COPY {key} old:{key} REPLACE" for key in self.words()])

    def make_old(self):
        self.ask(lines=[f"COPY old:{key} {key} REPLACE" for key in self.words()])

    def spoil(self, draw):
        """No word is one any more: random bytes, a list, nothing, or another beginning."""
        ways = [lambda key: f"SET {key} {quoted(draw.randbytes(draw.randrange(1, 300)))}",
                lambda key: f"DEL {key}\nLPUSH {key} none", lambda key: f"DEL {key}",
                lambda key: f"SETRANGE {key} 0 spoiled"]
        self.ask(lines=[draw.choice(ways)(key) for key in self.words()])


def in_store(redis):
    """From their start on, these agents and their parents meet in the store."""
    def before(tree):
        # (a round has to be several times longer than it takes by the slowest link)
        tree.root.tables["root"].update(round="4s", harmless=7)
        for agent in tree:
            agent.tables["link"] = {"ack_timeout": "2s", "evict": "20s"}
            redis.at(agent)
            if agent.children:
                agent.top["children"] = [
                    f"{it.name}@{redis.address}" if it.name in IN_STORE else it.name
                    for it in agent.children]
            if agent.name in IN_STORE:
                agent.top["parents"] = [f"{agent.parent.name}@{redis.address}"]
    return before


@test()
def settings_travel_through_a_store():
    """Small and large ones; who has what is known at the root; and one process has one name."""
    with Redis() as redis, Tree(None, in_store(redis)) as tree:
        tree.begin()
        for at in range(5):
            tree.publish("key1", f"again {at}")
            tree.settles()
        big = random.Random(1).randbytes(1 << 20)
        tree.publish("big", value=big)
        sure(tree["left1"].files()["big"] == big, "it is another one")
        # a second process of one name takes the store from the first one, and is told apart
        leaf = tree["left2"]
        first = leaf.process
        leaf.socket = leaf.home / "control2"
        leaf.start()
        leaf.says("another process writes there")
        first.kill()
        first.wait()
        sure(until(leaf.up), leaf.text())
        tree.write("after", "that")
        tree.settles()


@test()
def losses_in_a_store_lose_nothing():
    """Words that are gone or spoiled, a store that is away or back empty: no round mends that."""
    draw = random.Random(3)
    with Redis() as redis, Tree(None, in_store(redis), root_has(round="1h")) as tree:
        tree.begin()
        for turn in range(6):
            tree.write("key1", f"before {turn}")
            if turn % 2:
                redis.kill()
                tree.write("key2", f"while it is away {turn}")
                redis.start()
            else:
                redis.spoil(draw)
                tree.write("key2", f"where it is spoiled {turn}")
                redis.spoil(draw)
            tree.write("key3", f"after {turn}")
            tree.settles()
        # a child's word is set again although nothing changes: who begins anew looks at it
        redis.ask("DEL", *redis.words())
        of_children = {f"tree:{tree[it].parent.name}:{it}:up" for it in IN_STORE}
        becomes(lambda: of_children - set(redis.words()), set(), "these are gone:")
        lost = {agent.name: agent.status()["gaps"] + agent.status()["strays"] for agent in tree}
        sure(not any(lost.values()), lost)
        # (each change of state is one line)
        text = tree["left1"].text()
        states = re.findall("^(connected|closed) the parent", text, re.MULTILINE)
        sure(states.count("closed") >= 3, text)
        sure(states == (["connected", "closed"] * len(states))[:len(states)], text)
        for agent in (tree.root, tree["left"]):
            agent.restart()
        tree.is_well()


@test()
def faults_of_a_store_are_mended_by_rounds():
    """Old words, an old backup, and kills: two rounds later all is right."""
    draw = random.Random(4)
    with Redis() as redis, Tree(None, in_store(redis)) as tree:
        tree.begin()
        redis.backup()
        redis.age()
        for turn in range(3):
            victims = draw.sample(list(tree), turn)
            for at in range(6):
                tree.write(f"key{at}", f"{turn} {draw.randrange(99)}")
            # (some of that is under way)
            time.sleep(0.2)
            redis.make_old()
            for victim in victims:
                victim.kill()
            redis.kill()
            redis.restore()
            tree.write("key7", f"down {turn}")
            for victim in victims:
                victim.start()
            redis.start()
            redis.make_old()
            tree.settles()
        tree.is_ready()
