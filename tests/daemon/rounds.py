"""Daemons of two releases in one tree, and that nothing older is applied after something newer. (What
rounds send is in rounds.rs of the library.)"""
import atexit
import contextlib
import functools
import gzip
import hashlib
import itertools
import pathlib
import shutil
import subprocess
import tempfile

from blocked import preload
from daemons import HOME, Tree, becomes, by_tls, chain, of_tree, root_has, until
from relay import turn
from runner import sure, test

# The commit of the last release, and the digest of its daemon.
LAST = ("3e41939f23d676da77edb332d6bf757c95fc7404",
        "6c4ff3723fcad4f52d7e57fe2a9e75f459f9ef8a7d48ab3219be2b037cfd0d90")
# What somebody makes of a marker: by how much it is moved, or what it has; or it is gone.
MOVED = (10**6, 2**40, 2**62, 2**63 - 1, 2**63, 2**63 + 1, "0", "1", str(2**64 - 1), "spoilt", None)
# What an agent says that finds a later one than it remembers.
OLDER = "and its memory is older"


@functools.cache
def last_release():
    """The daemon of the last release, as the history of this clone has it, if it does."""
    commit, digest = LAST
    kept = subprocess.run(["git", "show", f"{commit}:release/rignoldad.gz"], cwd=HOME,
                          capture_output=True)
    if kept.returncode:
        return None
    program = gzip.decompress(kept.stdout)
    sure(hashlib.sha256(program).hexdigest() == digest, "the last release is another one")
    folder = tempfile.mkdtemp(prefix="rignolda-last-")
    atexit.register(shutil.rmtree, folder, ignore_errors=True)
    path = pathlib.Path(folder) / "rignoldad"
    path.write_bytes(program)
    path.chmod(0o755)
    return path


def lacks_last():
    return None if last_release() else f"this clone has no commit {LAST[0][:8]}"


def of_last_release(tree):
    """All agents are, and one is connected to by its parent."""
    turn(tree["a1"])
    for agent in tree:
        agent.program = last_release()


@of_tree(chain(3), of_last_release, needs=lacks_last)
def the_last_release_and_this_one_make_a_tree(tree):
    """From the root down each agent is ended and comes back as this release, and the other way."""
    agents = list(tree)
    whole = [[it.name for it in agents[:at + 1]] for at in range(len(agents))]
    for number, program in enumerate((None, last_release())):
        for at, agent in enumerate(agents if program is None else agents[::-1]):
            tree.write("while_up", f"{number} {at}")
            agent.kill()
            tree.write("while_down", f"{number} {at}")
            agent.program = program
            agent.start()
            tree.settles()
            # (by the oldest version that both know, no way would be said)
            becomes(lambda: [it.status().get("way") for it in agents], whole, agent.name)
        tree.root.ask("round")
        tree.is_well()


@of_tree({"left": "root"}, by_tls, runs=False, needs=lacks_last)
def the_last_release_is_refused_as_before(tree, root, left):
    """It takes the same for the end of the connection as from a parent of its own release."""
    said = {}
    for above, below in itertools.product((last_release(), None), repeat=2):
        root.program, left.program = above, below
        root.top["children"] = ["other"]
        root.restart()
        left.restart()
        refused = lambda: root.status().get("refused", 0)
        sure(until(lambda: refused() > 2), root.text()[-500:])
        said[above is None, below is None] = left.status()["no_parent"]
        root.top["children"] = ["left"]
        root.reload()
        tree.is_well()
    sure(said[False, False] == said[True, False] != "", said)
    sure(said[False, True] == "it refuses this agent: why, its `status` and journal say", said)
    sure(said[True, True] == "it refuses this agent: its `children` do not name it", said)


@of_tree(chain(2), needs=lacks_last, runs=False)
def a_parent_of_the_last_release_is_told_whole_lists(tree, root, child, _):
    root.program = last_release()
    tree.begin()
    for at in range(5):
        tree.publish("colour", str(at))
    sure(not root.said("it sent no report"), root.text()[-300:])
    sure(child.status()["reconnects"] == 1, child.status())


# ---- Nothing older after something newer

def notes(tree):
    """Agents note each colour that they apply; and nobody is given up for being slow."""
    for agent in tree:
        agent.hook(f'[ $2 != colour ] || echo "$(cat)" >>{agent.home}/applied')
        agent.tables["link"] = {"backlog": 60_000, "ack_timeout": "1m", "evict": "10m"}


@contextlib.contextmanager
def begun(shape):
    """Such agents have colour 1. Rounds come where they are asked for."""
    with Tree(shape, notes, root_has(harmless=7, round="10m")) as tree:
        tree.write("colour", 1)
        # (a small table would come again after a few items)
        tree.write("bulk", b"x" * 500_000)
        tree.start()
        tree.is_well()
        rests(tree)
        yield tree
        tree.root.ask("round")
        rests(tree)
        tree.settles()
        for agent in tree:
            applied = [*map(int, agent.noted("applied"))]
            sure(applied and applied == sorted(applied), agent.name, "applied older ones:", applied)


def number(agent):
    return agent.status()["sequence"]


def rests(tree):
    """Asserts that all come to have what the root has published."""
    def is_quiet():
        return not tree.root.lacks("--everywhere") and len({number(it) for it in tree}) == 1
    sure(until(is_quiet), [number(agent) for agent in tree])


def colour(agent, value):
    sure(until(lambda: agent.files().get("colour") == str(value).encode(), pause=0.001),
         agent.name, "has not", value, "but", agent.files().get("colour"))


def two_rounds(tree, is_seen):
    """They come, and all agents have the root's settings and numbers. The second one comes once the
    disks have done what the first one asks of them, since a round is to be longer than that takes:
    surely once what was changed is seen."""
    def are_kept():
        return all(it["applied"] == it["sequence"] for it in (agent.status() for agent in tree))

    tree.rounds()
    sure(until(is_seen), "what was changed is not seen")
    until(are_kept, 0.5)
    tree.rounds()
    rests(tree)
    sure(not tree.wrong(), tree.wrong())


@test
def a_marker_that_is_changed_while_an_agent_runs_is_healed_by_two_rounds():
    with begun({"middle": "root", "leaf": "middle"}) as tree:
        for agent, by in itertools.product(tree, MOVED):
            marker, said = agent.settings / ".rignolda", agent.said(OLDER)
            there = int(marker.read_text())
            text = by if isinstance(by, str) else str((there + (by or 0)) % 2**64)
            marker.unlink() if by is None else marker.write_text(text)
            tree.write("colour", int(tree.truth()["colour"]) + 1)
            two_rounds(tree, lambda: agent.said(OLDER) > said
                       or marker.exists() and marker.read_text() != text)
            becomes(lambda: int(marker.read_text()), number(agent), agent.name, by)


@test(needs="cc")
def the_disk_has_the_number_before_the_files():
    """Whoever is ended in between has the older ones, and waits for the newer ones."""
    with begun({"leaf": "root"}) as tree:
        root, leaf = tree
        leaf.kill()
        slow = preload(leaf, "rename")
        leaf.start()
        tree.is_ready()
        rests(tree)
        slow.touch()
        published = root.ask("publish", "colour", 2)["sequence"]
        sure(until((slow.parent / "slow.began").exists))
        marker = int((leaf.settings / ".rignolda").read_text())
        sure(marker >= published, marker, "before", published)
        leaf.kill()
        colour(leaf, 1)
        slow.unlink()
        leaf.start()
        colour(leaf, 2)
