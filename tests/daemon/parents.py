"""What agents do that have no root, though they have parents. (How parents are chosen is in
parents.rs and peers.rs of the library; who stands still, in trial.py.)"""
import signal
import time

from daemons import of_tree, patient, until
from runner import sure


def also(name, *parents):
    """What gives an agent further parents, before a tree starts."""
    return lambda tree: tree[name].below(*(tree[it] for it in parents))


def hasty(tree):
    patient(tree, ack_timeout="500ms", evict="2s")


@of_tree({"rack0": "root", "rack1": "root", "rack2": "root", "leaf": "rack0"}, hasty,
         also("rack0", "rack1"), also("rack1", "rack2"), also("rack2", "rack0"),
         also("leaf", "rack1"), begins=True)
def agents_without_a_root_rest_and_come_back_to_it(tree):
    """What goes round in a ring while the root is away would be strays."""
    root, *ring, leaf = tree
    below = [*ring, leaf]

    def come_back():
        root.start()
        tree.write("back", time.monotonic())
        for agent in ring:
            agent.becomes(parent="root")
        tree.settles()

    root.kill(signal.SIGTERM)
    # (it is away for a moment alone)
    time.sleep(0.2)
    come_back()
    root.kill()
    lost = lambda: all(agent.status()["cost"] >= 128 for agent in below)
    sure(until(lost, pause=0.1), [agent.status()["way"] for agent in below])
    # (they stay where they are for 3 s, but somebody may say late what was so before)
    moves = lambda: [agent.status()["reconnects"] for agent in below]
    lines = lambda: sum(agent.text().count("\n") for agent in below)
    before, length = moves(), lines()
    time.sleep(3)
    sure(moves() == before and lines() - length < 4, [agent.text()[-500:] for agent in below])
    come_back()
    # (it takes the first one that has the root, and then comes back to its own first one)
    leaf.becomes(way=["root", "rack0", "leaf"])
    strays = [agent.status()["strays"] for agent in tree]
    sure(sum(strays) < 50, "items went round:", strays)
