"""An agent looks at itself from outside: what ends it, what does not, and what is made anew."""
import contextlib
import os
import re
import socket
import time

from blocked import preload
from daemons import (PATIENCE, by_tls, certify, counted, during, of_tree, patient, root_has,
                     until)
from runner import sure

# How long an agent takes to find out that it cannot be reached, at most, and then until it ends.
LOOKS = 40
ENDS = 150


def descriptors(agent):
    return len(os.listdir(f"/proc/{agent.process.pid}/fd"))


@of_tree({"left": "root"}, runs=False, needs="cc", begins=True)
def an_agent_that_hangs_ends_by_itself(tree, root, left):
    """There is no watchdog. (What it says before that, it says in its last moment.)"""
    hangs = preload(left, "epoll_wait")
    tree.begin()
    hangs.touch()
    sure(until(lambda: not left.alive(), ENDS), "it goes on", left.text()[-300:])
    is_said = left.said("rignoldad: it cannot be reached: ")
    sure(left.process.returncode < 0 and is_said, left.text()[-300:])
    hangs.unlink()
    left.restart()
    tree.is_well()


@of_tree({"left": "root", "leaf": "left"}, by_tls, runs=False, needs="cc", begins=True)
def who_is_not_reached_says_so_and_gives_no_sign_until_it_is(tree, root, left, leaf):
    """Links go on meanwhile."""
    hides = preload(left, "accept4")
    signs = socket.socket(socket.AF_UNIX, socket.SOCK_DGRAM)
    signs.bind(str(left.home / "notify"))
    signs.setblocking(False)
    left.env |= {"NOTIFY_SOCKET": str(left.home / "notify"), "WATCHDOG_USEC": "3000000"}

    def said():
        """What it has said since this was asked last: no sign waits until it is read."""
        all = []
        with contextlib.suppress(BlockingIOError):
            while True:
                all.append(signs.recv(4_096))
        return all

    def is_missed():
        said()
        return left.said("reach ")

    def has_signs():
        said()
        # (one comes each second)
        return until(lambda: b"WATCHDOG=1" in said(), 2 / PATIENCE)

    with contextlib.closing(signs):
        tree.begin()
        sure(until(has_signs), "it gives no sign")
        hides.touch()
        sure(until(is_missed, LOOKS), left.text()[-300:])
        sure(not has_signs(), "it gives signs")
        tree.reaches("leaf")
        hides.unlink()
        sure(until(lambda: left.said("reach it can be reached again"), LOOKS), left.text()[-300:])
        sure(until(has_signs), "it gives no sign any more")
        sure(left.alive() and left.said("start ") == 1 and leaf.said("connected") == 1)


def odd_certificates(tree):
    """One is for servers alone, one has expired, and of one nothing else is wrong."""
    by_tls(tree)
    certify(tree.home, "left", more="\nextendedKeyUsage=serverAuth")
    tree["right"].tables["tls"] = certify(tree.home, "right", seconds=-60)


@of_tree({"left": "root", "right": "root", "left1": "left", "right1": "right"}, patient,
         odd_certificates, runs=False, needs="cc", begins=True)
def nobody_outside_ends_an_agent_by_how_it_looks_at_itself(tree, root, left, right):
    """Not by its certificates, by connections as many as they come, or by operators who wait."""
    waits = preload(root, "fsync")
    tree.start()
    sure(until(lambda: all(agent.status() for agent in tree)), "not all answer")
    waits.touch()
    with contextlib.ExitStack() as ends:
        clients = [ends.enter_context(root.client()) for _ in range(16)]
        for at, client in enumerate(clients):
            client.sendall(b'{"do":"publish","key":"key%d","value":"31"}\n' % at)
        socks, begun = [], time.monotonic()
        for at in during(25):
            with contextlib.suppress(OSError):
                sock = socket.socket()
                sock.settimeout(0.1)
                sock.bind((f"127.7.{at % 3}.{at % 99 + 1}", 0))
                sock.connect(("127.0.0.1", (root, left, right)[at % 3].port))
                socks = [*socks, sock][-400:]
            time.sleep(0.002)
        [sock.close() for sock in socks]
        # (while it has no room for one more, it is not known whether it would answer)
        sure(not any(agent.said("reach ") for agent in tree), [agent.text() for agent in tree])
        waits.unlink()
        for client in clients:
            sure(b"published" in client.makefile("rb").readline())
    sure(time.monotonic() > begun + 25 and all(agent.alive() for agent in tree))
    # (a look is no connection that was refused)
    said = [line for agent in tree for line in agent.text().splitlines() if "refused" in line]
    sure(not [it for it in said if "no TLS" in it or "no certificate" in it], said)


@of_tree({"left": "root", "leaf": "left"}, by_tls, counted, root_has(round="1h"), runs=False,
         begins=True)
def what_is_made_anew_keeps_links_and_lets_others_in(tree, root, left, leaf):
    """Each second, in place of each hour."""
    left.top["listen"] = [f"127.0.0.1:{left.port}", f"unix:{left.home / 'links'}"]
    for agent in tree:
        agent.env |= {"RIGNOLDA_RENEWS": "1"}
    tree.begin()
    before = [descriptors(agent) for agent in tree]
    begun, asked = time.monotonic(), 0
    with left.client() as operator, operator.makefile("rb") as answers:
        while time.monotonic() < begun + 20:
            tree.publish(f"key{asked % 8}", str(asked))
            leaf.restart() if asked % 10 == 5 else None
            if asked == 20:
                # (other certificates count from a reload on, also for its looks)
                certify(tree.home, "left")
                left.reload()
            tree.is_ready(leaf)
            sure("rignolda" in left.counts() and left.status(), "it does not answer")
            operator.sendall(b'{"do":"ping"}\n')
            sure(answers.readline() == b'"done"\n', "a client was left")
            asked += 1
        tree.settles()
    sure(left.said("connected the parent") == 1 and not left.said("reach "), left.text()[-500:])
    sure(until(lambda: [descriptors(agent) for agent in tree] <= before),
         before, [descriptors(agent) for agent in tree])
    with socket.socket(socket.AF_UNIX) as sock:
        sock.connect(str(left.home / "links"))


@of_tree({"left": "root", "right": "root", "leaf": "left", "alone": "right"}, by_tls, runs=False,
         begins=True)
def an_agent_restarts_as_the_last_resort_if_each_child_has_another_parent(
        tree, root, left, right, leaf, alone):
    """After some seconds, in place of half a day and more. Its process has the same number then."""
    leaf.below(right)
    for agent in left, right, alone:
        agent.env |= {"RIGNOLDA_RESTARTS": "5"}
    tree.begin()
    lives = lambda agent: set(re.findall(r"start \w+ life (\w+)", agent.text()))
    process = left.process.pid
    for turn in range(2, 4):
        sure(until(lambda: len(lives(left)) >= turn and len(lives(alone)) >= turn, 60),
             left.text()[-500:])
        tree.is_well()
        tree.publish("key", str(turn))
    sure(left.alive() and left.process.pid == process and left.said("restart left") >= 2)
    # (a child of it has no other parent)
    sure(len(lives(right)) == 1, right.text()[-500:])
    sure(left.said("end ") == 0 and not tree.wrong())
