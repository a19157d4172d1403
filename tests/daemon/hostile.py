"""Children, parents, clients and writers that mean harm, over the real protocol and real files.

While one agent is attacked, a change has to reach an honest one, memory stays below a bound that is
said here, and afterwards all is right.
"""
import contextlib
import functools
import itertools
import os
import pathlib
import random
import re
import socket
import string
import struct
import time

import store
from daemons import (PATIENCE, Tree, becomes, bounded, by_tls, certify, counted, during, meanwhile,
                     memory, of_tree, patient, took, until)
from protocol import (Child, Parent, body, closed, entry, exactly, frame, hello, listener, look,
                      report, take_hello, the_root_comes, way)
from runner import sure, test

# The most memory that a hostile peer may cost an agent, in MiB: four bodies of 16, twice what all
# settings may have, and what an allocator keeps.
MOST = 200


def soon(agent):
    sure(took(agent.status) < 2 * PATIENCE, "it answers late")


# ---- Children

@of_tree({"left": "root", "right": "root", "evil": "left", "leaf": "left"}, patient,
         without=["evil"])
def what_a_child_reports_of_others_harms_nobody(tree, root, left, right, evil):
    """Reports of all kinds, some of which its parent hands on."""
    entries = [{"name": f"n{at}", "parent": "evil"} for at in range(9_999)]
    chained = [{"name": f"n{at}", "parent": f"n{at - 1}" if at else "evil"} for at in range(9_999)]
    first = [{"name": "evil", "connected": True}]
    names = ["../../etc/passwd", "a\x00b", "\x1b[2Jx", "\x9b31m", "ünï", "x" * 65, "-x", ".x",
             "root", "left", "leaf", "evil", ""]
    numbers = dict.fromkeys(("sequence", "applied", "round", "backlog", "limit", "harmless",
                             "strays", "garbage", "gaps", "failing", "age"), 2**64 - 1)
    kinds = [
        b"[" * 100_000, b'[{"name":"evil","x":' + b"[" * 200_000, b'[{"name":"evil\xff"}]',
        b'[{"name":"root"}]', b"[]", b"{}", b"", b'[{"name":"evil","name":"root"}]',
        b'[{"name":"evil","sequence":1e999}]', b'[{"name":"evil","age":-1}]', b'[{"name":17}]',
        b'[{"name":"evil"}' + b",{}" * 340_000 + b"]",
        b'[{"name":"evil","parent":"' + b"x" * 1_000_000 + b'"}]',
        first + [{"name": name, "parent": "evil"} for name in names],
        first + [{"name": "a", "parent": "b"}, {"name": "b", "parent": "a"}], first * 9_999,
        [{**first[0], "inner": True, **numbers}], first + entries, first + chained]
    with bounded(root, 32), bounded(left, 32):
        for said in kinds:
            child, what = Child(left, "evil"), str(said)[:60]
            child.send(report(said))
            tree.reaches("leaf")
            for agent in left, root:
                begun = time.monotonic()
                shown = agent.run("tree")
                seconds, text = time.monotonic() - begun, shown.stdout + shown.stderr
                sure(seconds < 3 * PATIENCE, what, "tree takes", seconds)
                sure(len(text.encode()) < 8 << 20, what, "tree prints", len(text))
                sure(not re.search("[\x00-\x08\x0b-\x1f\x7f-\x9f]", text), what,
                     "controls a terminal")
                listed = {it["name"] for it in agent.ask("tree")}
                sure({"left", "leaf"} <= listed, what, "hides agents")
            sure(listed >= {"root", "right"}, what, "hides agents")
            child.close()
    # (what comes without end is too long at its first bytes)
    for length in ((1 << 20) + 1, 0xffff_ffff):
        child = Child(left, "evil")
        child.send(b"R" + struct.pack(">I", length))
        sure(child.closed.wait(60), "a report of", length, "bytes is waited for")
    # what it says of itself comes up to the root, over the agent between, and of no other
    child = Child(left, "evil")
    child.send(report([{"name": "evil", "strays": 77}]
                      + [{"name": name, "parent": "evil", "connected": True, "strays": 78}
                         for name in ("leaf", "left", "root", "right")]))
    seen = lambda: sorted((it["name"], it["parent"], it["strays"]) for it in root.ask("tree"))
    sure(until(lambda: ("evil", "left", 77) in seen()), seen())
    child.close()
    sure(not root.said("closed left:"), "the root closed an honest agent's connection")
    above = lambda agent: agent.parent.name if agent.parent else ""
    becomes(seen, sorted((it.name, above(it), 77 * (it is evil)) for it in tree))
    evil.start()
    tree.is_well()


@of_tree({"left": "root", "evil": "left", "leaf": "left"}, patient, without=["evil"])
def a_number_that_nobody_has_any_more_counts_no_more(tree, root, left):
    """A root that publishes nothing goes above none, so each stays ahead as long as it counts.
    (Which numbers do is in remembered.rs.)"""
    root.ask("drain")
    number = left.status()["sequence"]
    child, far = Child(left, "evil"), number + (1 << 40)
    child.send(report([{"name": "evil", "connected": True, "sequence": far}]))
    for counts in far, number:
        for agent in left, root:
            agent.becomes(ahead=counts)
        child.close()
    root.ask("resume")
    tree.reaches("leaf")


def fill(tree):
    """Large settings come to an honest child."""
    for at in range(15):
        tree.write(f"big{at}", bytes([65 + at]) * (1 << 20))
    tree.reaches("left")


@of_tree({"evil": "root", "left": "root"}, patient, without=["evil"])
def a_child_that_changes_its_life_or_never_reads_costs_its_own_line_alone(tree, root):
    """Each new life is served the whole table, of 15 MiB here."""
    fill(tree)
    with bounded(root, MOST):
        for at in during(3):
            with root.connect() as sock, contextlib.suppress(OSError, EOFError):
                sock.sendall(hello("evil", "root"))
                take_hello(sock)
                exactly(sock, 100_000)
            if at % 10 == 0:
                tree.reaches("left")
        with root.connect() as sock:
            sock.sendall(hello("evil", "root"))
            for _ in range(20):
                tree.reaches("left")


@of_tree({"evil": "root", "left": "root"}, patient, without=["evil"])
def a_hello_of_garbage_is_refused(tree, root):
    draw = random.Random(5)
    before, connect = memory(root, "VmRSS"), root.connect

    def is_refused(greeting, text=b""):
        with connect() as sock:
            sock.sendall(greeting)
            with contextlib.suppress(OSError):
                sock.sendall(text)
            sure(closed(sock), "it was kept:", greeting[:40], text[:10])

    # (peers.rs and wire.rs have those of strangers, other names, and those that are slow)
    for greeting in [
            hello("left", "root", version=3), b"RGND" + b"\xff" * 300, b"\x16\x03\x01\x02\x00",
            *(draw.randbytes(draw.randrange(1, 2_000)) for _ in range(40))]:
        is_refused(greeting)
    # nor what no child may say behind its hello, of which nothing that comes is read here
    for text in (b"A\x00\x00" * 200_000, b"R" + struct.pack(">I", 2) + b"[]",
                 b"R" + struct.pack(">I", 0xffff_ffff), b"F" * 100):
        is_refused(hello("evil", "root", life=9), text)
    # of two connections by one name the older one is closed
    with connect() as first, connect() as second:
        first.sendall(hello("evil", "root"))
        sure(first.recv(4), "it is not greeted")
        second.sendall(hello("evil", "root", life=8))
        sure(second.recv(4) and closed(first), "a connection that was left is kept")
    # (for that, and not since it answered to nothing for a while)
    root.says("closed evil: it connected anew")
    tree.reaches("left")
    grew = memory(root, "VmRSS") - before
    sure(grew < 7.8, "its memory grew by", grew, "MiB")
    # (nor do many that stay, each after its answer: those that are spoilt or say anything are in
    # wire.rs, and are strangers of the simulator)
    with bounded(root, 32):
        staying = [connect() for _ in range(200)]
        for sock in staying:
            sock.sendall(look("evil", "root"))
        tree.reaches("left")
        opened = f"/proc/{root.process.pid}/fd"
        sure(until(lambda: len(os.listdir(opened)) < 120), "looks are kept, of", len(staying))
    tree["evil"].start()
    tree.is_well()


# ---- Parents

LETTERS = sorted(string.ascii_letters.encode())


def many_keys(number, count):
    """A body with so many settings without a value, whose keys no other number has, in order."""
    head = b"S\x05" + bytes([97 + number])
    keys = itertools.islice(itertools.product(LETTERS, repeat=4), count)
    return b"C" + struct.pack(">QI", 1_000 + number, count) + b"".join(
        [head + bytes(key) + b"\0\0\0\0" for key in keys])


@of_tree({"left": "root"}, runs=False)
def a_parent_that_sends_millions_of_settings_is_bounded(tree, root, left):
    """Bodies of nearly 14 MiB; and then its real parent has to come through."""
    del left.tables["apply"]
    parent = Parent(left)
    parent.send(body(b"T", 999, [entry(b"a", b"1")]))
    with bounded(left, MOST):
        for at in range(3):
            parent.send(many_keys(at, 1_270_000))
    parent.send(body(b"T", 2_000, [entry(b"a", b"2")]))
    left.ask("wait", 2_000)
    left.becomes(settings=1, whole=True)
    parent.close()
    tree.write("one", "1")
    tree.root.start()
    sure(until(left.up), left.status())
    left.becomes(settings=1)


@of_tree({"left": "root", "leaf": "left"}, runs=False, begins=True)
def a_parent_that_sends_tables_without_end_holds_nobody_up(tree, root, left, leaf):
    """Each of 15 MiB, and other ones; the agent answers, and its own child is served. Then files by
    the thousand, which its real parent has it remove."""
    leaf.tables["link"] = {"ack_timeout": "10s", "evict": "1m"}
    leaf.start()
    parent = Parent(left)
    parent.send(body(b"T", 1, [entry(b"a", b"1")]))
    sure(until(lambda: leaf.files() == {"a": b"1"}), leaf.files())
    with bounded(left, MOST):
        for at in range(12):
            values = [entry(b"k%02d" % key, bytes([at + key]) * (1 << 20)) for key in range(15)]
            parent.send(body(b"T", 10 + at, values))
            soon(left)
    parent.send(body(b"T", 100, [entry(b"a", b"2")]))
    sure(until(lambda: leaf.files() == {"a": b"2"}, 30), leaf.files().keys())
    with bounded(left, MOST):
        for at in range(2):
            parent.send(many_keys(at, 10_000))
        sure(until(lambda: len(os.listdir(left.settings)) > 1_000), "it makes no files")
        soon(left)
    parent.gives_way()


@of_tree({"left": "root", "leaf": "left"}, patient, runs=False)
def a_parent_whose_way_lies_or_never_rests_is_bounded(tree, root, left, leaf):
    server, life = listener(tree.root), random.getrandbits(64)
    tree.start([left, leaf])

    def serve(text=b""):
        """Answers a look with a way, and the hello behind it with one and with a text."""
        while True:
            sock, _ = server.accept()
            sock.settimeout(60)
            try:
                while take_hello(sock, begins=b"RGN")[:4] != b"RGND":
                    sock.sendall(look("root", "left") + way(0, ["root"]))
                sock.sendall(hello("root", "left", life, label=0, version=2) + text)
                return sock
            except (OSError, EOFError):
                sock.close()

    # what is no way: the line is closed
    for bad in (way(0, b"\xff\xfe"), way(0, b""), way(0, ["x" * 65]), way(0, ["root"] * 129),
                way(0, b"a\n\x1b[2J"), way(0, b"a" * 70_000, length=0xffff),
                way(3, ["left", "root"]), way(0xffff, ["root"])):
        with serve(bad) as sock:
            sure(closed(sock), "it was kept:", bad[:30])
    # another way each time, as fast as it goes
    with bounded(left, 32), serve(way(0, ["root"])) as sock:
        for at in during(3):
            sock.sendall(b"".join(way(cost % 100, ["root"] + [f"n{cost}"] * (cost % 120))
                                  for cost in range(50 * at, 50 * at + 50)))
            if at % 100 == 99:
                soon(left)
        sock.sendall(way(0, ["root"]) + frame(1, body(b"T", 1, [entry(b"a", b"1")])))
        sure(until(lambda: leaf.files() == {"a": b"1"}), leaf.files())
    server.close()
    the_root_comes(tree)


# ---- Files

def flips(folder):
    """Makes a file a pipe, and a file again: it may be another one when it is opened."""
    for kind, make in (("file", pathlib.Path.touch), ("pipe", os.mkfifo)):
        make(folder / f".{kind}")
        (folder / f".{kind}").rename(folder / "flips")


@of_tree({"left": "root"}, patient)
def files_by_the_thousand_in_the_roots_folder_hold_nobody_up(tree, root):
    """So many that inotify loses events; and a setting changes meanwhile, and all is right. Then
    400 files of 1 MiB come at once, more than may be published: they are not all read."""

    def make(number):
        at = next(number)
        path = root.truth / (f"made{at % 3_000}" if at % 2 else f".made{at % 9_000}")
        path.unlink() if at % 7 == 0 else path.touch()

    makers = [functools.partial(make, itertools.count()) for _ in range(2)]
    with bounded(root, 128), meanwhile(*makers):
        for _ in during(4):
            soon(root)
            tree.reaches("left")
    sure(tree.right(60), tree.wrong())
    new = tree.home / "new"
    new.mkdir()
    for at in range(400):
        (new / f"many{at}").touch()
        os.truncate(new / f"many{at}", 1 << 20)
    with bounded(root, 90):
        for path in list(new.iterdir()):
            path.rename(root.truth / path.name)
        sure(until(lambda: root.status()["unpublished"] > 0), root.status())


@of_tree({"left": "root"}, patient)
def odd_things_in_the_roots_folder_hold_nobody_up(tree):
    truth = tree.root.truth
    secret = tree.home / "secret"
    secret.write_text("of the agent alone")

    def sparse(path):
        # (it would be a setting as long as it is empty)
        beside = path.with_name(".sparse")
        beside.touch()
        os.truncate(beside, 1 << 40)
        beside.rename(path)

    made = {"link": lambda path: path.symlink_to(secret),
            "self": lambda path: path.symlink_to("/proc/self/environ"),
            "zero": lambda path: path.symlink_to("/dev/zero"),
            "loop": lambda path: path.symlink_to(path),
            "pipe": os.mkfifo, "folder": pathlib.Path.mkdir,
            "listens": lambda path: socket.socket(socket.AF_UNIX).bind(str(path)),
            "sparse": sparse}
    for name, make in made.items():
        make(truth / name)
        tree.reaches("left")
    found = set(tree["left"].files()) & set(made)
    sure(not found, "these were published:", found)
    with meanwhile(lambda: flips(truth)):
        for _ in during(4):
            tree.reaches("left")


def untraced(tree):
    """As agents are that are not tried."""
    for agent in tree:
        agent.env = {}


@of_tree({"left": "root", "evil": "left", "leaf": "left"}, patient, counted, untraced,
         without=["evil"])
def a_child_whose_reports_are_none_keeps_its_connection_and_is_counted(tree, root, left):
    """What there is to watch cuts nobody off: each goes on to be sent what is published."""
    child, sent = Child(left, "evil"), 0
    kinds = b"[", b"\xff", b"", b'[{"name":"root"}]', b"[" * 10_000, b'[{"name":"evil\xff"}]'
    with bounded(left, 32):
        for sent in during(3):
            child.send(report(kinds[sent % len(kinds)]))
            if sent % 1_000 == 0:
                tree.reaches("leaf")
    count = lambda: left.status()["bad_reports"]
    sure(until(lambda: count() > 20), "of", sent, "it counted", count())
    # (those that are under way are counted meanwhile)
    shown = lambda: f"rignolda_bad_reports_total {count()}\n" in left.counts()
    sure(until(shown), count(), left.counts())
    lines = left.said("report evil sent what is none")
    sure(0 < lines < 40, "of", sent, "reports it wrote", lines, "lines")
    sure(not child.closed.is_set() and not left.said("closed evil"), left.text()[-500:])
    # (and one that is one is heard)
    child.send(report([{"name": "evil", "strays": 77}]))
    heard = lambda: any(it["strays"] == 77 for it in root.ask("tree"))
    sure(until(heard), root.ask("tree"))
    tree.reaches("leaf")
    child.close()


# ---- Certificates

@test
def a_link_ends_with_its_certificate():
    # (on a slow machine it ran out before the agents came that far)
    sure(any(link_ended(seconds) for seconds in (6, 20, 60)), "they never came to have a link")


def link_ended(seconds):
    """Whether the agents had a link before a certificate that ends in so many seconds ran out."""
    with Tree({"old": "root", "left": "root"}, patient, by_tls) as tree:
        tree.begin(without=["old"])
        old = tree["old"]
        old.tables["tls"] = certify(tree.home, "old", seconds=seconds)
        ends = time.time() + seconds
        old.start()
        connected = lambda: {it["name"]: it["connected"] for it in tree.root.status()["children"]}
        if not until(lambda: connected()["old"] or time.time() > ends) or time.time() > ends - 1:
            return False
        sure(until(lambda: time.time() > ends and not connected()["old"]), "the link goes on")
        sure(connected()["left"], "the other link ended")
        tree.reaches("left")
        sure("probe" not in old.files(), old.files())
        # another certificate, and a reload
        old.tables["tls"] = certify(tree.home, "old")
        old.reload()
        tree.settles()
        return True


@of_tree({"left": "root"}, by_tls)
def a_link_ends_with_its_authority(tree, root, left):
    connected = lambda: root.status()["children"][0]["connected"]
    own = root.tables["tls"]
    root.tables["tls"] = {**own, "authority": certify(tree.home / "new", "other")["authority"]}
    root.reload()
    sure(until(lambda: not connected()), "the link goes on")
    root.says("closed left: its certificate is of another authority")
    root.says("refused")
    root.tables["tls"] = own
    root.reload()
    tree.reaches("left")


# ---- Stores

@test(needs="redis-server")
def who_writes_to_a_store_harms_its_own_link_alone():
    with store.Redis() as redis, Tree({"evil": "root", "left": "root"}, patient) as tree:
        redis.at(tree.root)
        tree.root.top["children"] = [f"evil@{redis.address}", "left"]
        tree.begin(without=["evil"])
        fill(tree)
        stats = lambda: int(re.search(rb"total_net_input_bytes:(\d+)",
                                      redis.ask("INFO", "stats"))[1])
        looks = lambda: sum(map(int, re.findall(rb"keyspace_(?:hits|misses):(\d+)",
                                                redis.ask("INFO", "stats"))))
        key, written = "tree:root:evil:up", stats()
        with bounded(tree.root, MOST):
            for times in during(4):
                # (another life each time: a child that begins anew)
                word = hello("evil", "root", label=times % 255) + struct.pack(">I", times)
                redis.ask(lines=[f"SET {key} {store.quoted(word)}"])
                if times % 40 == 39:
                    tree.reaches("left")
            written = (stats() - written) >> 20
            sure(written < 200, "for", times, "words it wrote", written, "MiB")
            for lines in ([f"SET {key} {'x' * 5_000_000}"], [f"SETRANGE {key} 60000000 x"],
                          [f"DEL {key}", f"LPUSH {key} a"], [f'SET {key} "RGND\\x01"'],
                          [f"SET tree:root:evil:report {'[' * 3_000_000}"], [f'SET {key} ""']):
                before = looks()
                redis.ask(lines=lines)
                # (it is looked at; where the root rests from that link, it need not be)
                until(lambda: looks() > before + 1, 1 / PATIENCE)
                tree.reaches("left")
