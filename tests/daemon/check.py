#!/usr/bin/env -S python3 -B
"""The daemon in trees of processes on this machine: kills, losses, garbage, and what holds then.

    tests/daemon/check.py            all of it, in a minute at most
    tests/daemon/check.py WORD..     those of a file, as hostile, or whose names contain a word
"""
import concurrent.futures
import contextlib
import importlib
import os
import random
import re
import shutil
import signal
import socket
import struct
import sys

import runner
from daemons import (PACKAGING, bounded, by_tls, certify, counted, memory, of_tree, patient,
                     root_has, until)
from file_faults import spoil_some
from programs import ran
from protocol import Parent, body, closed, frame, hello
from runner import sure

# (each of them tells its tests)
for name in ("blocked", "floods", "groups", "hooks", "hostile", "memory_faults", "operating",
             "packaging", "parents", "reached", "roots", "rounds", "store", "trial", "watching"):
    importlib.import_module(name)


@of_tree()
def settings_reach_all_and_what_is_removed_is_gone(tree):
    tree.write("by_editor", "one")
    tree.settles()
    tree.publish("by_command", "two")
    # (what wait says is so at once)
    sure(not tree.wrong(), tree.wrong())
    sure(tree["left1"].files()["by_command"] == b"two")
    number = tree.root.ask("unset", "by_command")["sequence"]
    (tree.root.truth / "key0").unlink()
    tree.wait(number)
    tree.settles()
    sure(not {"by_command", "key0"} & tree["left1"].files().keys(), tree["left1"].files())
    big = random.Random(1).randbytes(1 << 20)
    tree.publish("big", value=big)
    sure(tree["right2"].files()["big"] == big)


def spoil(agent, draw):
    """Spoils what an agent keeps, or most of its files, each in one of the ways."""
    if draw.randrange(4) == 0:
        return shutil.rmtree(agent.settings)
    spoil_some(agent, draw, least=30)
    (agent.settings / "extra").write_text("1")


@of_tree(None, root_has(round="1h"))
def spoiled_folders_are_right_after_two_rounds(tree):
    draw = random.Random(3)
    for turn in range(6):
        for agent in tree:
            spoil(agent, draw)
        # (what was published since the last whole table does not mend it)
        tree.write("key1", turn)
        tree.rounds(2)
        tree.wait(tree.root.status()["round"])
        sure(not tree.wrong(), turn, tree.wrong())
    for agent in tree:
        agent.kill()
        spoil(agent, draw)
    tree.start()
    # (a start begins with the whole table)
    tree.settles()


@of_tree(None, root_has(round="1h"), runs=False, begins=True)
def a_dead_leaf_harms_nobody_and_is_served_when_it_is_back(tree):
    """Of one its parent has no room for what it lacks, and one is away for too long."""
    left, right, dead = tree["left"], tree["right"], [tree["left1"], tree["right1"]]
    left.tables["link"] = {"ack_timeout": "500ms", "evict": "1h", "backlog": 100}
    tree.begin()
    for agent in dead:
        agent.kill()
    # (changes of one file that come together are one item, so what has to fill the backlog is
    # published: each one is answered before the next)
    for at in range(150):
        tree.root.ask("publish", f"key{at % 20}", str(at))
        tree.write(f"file{at % 20}", at)
    tree.settles(*[agent for agent in tree if agent not in dead])
    left.says("left-behind left1")
    right.says("evicted right1")
    sure(not left.said("evicted") and not right.said("left-behind"))
    tree.write("last", "one")
    tree.start(dead)
    # (there is no round that would bring it)
    tree.settles()
    for agent in left, right:
        sure(until(lambda: all(it["connected"] for it in agent.status()["children"])))


# ---- Security

def others_certificates(tree):
    """Agents have a certificate of another name, or none."""
    by_tls(tree)
    tree["liar"].tables["tls"] = certify(tree.home, "inner2")
    del tree["plain"].tables["tls"]


@of_tree({"inner": "root", "leaf": "inner", "liar": "root", "plain": "root"},
         others_certificates, without=["liar", "plain"], begins=True)
def only_the_right_certificate_is_let_in(tree, root, false, leaf, liar, plain):
    """(Of another authority operating.py has what is said, and line.rs that it is no line.)"""
    good, bad = [root, false, leaf], [liar, plain]
    tree.start(bad)
    # (each says why it has no parent when it was refused first)
    for agent in bad:
        agent.says("parent 127.0.0.1")
    liar.says("certificate no DNS name of its SAN is `liar`")
    why = "which calls itself liar: its certificate has another name"
    root.says(f"by its certificate inner2, {why}")
    tree.write("after", "that")
    tree.settles(*good)
    for agent in bad:
        sure(agent.files() == {} and not agent.said("connected the parent"), agent.name)
    # a leaf's certificate must not do for its parent
    false.tables["tls"], real = {**leaf.tables["tls"]}, false.tables["tls"]
    taken = leaf.said("connected the parent")
    false.restart()
    leaf.says("its certificate has another name")
    sure(leaf.status()["parent"] is None and leaf.said("connected the parent") == taken,
         "it took another one for its parent")
    false.tables["tls"] = real
    false.restart()
    tree.write("last", "one")
    tree.settles(*good)


@of_tree({"leaf": "root"}, runs=False)
def what_a_false_parent_sends_is_bounded(tree, root, leaf):
    parent = Parent(leaf)
    with bounded(leaf, 3.9):
        for bad in (frame(0, b"", length=0xffff_ffff), frame(0, b"", length=(16 << 20) + 1),
                    frame(0, b"x" * 1_000, length=0x7fff_ffff), b"X" * 50, b"W" * 5_000,
                    b"R" + struct.pack(">I", 5) + b"[...]", b"A\0\0" * 1_000,
                    hello("root", "leaf") * 3):
            parent.meet().sock.sendall(bad)
            sure(closed(parent.sock), "it was kept:", bad[:20])
    # nobody waits for acknowledgements
    parent.meet()
    with bounded(leaf, 64), contextlib.suppress(OSError):
        for label in range(100_000):
            parent.sock.sendall(frame(label % 255, body(b"H", label)))
    # (what bodies mean, and what of them is taken, is in wire.rs, numbers.rs and table.rs)
    parent.gives_way()


# ---- The root's folder

@of_tree({}, runs=False)
def what_is_answered_is_in_the_folder(tree):
    draw = random.Random(13)
    root, asked, answered = tree.root, dict.fromkeys(range(8), 0), dict.fromkeys(range(8), 0)

    def ask(at, publisher):
        """Asks for one change after the other, until the root is killed."""
        with contextlib.suppress(OSError, ValueError, AssertionError), publisher as publish:
            while True:
                asked[at] += 1
                publish(f"key{at}", f"{asked[at]:08}" * 1_000)
                answered[at] = asked[at]

    for turn in range(6):
        root.start()
        sure(until(root.up), "the root does not start")
        with concurrent.futures.ThreadPoolExecutor(len(asked)) as threads:
            for at in asked:
                threads.submit(ask, at, root.publisher())
            enough = sum(answered.values()) + draw.randrange(8, 80)
            came = until(lambda: sum(answered.values()) >= enough)
            root.kill()
        sure(came, "changes are not answered")
        for at in asked:
            value = tree.truth().get(f"key{at}", b"0" * 8_000)
            sure(len(value) == 8_000 and value == value[:8] * 1_000, turn, at, value[:80])
            sure(answered[at] <= int(value[:8]) <= asked[at], turn, at, value[:8],
                 answered[at], asked[at])


# ---- Operation

@of_tree({"left": "root"}, patient, counted, runs=False)
def the_control_socket_is_bounded(tree):
    """Its mode is what the page says, and that of a socket of `listen`, whatever the mask is."""
    draw = random.Random(11)
    root, listens = tree.root, tree.root.home / "listens"
    root.top["listen"] = f"unix:{listens}"
    tree["left"].top["parents"] = [f"root@unix:{listens}"]
    root.prefix = ["sh", "-c", 'umask 077; exec "$@"', "sh"]
    tree.begin()
    modes = [path.stat().st_mode & 0o777 for path in (root.socket, listens)]
    sure(modes == [0o660, 0o660], *map(oct, modes))
    before = memory(root, "VmRSS")
    for text in [b"\n", b"{}\n", b"[1]\n", b'{"do":"drop-all"}\n',
                 b'{"do":"publish","key":"a"}\n', b'{"do":"status","x":1}\n',
                 b'{"do":"publish","key":"../a","value":"00"}\n', b"\xff\xfe\n",
                 b"[" * 100_000 + b"\n"] + [draw.randbytes(99) + b"\n" for _ in range(30)]:
        with root.client() as sock:
            sock.sendall(text)
            answer = sock.makefile("rb").readline()
            sure(b"refused" in answer, text[:40], answer)
    with root.client() as sock:
        with contextlib.suppress(OSError):
            for _ in range(100):
                sock.sendall(b"x" * 100_000)
        sure(closed(sock), "a request without an end was kept")
    # clients that say half of a request keep no other one out
    half = [root.client() for _ in range(40)] + [socket.create_connection(
        ("127.0.0.1", root.metrics)) for _ in range(40)]
    for sock in half:
        with contextlib.suppress(OSError):
            sock.sendall(b"GET /met" if sock.family == socket.AF_INET else b'{"do":')
    root.becomes(name="root")
    sure("rignolda_settings 8" in root.counts(), root.counts())
    sure(memory(root, "VmRSS") < before + 7.8, before, memory(root, "VmRSS"))
    # clients that ask, and never read
    with bounded(root, 64):
        deaf = [root.client(seconds=0) for _ in range(4)]
        for turn in range(20):
            for sock in deaf:
                with contextlib.suppress(OSError):
                    for _ in range(200):
                        sock.send(b'{"do":"tree"}\n{"do":"status"}\n' * 50)
            tree.reaches("left")
    for sock in deaf:
        sock.close()
    root.becomes(name="root")


@of_tree({"left": "root", "leaf": "left"}, root_has(round="200ms", harmless=4))
def commands_say_what_they_did(tree, root, left, leaf):
    """Rounds begin all the time, with too few harmless items."""
    root.refuses("", "publish", status=2)
    root.refuses("", "child", "add", "left")
    leaf.refuses("", "bounds")
    text = lambda: root.run("tree").stdout.splitlines()
    names = lambda: [line.split()[0] for line in text()]
    sure(until(lambda: names() == ["agent", "root", "left", "leaf"]), text())
    sure(text()[3].startswith("    leaf"), text())
    # (2 * 2 + 1 can be missing at depth 2, and two more are for an agent's own numbers)
    sure(until(lambda: "needs 7" in root.run("tree").stderr), root.run("tree"))
    # the bounds of a link over connections, at depths 1 and 2
    found = {b["name"]: (b["C"], b["M"], b["N"]) for b in root.ask("bounds")}
    sure(found == {"root": (0, 0, 0), "left": (1, 3, 3), "leaf": (2, 6, 5)}, found)
    leaf.kill()
    number = root.ask("publish", "a", "b")["sequence"]
    late = lambda: root.run("wait", "--everywhere", "--timeout", "300ms", number)
    sure(until(lambda: "leaf is not connected" in late().stderr), late())
    root.becomes(away=1)
    sure(late().returncode == 1, late())
    sure(root.run("wait", number).returncode == 0)
    leaf.start()
    sure(root.run("wait", "--everywhere", number).returncode == 0)
    root.ask("drain")
    root.refuses("", "publish", "a", "c")
    root.ask("resume")
    sure(until(lambda: root.run("publish", "a", "c").returncode == 0))
    # a value that begins with a hyphen
    tree.publish("k", "-5")
    sure(left.files()["k"] == b"-5", left.files())
    root.ask("unset", "--", "k")
    tree.wait()
    sure("k" not in left.files())
    # what a file says does not reach a terminal as it is
    (root.truth / "bad\x1b[2J").write_text("1")
    root.refuses("bad\\u001b[2J", "wait")
    root.becomes(unpublished=1)
    # (what was published is everywhere all the same, and says so by its number)
    tree.publish("good", "2")
    root.kill()
    sure(root.run("status").returncode == 3)


@of_tree({}, counted)
def a_reload_that_is_not_taken_is_shown(tree, root):
    unit = (PACKAGING / "rignoldad.service").read_text()
    lines = re.findall("^ExecReload=[-+!@:]*(.*)$", unit, re.M)

    def reload():
        """Does what systemd does: each line of the unit, unless the one before it fails."""
        words = "\n".join(lines)
        for old, new in [(r" --user \S+", ""),
                         ("/usr/bin/rignoldad", f"{tree.bin}/rignoldad --user root"),
                         ("/etc/rignolda/agent.toml", str(root.file))]:
            words = re.sub(old, new, words)
        return ran("sh", "-ec", words, env={**os.environ, "MAINPID": str(root.process.pid)})

    def shows(text):
        says = root.status()["reload_failed"]
        is_counted = f"\nrignolda_reload_failed {int(bool(text))}\n" in root.counts()
        return text in says and bool(says) == bool(text) and is_counted

    sure(len(lines) == 2 and not reload()[0] and shows(""), lines)
    good = root.file.read_text()
    # what cannot work is found before the agent hears of it
    root.file.write_text(good.replace("round =", "rund ="))
    status, said = reload()
    sure(status == 1 and "root.rund" in said and shows(""), status, said)
    # and by the agent, where it is told all the same
    root.signal(signal.SIGHUP)
    sure(until(lambda: shows("nothing changes: ")), root.status())
    sure("root.rund" in root.status()["reload_failed"], root.status())
    # what is right, but counts from a start alone
    root.file.write_text(good.replace("metrics =", "#metrics ="))
    sure(not reload()[0])
    sure(until(lambda: shows("from a start alone: metrics")), root.status())
    # (of a table that went config.rs has what is said)
    root.file.write_text(good)
    sure(not reload()[0] and until(lambda: shows("")), root.status())


@of_tree({"left": "root"}, counted)
def counts_are_there_for_prometheus(tree, root):
    form = re.compile(r'([a-z_]+(?:\{[a-z]+="[^"]+"\})?) ([0-9.]+)')
    counts = lambda: dict(form.fullmatch(line).groups() for line in root.counts().splitlines()
                          if not line.startswith("#"))
    connected = 'rignolda_child_connected{child="left"}'
    sure(until(lambda: counts()[connected] == "1"), counts())
    found = [counts()[f"rignolda_{it}"] for it in ("connected", "settings", "unpublished")]
    sure(found == ["1", "8", "0"], found)
    tree.write("long", b"x" * ((1 << 20) + 1))
    sure(until(lambda: counts()["rignolda_unpublished"] == "1"), counts())
    (root.truth / "long").unlink()
    tree["left"].kill()
    sure(until(lambda: counts()[connected] == "0"), counts())
    answers = [root.page(*it)[0] for it in (["/metrics"], ["/other"], ["/metrics", "POST"])]
    sure(answers == [200, 404, 404], answers)
    # (a page that a browser shows may ask by a name of its own)
    elsewhere = root.page("/", headers={"Host": "evil.example"})
    sure(elsewhere[0] == 421 and "left" not in elsewhere[2], elsewhere)
    # each name that an alarm uses, or the dashboard, is one that is counted
    texts = [(PACKAGING / file).read_text() for file in ("alarms.yml", "dashboard.json")]
    names = set(re.findall(r"rignolda_[a-z_]+", "".join(texts)))
    # (there is no TLS here; operating.py looks at that one)
    names.discard("rignolda_certificate_expires_timestamp_seconds")
    lacking = names - {name.partition("{")[0] for name in counts()}
    sure(names and not lacking, lacking)


@of_tree({}, runs=False)
def it_is_installed_packed_and_removed(tree):
    def make(*words):
        status, said = ran("make", "-s", "-C", PACKAGING, f"BIN={tree.bin}", *words,
                           env={**os.environ, "DPKG_DEB_COMPRESSOR_TYPE": "none"})
        sure(not status, said)

    house = tree.home / "house"
    make("install", f"DESTDIR={house}")
    files = {str(path.relative_to(house)) for path in house.rglob("*") if path.is_file()}
    sure({"usr/local/bin/rignoldad", "usr/local/bin/rignoldactl",
          "usr/local/lib/systemd/system/rignoldad.service"} <= files, files)
    unit = (house / "usr/local/lib/systemd/system/rignoldad.service").read_text()
    sure("ExecStart=/usr/local/bin/rignoldad" in unit, unit)
    # (else systemd gives it up after five starts that failed soon)
    sure("StartLimitIntervalSec=0" in unit.partition("[Service]")[0], unit)
    example = house / "usr/local/share/doc/rignoldad/examples/agent.toml"
    _, *faults = ran(house / "usr/local/bin/rignoldad", "--check", example)[1].splitlines()
    # (it names certificates, which are not there yet)
    sure(faults and all(it.endswith("is not there") for it in faults), faults)
    make("uninstall", f"DESTDIR={house}")
    sure(not [path for path in house.rglob("*") if path.is_file()], "something is left")
    if not shutil.which("dpkg-deb"):
        return print("  (there is no dpkg-deb here, so no package was made)")
    make("deb", f"PACKAGE={tree.home}/rignoldad.deb")
    listed = ran("dpkg-deb", "-c", tree.home / "rignoldad.deb", env={**os.environ, "TZ": "UTC"})[1]
    changes = (PACKAGING.parents[2] / "CHANGELOG.md").read_text()
    day = re.search(r"^## [0-9.]+, ([0-9-]+)", changes, re.M)[1]
    for line in listed.splitlines():
        mode, owner, _, date, hour = line.split()[:5]
        # (whoever makes it makes the same bytes)
        sure((date, hour) == (day, "00:00"), line)
        # (no file is another one's to write, and none runs as somebody else)
        sure(owner == "root/root" and mode[5] != "w" and mode[8] != "w", line)
        sure("s" not in mode and mode[0] in "-d", line)
    sure(" ./usr/bin/rignoldad\n" in listed and "./etc/rignolda/\n" in listed, listed)


@of_tree({}, runs=False)
def manuals_and_completions_name_everything(tree):
    help_of = lambda name, *words: ran(tree.bin / name, *words, "-h")[1]
    commands = re.findall(r"^  ([a-z-]+) +", help_of("rignoldactl"), re.MULTILINE)
    sure(len(commands) == 19, commands)
    pages = {name: (PACKAGING / name).read_text().replace("\\-", "-") for name in (
        "rignoldactl.1", "rignoldactl.bash", "_rignoldactl", "rignoldactl.fish", "rignoldad.8",
        "rignoldad.toml.5")}
    commands.remove("help")
    options = {option for command in commands
               for option in re.findall(r"--([a-z]+)", help_of("rignoldactl", command))}
    for name in list(pages)[:4]:
        words = "(--|-l )" if name.endswith("fish") else "--"
        lacking = [it for it in commands if not re.search(rf"\b{it}\b", pages[name])]
        lacking += [it for it in options - {"help"} if not re.search(words + it, pages[name])]
        sure(not lacking, name, "has no", lacking)
    for option in re.findall(r"--([a-z]+)", help_of("rignoldad")):
        sure("--" + option in pages["rignoldad.8"], option)
    source = "".join(it.read_text() for it in PACKAGING.parent.glob("src/config/*.rs"))
    keys = re.search(r'const KEYS: &str = "(.*?)";', source, re.DOTALL)
    of_hooks = re.search(r"const HOOK_KEYS: .* = \[(.*?)\];", source)[1].replace(",", " ")
    for key in (keys[1].replace("\\", " ") + " " + of_hooks.replace('"', "")).split():
        sure(re.search(rf"\.B.* {key.split('.')[-1]}\b", pages["rignoldad.toml.5"]), key)
    files = PACKAGING.parents[1].glob("rignold*/src/**/*.rs")
    sources = "".join(it.read_text() for it in files)
    facts = {*re.findall(r'fact!\(\s*(?:[a-z.]+,\s*)?"([a-z-]+)"', sources), "journal"}
    for fact in facts:
        sure(re.search(rf"(?m)^\.BR? {fact}\b", pages["rignoldad.8"]), "has no fact", fact)


if __name__ == "__main__":
    sys.exit(runner.main())
