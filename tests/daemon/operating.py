"""What an operator asks, and is told: who has what, what waits, and who is missing."""
import contextlib
import hashlib
import json
import os
import pty
import re
import shutil
import signal
import subprocess
import time

from daemons import (becomes, by_tls, certify, counted, of_tree, patient, root_has, until,
                     very_patient)
from parents import also
from programs import ran
from runner import sure


def digest(key, value):
    """That of a setting, by another program."""
    return hashlib.sha256(bytes([len(key), 1]) + key.encode() + value).hexdigest()[:16]


def holders(tree, key):
    """Who has what of a key, as the root says it."""
    return {it["agent"]: (it["digest"], it["note"])
            for it in tree.root.ask("get", key, "--everywhere")}


@of_tree({"left": "root", "one": "left", "two": "left"},
         lambda tree: [tree[it].top.update(groups=["canary"]) for it in ("one", "two")])
def who_has_not_said_its_groups_is_waited_for_until_it_is_forgotten(tree, root, left, one, two):
    """An agent is gone, and its parent began anew since, so nobody knows what it was. (Who counts
    for a group, and when somebody is back, is in watching.rs.)"""
    two.kill()
    left.restart()
    tree.is_well(root, left, one)
    number = root.ask("publish", "colour@canary", "blue")["sequence"]
    why = root.lacks("--group", "canary", number, seconds=2)
    sure("two has not said yet of which groups it is" in why and "one" not in why, why)
    root.refuses("no agent `three` is known", "forget", "three")
    root.refuses("`one` is connected", "forget", "one")
    # an operator says so, at the root, and also after a reload
    root.ask("forget", "two")
    root.reload()
    for words in (["--group", "canary"], ["--everywhere"]):
        sure(not root.lacks(*words, number, seconds=30), words)
    sure("two" not in root.run("tree").stdout and "two" in left.run("tree").stdout)
    root.becomes(away=0)
    two.start()
    becomes(lambda: [it["connected"] for it in root.ask("tree") if it["name"] == "two"], [True])


@of_tree({"left": "root", "leaf": "left"}, root_has(round="1h"))
def files_are_right_when_it_was_waited_for_now(tree, root, left, leaf):
    tree.publish("colour", "blue")
    for turn in range(10):
        agent = (leaf, left, root)[turn % 3]
        (agent.settings / "colour").write_text(f"drifted {turn}")
        done = root.run("wait", "--everywhere", "--now", "--timeout", "60s")
        sure(done.returncode == 0 and not tree.wrong(), turn, agent.name, done, tree.wrong())
    # by the number of a round too, and where somebody else's are looked at
    (leaf.settings / "colour").write_text("drifted")
    tree.wait(root.ask("round")["sequence"])
    sure(not tree.wrong(), tree.wrong())
    leaf.refuses("not the root", "wait", "--now")
    root.ask("drain")
    root.refuses("draining", "round")


@of_tree({"left": "root", "leaf": "left"})
def what_cannot_be_is_said_so(tree, root, left, leaf):
    last = root.status()["sequence"]
    root.refuses("is no number of a change: the last is", "wait", 2**64 - 1)
    root.refuses("a sequence number is expected", "wait", "-5", status=2)
    sure("this agent does not know" in root.request(do="dance").get("refused", ""),
         root.request(do="dance"))
    sure(last, root.status())
    # who is away has nothing to be drained
    leaf.kill()
    becomes(lambda: [it["connected"] for it in root.ask("tree")], [True, True, False])
    done = root.run("drain", "--timeout", "60s")
    sure(done.returncode == 0 and "not connected: leaf" in done.stderr, done)
    root.ask("resume")
    # and where that does not end, it is not left draining
    left.signal(signal.SIGSTOP)
    root.request(do="publish", key="colour", value="00")
    done = root.run("drain", "--timeout", "1s")
    sure(done.returncode == 0 or "it publishes again" in done.stderr, done)
    sure(done.returncode == 0 or not root.status()["draining"], root.status())
    left.signal(signal.SIGCONT)
    root.kill()
    root.refuses(f"no agent runs with its socket at {root.socket}: --socket", "status", status=3)


@of_tree({"left": "root", "leaf": "left"}, root_has(round="1h"), runs=False)
def what_fails_is_named_with_its_why(tree, root, left, leaf):
    """At the agent, and to whoever asks at the root; and what was done is in the root's journal."""
    leaf.hook('[ "$1 $2" != "set colour" ] || exit 3')
    tree.start()
    tree.is_well()
    root.ask("publish", "colour", "blue")
    leaf.becomes(failing=1)
    says = leaf.run("status").stdout
    sure(re.search("(?m)^fails +colour: its hook: .*3", says), says)
    shows = lambda: [line for line in root.run("tree").stdout.splitlines() if "leaf " in line]
    sure(until(lambda: "1 failing, colour: its hook: " in shows()[0]), shows())
    root.says(f"asked publish colour of 4 bytes, by uid {os.getuid()}")
    root.ask("unset", "colour")
    root.request(do="drain")
    root.says("asked unset colour, by uid", "asked drain")
    # (whatever a program says of who it is)
    root.request(do="resume", by="uid 4242")
    root.says(f"asked resume, by uid {os.getuid()} (it says: uid 4242)")
    leaf.becomes(failing=0)
    sure("fails" not in leaf.run("status").stdout, leaf.run("status"))


@of_tree({"left": "root"}, runs=False)
def a_probe_is_told_by_its_status_what_is_wrong(tree, root, left):
    left.start()
    sure(until(left.status), left.text())
    ends = lambda *words: left.run("status", *words).returncode
    sure([ends(), ends("--connected"), ends("--within", "1h")] == [0, 4, 4], left.run("status"))
    # (a parent that refuses it says no more to whom it does not know)
    root.top["children"] = ["other"]
    root.start()
    why = "it refuses this agent: why, its `status` and journal say"
    sure(until(lambda: why in left.run("status").stdout), left.run("status"))
    sure("children" not in left.text(), left.text())
    root.top["children"] = ["left"]
    root.restart()
    tree.is_well()
    sure(ends("--connected", "--within", "1h", "--sound") == 0, left.run("status", "--sound"))
    done = left.run("status", "--within", "0ms")
    sure("its last whole table came" in done.stderr and "name " in done.stdout, done)
    root.kill()
    sure(until(lambda: ends("--connected") == 4), left.run("status", "--connected"))


@of_tree({"left": "root"}, by_tls, runs=False)
def a_refused_child_says_why(tree, root, left):
    """Each reason is in its status, its tree and its journal, and gone once it is taken."""
    own, parents = left.tables["tls"], left.top["parents"]
    other = certify(tree.home / "other", "left", authority="other")
    has = {
        "it refuses this agent: its `children` do not name it": {"children": ["other"]},
        "it is set up to connect to this agent itself": {"children": [left.at()]},
        "it has another name than this agent calls it": {
            "parents": [f"other@127.0.0.1:{root.port}"]},
        "the certificate of this agent has another name": {"tls": certify(tree.home, "left2")},
        "the other end refuses this one: unknown authority": {
            "tls": {**other, "authority": own["authority"]}},
        "the other end refuses this one: certificate expired": {
            "tls": certify(tree.home, "late", seconds=-60, more=",DNS:left")}}
    for why, keys in has.items():
        root.top["children"] = keys.get("children", ["left"])
        left.top["parents"] = keys.get("parents", parents)
        left.tables["tls"] = keys.get("tls", own)
        root.restart()
        left.restart()
        said = lambda: left.run("status").stdout
        sure(until(lambda: why in said()), why, said(), left.text()[-500:])
        left.says(why)
        if "tls" not in keys or "another name" in why:
            sure(re.search(f"(?m)^refused by .*{why}", said()), why, said())
            sure(why in left.run("tree").stdout, why, left.run("tree"))
    root.top["children"], left.top["parents"] = ["left"], parents
    left.tables["tls"] = own
    left.restart()
    tree.is_well()
    says = left.run("status").stdout + left.run("tree").stdout
    sure("refused by" not in says and "refuses" not in says, says)


@of_tree({"left": "root", "leaf": "root"}, also("leaf", "left"), by_tls, runs=False)
def who_is_refused_by_one_of_its_parents_says_so_to_the_root(tree, root, left, leaf):
    root.top["children"] = ["left"]
    tree.start()
    leaf.becomes(parent="left")
    why = "refused by root: it refuses this agent: its `children` do not name it"
    row = lambda: [line for line in root.run("tree").stdout.splitlines() if "leaf " in line]
    sure(until(lambda: why in row()[0]), row(), leaf.text()[-500:])
    sure(until(lambda: leaf.said("its `children` do not name it") == 1), leaf.text())
    root.ask("child", "add", "leaf")
    leaf.becomes(parent="root", refusals=[])
    sure(until(lambda: why not in row()[0]), row())


@of_tree({}, root_has(round="1h"))
def more_clients_than_there_is_room_for_are_all_served(tree, root):
    """What each of them asks for is made, and told; nobody is driven out by another one."""
    number = root.status()["sequence"]
    later = [subprocess.Popen(root.command("wait", "--timeout", "60s", number + 60))
             for _ in range(30)]
    all = [subprocess.Popen(root.command("publish", f"key{at}", at), stdout=subprocess.PIPE,
                            stderr=subprocess.PIPE) for at in range(60)]
    said = [(it.communicate(), it.returncode) for it in all]
    sure({status for _, status in said} == {0}, said)
    root.ask("publish", "last", "1")
    while root.status()["sequence"] < number + 60:
        root.ask("publish", "last", "1")
    sure({it.wait() for it in later} == {0}, "a wait was driven out")
    sure(tree.truth().keys() >= {f"key{at}" for at in range(60)}, tree.truth().keys())


@of_tree({"left": "root", "leaf": "left", "relay": "left", "new": "relay"}, patient,
         root_has(round="1h"), runs=False)
def who_has_what_is_shown(tree, root, left, leaf, relay):
    """(What else is said of a holder is in requests.rs of rignoldactl.)"""
    raw = bytes(range(256))
    del relay.tables["apply"]
    tree.begin(without=["new", "relay"])
    relay.start()
    number = root.ask("publish", "raw", value=raw)["sequence"]
    leaf.ask("wait", number)
    # what lies in the files is shown, and not what ought to
    (leaf.settings / "key1").write_text("drifted")
    truth = {**tree.truth(), "key1": b"drifted"}
    listed = [{"key": key, "bytes": len(value), "digest": digest(key, value)}
              for key, value in sorted(truth.items())]
    sure(leaf.ask("list") == listed, leaf.ask("list"))
    text = [line.split() for line in leaf.run("list").stdout.splitlines()]
    sure(text[0] == ["key", "bytes", "digest"], text)
    sure(text[-1] == ["raw", "256", digest("raw", raw)], text)
    sure(leaf.run("get", "raw", text=False).stdout == raw)
    sure(leaf.ask("get", "key1") == {"key": "key1", "bytes": 7, "value": b"drifted".hex(),
                                     "digest": digest("key1", b"drifted")})
    for key, why in (("none", "not set"), ("../control", "is no key"), (".rignolda", "no key")):
        leaf.refuses(why, "get", key)
    (leaf.settings / "pipe").mkdir()
    done = leaf.run("list")
    sure(done.returncode == 0 and "pipe: it is no plain file" in done.stderr, done)
    (leaf.settings / "pipe").rmdir()
    relay.refuses("keeps no files", "get", "raw")
    leaf.refuses("not the root", "get", "raw", "--everywhere")
    # the root knows it of all
    now, later = (digest("raw", it) for it in (raw, b"new"))
    all = {"root": (now, ""), "left": (now, ""), "leaf": (now, ""),
           "relay": ("", "keeps no files"), "new": ("", "never heard of")}
    of_raw = lambda: holders(tree, "raw")
    becomes(of_raw, all)
    unset = {name: ("", "unset") if said[0] else said for name, said in all.items()}
    sure(holders(tree, "none") == unset, holders(tree, "none"))
    # one that was away for a change has the value of before
    leaf.kill()
    root.ask("wait", root.ask("publish", "raw", "new")["sequence"])
    all.update(root=(later, ""), left=(later, ""))
    becomes(lambda: of_raw()["leaf"][1], "older, away")
    # (what nobody can read here has a label, which tells no value that can be guessed)
    label = of_raw()["leaf"][0]
    all.update(leaf=(label, "older, away"))
    becomes(of_raw, all)
    sure(len(label) == 16 and label not in (now, later), label)
    text = [line.split() for line in root.run("get", "raw", "--everywhere").stdout.splitlines()]
    sure(["leaf", label, "older,", "away"] in text, text)
    told = json.dumps([root.request(do=it, key="raw") for it in ("key", "tree", "status")])
    sure(label in told and now not in told and later not in told, told)


@of_tree({"left": "root", "leaf": "left"}, counted)
def what_somebody_else_did_to_files_is_counted_and_named(tree, root, _, leaf):
    """(That what is published is none is in apply.rs.)"""
    tree.publish("key1", "new")
    (leaf.settings / "key1").write_text("drifted")
    (leaf.settings / "key3").unlink()
    (leaf.settings / "stranger").write_text("1")
    leaf.becomes(mended=3)
    tree.settles()
    leaf.says("mended ")
    # (another mode is what the agent itself is told)
    leaf.tables["apply"]["mode"] = "0600"
    leaf.reload()
    becomes(lambda: (leaf.settings / "key1").stat().st_mode & 0o777, 0o600)
    for _ in range(2):
        last = leaf.status()["round"]
        sure(until(lambda: leaf.status()["round"] > last))
    becomes(lambda: [it["mended"] for it in root.ask("tree")], [0, 0, 3])
    sure("\nrignolda_mended_total 3\n" in leaf.counts(), leaf.counts())
    text = [line.split() for line in root.run("tree").stdout.splitlines()]
    sure([line[text[0].index("mended")] for line in text[1:]] == ["0", "0", "3"], text)


def mount(tree, files):
    """Has another folder in the place of the root's, with these files, as a mount does. The root
    sees first that one file of the other folder is gone, and nothing else."""
    old, new = (tree.root.home / name for name in ("old", "new"))
    shutil.rmtree(old, ignore_errors=True)
    new.mkdir()
    for name, value in {".empty": b"", **files}.items():
        (new / name).write_bytes(value)
    tree.mount(new, old, lambda: (old / "key7").unlink(missing_ok=True))


# (the root has a folder of its own, as systemd gives one)
@of_tree({"left": "root", "leaf": "left"}, counted, root_has(round="500ms"),
         lambda tree: tree.root.env.update(STATE_DIRECTORY=str(tree.home)))
def a_half_mounted_folder_empties_nobody(tree, root, left, leaf):
    whole = tree.truth()
    half = {key: whole[key] for key in ("key0", "key1", "key2")}
    mount(tree, half)
    root.becomes(held=5)
    tree.goes_on(whole)
    why = "5 of 8 settings would be unset: held until"
    diff = root.ask("diff")
    gone = [{"key": f"key{at}", "bytes": None} for at in range(3, 8)]
    sure(diff["changes"] == gone and why in diff["held"], diff)
    lines = root.run("diff").stdout.splitlines()
    sure(lines[:5] == [f"unset key{at}" for at in range(3, 8)], lines)
    sure(lines[5].endswith(f"`rignoldactl confirm` {diff['digest']}"), lines)
    sure(why in root.run("wait", "--everywhere").stderr, root.run("wait", "--everywhere"))
    sure(why in root.run("status").stdout, root.run("status").stdout)
    sure("\nrignolda_held 5\n" in root.counts(), root.counts())
    left.refuses("not the root", "diff")
    # rounds go on with what was published, also for who lost all of it
    shutil.rmtree(left.settings)
    (leaf.settings / "key5").write_text("drifted")
    leaf.restart()
    sure(until(lambda: not tree.wrong(None, whole)), tree.wrong(None, whole))
    # what somebody names goes out at once, and all else is held still
    for words, held in ((["publish", "key0", "new"], 5), (["unset", "key7"], 4)):
        sure(root.run(*words).stdout.strip().isdigit(), words)
        root.becomes(held=held)
    root.refuses("`nokey` is not set", "unset", "nokey")
    whole["key0"], half["key0"] = b"new", b"new"
    del whole["key7"]
    tree.goes_on(whole)
    # what is back again is held no more
    mount(tree, whole)
    root.becomes(held=0)
    tree.settles()
    # nor does a root that begins anew believe it; it takes the change that was seen
    half["key1"] = b"other"
    mount(tree, half)
    root.becomes(held=5)
    root.restart()
    sure(until(lambda: root.ask("diff", check=False).get("held")), root.text())
    tree.goes_on(whole)
    digest = root.ask("diff")["digest"]
    for words, status, why in (([digest[::-1]], 1, "another change is held"),
                               ([digest[:16]], 2, "64 hexadecimal digits")):
        root.refuses(why, "confirm", *words, status=status)
    sure(root.run("confirm", digest).stdout.strip().isdigit())
    root.becomes(held=0)
    tree.settles()
    sure(leaf.files() == half, leaf.files())
    root.refuses("nothing is held", "confirm")


@of_tree({"left": "root"}, root_has(round="500ms", hold=True), runs=False, needs="git")
def a_folder_under_git_goes_back(tree, root, left):
    """Each change is looked at, and confirmed; the way back is another change."""
    tree.fill()
    whole = tree.truth()
    tree.start()
    root.becomes(held=8)
    root.ask("confirm")
    tree.is_well()

    def git(*words):
        done = ran("git", "-c", "user.name=x", "-c", "user.email=x", *words, cwd=root.truth,
                   env={**os.environ, "HOME": str(tree.home)})
        sure(not done[0], done)
        return done[1]

    def commit(words):
        git("add", "-A")
        git("commit", "-qm", words)

    def differs(**bytes_of):
        changes = {it["key"]: it["bytes"] for it in root.ask("diff")["changes"]}
        sure(changes == bytes_of, changes)

    git("init", "-q")
    commit("As it was")
    tree.write("key1", "bad")
    (root.truth / "key2").unlink()
    commit("A change")
    differs(key1=3, key2=None)
    tree.goes_on(whole, [left])
    root.ask("confirm", root.ask("diff")["digest"])
    tree.wait()
    tree.settles()
    sure(left.files()["key1"] == b"bad", left.files())
    # (what is asked for needs no more, and what is kept beside it is none of git's)
    tree.publish("key3", "new")
    sure((root.truth / ".rignolda/published").is_file() and "rignolda" not in git("status"))
    commit("By a command")
    # the way back
    git("revert", "--no-edit", "HEAD~1")
    differs(key1=7, key2=7)
    root.ask("confirm")
    tree.wait()
    sure(left.files() == {**whole, "key3": b"new"}, left.files())
    # one that begins anew has confirmed what it applied
    root.restart()
    tree.is_ready()
    sure(not root.status()["held"], root.status())


def for_days(tree):
    """Certificates are good for 40 days, and one for 5, and half a day, however slow a test is."""
    for agent, days in zip(tree, (40, 40, 5)):
        agent.tables["tls"] = certify(tree.home, agent.name, days * 86_400 + 43_200)


@of_tree({"left": "root", "leaf": "left"}, patient, counted, for_days)
def versions_and_certificates_are_in_the_tree(tree, root):
    version = ran(tree.bin / "rignoldad", "--version")[1].split()[1]
    seen = lambda: {it["name"]: (it["version"], it.get("expires", 0)) for it in root.ask("tree")}
    sure(until(lambda: seen().get("leaf", ("", 0))[1]), seen())
    sure({it[0] for it in seen().values()} == {version}, seen())
    # (one that is good for long is not in the reports)
    sure(seen()["root"][1] == seen()["left"][1] == 0, seen())
    sure(0 < seen()["leaf"][1] - time.time() <= 6 * 86_400, seen())
    # (what it says first may be from before it had a table)
    becomes(lambda: [line.partition(version)[2] for line in root.run("tree").stdout.splitlines()
                     if version in line], ["  up", "  up", "  up, certificate for 5 d"])
    sure(f"version        {version}" in root.run("status").stdout)
    end = root.status()["certificate_expires"]
    sure(abs(end - time.time() - 40 * 86_400 - 43_200) < 300, end)
    text = root.counts()
    sure(f"\nrignolda_certificate_expires_timestamp_seconds {end}\n" in text, text)


@of_tree({"left": "root", "leaf": "left"})
def a_terminal_sees_who_is_missing(tree, root, _, leaf):
    leaf.kill()
    number = root.ask("publish", "a", "b")["sequence"]
    ours, theirs = pty.openpty()
    waits = subprocess.Popen(root.command("wait", "--everywhere", "--timeout", "90s", number),
                             stdin=theirs, stdout=theirs, stderr=theirs)
    os.close(theirs)
    said = b""
    # (at the end nobody has the other end)
    while b"2 of 3 agents have it: leaf is not connected" not in said:
        said += os.read(ours, 4_096)
    leaf.start()
    with contextlib.suppress(OSError):
        while more := os.read(ours, 4_096):
            said += more
    os.close(ours)
    # (at the end the line is gone)
    sure(waits.wait() == 0 and said.endswith(b"\r\x1b[K3 of 3 agents have it\r\x1b[K"), said)
    sure(b"\n" not in said, said)
    sure(ran(*root.command("wait", "--everywhere", number)) == (0, ""), "it says something")


# ---- The page at the address of the metrics, which says what `rignoldactl tree` says

@of_tree({"left": "root", "right": "root", "leaf": "left"}, very_patient, counted,
         root_has(round="1h"), also("leaf", "right"), without=["left"])
def the_page_says_what_the_tree_is(tree, root, left, right, leaf):
    """(What it says of each agent is in page.rs.)"""
    leaf.becomes(place=1)
    last = root.ask("publish", "last", "1")["sequence"]
    have = lambda: {it["name"] for it in root.ask("tree") if it["applied"] >= last}
    becomes(have, {"root", "right", "leaf"})
    counts = lambda: {name: int(count) for name, count in re.findall(
        r"<dd id=(\w+)[^>]*>(\d+)", root.page("/")[2]) if int(count)}
    becomes(counts, {"agents": 4, "up": 3, "away": 1, "moved": 1})
    status, headers, text = root.page("/")
    policy = headers["Content-Security-Policy"]
    sure(status == 200 and policy.startswith("default-src 'none';"), policy)
    tags = set(re.findall(r"<(\w+)", text))
    sure(not tags & {"script", "img", "link", "iframe", "a", "form"}, tags)
    sure("http" not in text.replace("http-equiv", "") and "url(" not in text)
    sure("<li class=r>left <b>never heard of" in text and ">leaf <b>parent 2</b>" in text, text)
    # (what is asked for otherwise is none of it)
    sure(root.counts().startswith("# HELP") and root.page("/x")[0] == 404)
