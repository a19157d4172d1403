"""What is said of a tree is so: where an agent is, what it has, when a change is everywhere."""
import shutil
import signal
import subprocess
import time

from blocked import preload
from daemons import PATIENCE, becomes, of_tree, root_has, took, until, very_patient
from protocol import Child
from relay import between
from runner import sure


@of_tree({"left": "root", "inner": "left", "leaf": "inner"}, runs=False)
def nothing_is_everywhere_before_it_is_applied(tree, root, left, inner, leaf):
    """A new agent, and one that was away: each has older changes to apply when it already has a
    number that is as high. Its hooks hold neither its files nor its child back."""
    go = inner.home / "go"
    inner.hook(f"while [ -d {inner.home} ] && [ ! -e {go} ]; do sleep 0.02; done\n"
               f'echo "$2" >>{inner.home}/calls', hook_timeout="10m")
    for at in range(4):
        tree.write(f"k{at}", at)
    tree.start([root, left, leaf])
    tree.is_ready(root, left)
    for turn, what in enumerate(("is new", "was away, and its folder is gone")):
        number = root.ask("publish", "k3", f"new {turn}")["sequence"]
        # (the table that it begins with is later than that change)
        sure(until(lambda: left.status()["round"] > number))
        inner.start()
        tree.settles()
        inner.becomes(whole=True)
        sure("inner" in root.lacks("--everywhere", number) and inner.lacks(number),
             f"an agent that {what}: done, and its hooks ran for", inner.noted("calls"))
        sure(inner.noted("calls") == [], inner.noted("calls"))
        go.touch()
        tree.wait(number)
        sure(set(inner.noted("calls")) == {"k0", "k1", "k2", "k3"}, inner.noted("calls"))
        inner.kill()
        shutil.rmtree(inner.settings)
        go.unlink()
        (inner.home / "calls").unlink()


@of_tree({"left": "root", "leaf": "left", "relay": "left"}, runs=False, needs="cc")
def files_that_differ_are_seen(tree, root, left, leaf, relay):
    """A disk spoils what an agent gives it: the agent's numbers say that all is applied. And of a
    folder that is gone, and in whose place a link to nowhere lies, nothing is known."""
    del relay.tables["apply"]
    spoils = preload(leaf, "write")
    root.tables["root"]["round"] = "500ms"
    tree.write("size", 1)
    tree.start()
    tree.is_ready()

    def is_seen(as_):
        """The root comes to say this of the leaf's files."""
        becomes(lambda: {it["name"]: it["compared"] for it in root.ask("tree")},
                {"root": "same", "left": "same", "relay": "nothing", "leaf": as_})

    is_seen("same")
    spoils.touch()
    number = root.ask("publish", "colour", "blue")["sequence"]
    becomes(lambda: leaf.files().get("colour"), b"glue")
    sure(until(lambda: leaf.status()["applied"] >= number), leaf.status())
    is_seen("differs")
    why = root.lacks("--everywhere", number, seconds=3)
    sure("leaf has other settings in its files" in why, why)
    root.becomes(differing=1)
    who = {it["agent"]: it["note"] for it in root.ask("get", "colour", "--everywhere")}
    sure(who["leaf"] == "not known: its files differ" and who["left"] == "", who)
    sure(leaf.run("get", "colour").stdout == "glue", leaf.run("get", "colour"))
    sure(" differ " in root.run("tree").stdout, root.run("tree").stdout)
    # (at another agent nothing is compared)
    sure({it["compared"] for it in left.ask("tree")} == {"nothing"})
    # a round looks at the file, and writes it anew
    spoils.unlink()
    tree.wait(number)
    sure(leaf.files()["colour"] == b"blue", leaf.files())
    is_seen("same")
    # (the disk may come back to which a link there leads)
    shutil.rmtree(leaf.settings)
    leaf.settings.symlink_to("missing")
    is_seen("not-known")
    sure(leaf.status()["failing"] and root.lacks("--everywhere"), leaf.status())
    leaf.settings.unlink()
    tree.wait()
    is_seen("same")
    tree.settles(root, left, leaf)


@of_tree({"leaf": "root"}, root_has(round="1h"))
def what_is_nothing_of_settings_is_named_between_changes(tree, root, leaf):
    """It is looked for once a second, and not for each change: also after the last one."""
    tree.wait(root.ask("publish", "colour", "red")["sequence"])
    (leaf.settings / "somebodys").mkdir()
    tree.wait(root.ask("publish", "colour", "blue")["sequence"])
    leaf.says("1 in the folder are none of settings, as somebodys")


@of_tree({"left": "root", "leaf": "left"}, root_has(round="1h"))
def a_file_that_was_moved_in_is_waited_for(tree):
    script = ('printf %s "$1" >"$2/.new"; mv "$2/.new" "$2/key"; shift 2; '
              'exec "$@" --everywhere')
    early = []
    for at in range(40):
        subprocess.run(["sh", "-c", script, "sh", str(at), tree.root.truth,
                        *tree.root.command("wait")], check=True, timeout=60)
        # (what wait says is so at once)
        if tree["leaf"].files().get("key") != b"%d" % at:
            early.append(at)
    sure(not early, "wait ended too early in", early)


@of_tree({"left": "root"}, very_patient)
def a_wait_ends_in_its_time(tree, root, left):
    # (where no child takes anything, the root publishes no more)
    left.signal(signal.SIGSTOP)

    def is_full():
        tree.write("one", time.monotonic())
        return "not all of its folder is published" in root.lacks()

    sure(until(is_full), "it publishes all the time")
    seconds = took(root.lacks)
    sure(seconds < 3 * PATIENCE, seconds)
    left.signal(signal.SIGCONT)
    tree.wait()
    sure(left.files() == tree.truth())


@of_tree({"left": "root", "slow": "left"}, very_patient, root_has(round="1h"), without=["slow"])
def a_last_acknowledgement_is_news(tree):
    slow = Child(tree["left"], "slow")
    backlog = lambda: [it["backlog"] for it in tree.root.ask("tree") if it["name"] == "left"]
    becomes(backlog, [0])
    slow.may.clear()
    tree.root.ask("publish", "two", "2")
    becomes(lambda: backlog() > [0], True)
    slow.may.set()
    # (what is no news is said again after 30 seconds)
    sure(until(lambda: backlog() == [0], 20 / PATIENCE), "the root hears late of", backlog())
    slow.close()


@of_tree({"hub": "root", "leaf": "hub"}, very_patient, root_has(round="1h"), runs=False)
def a_report_that_was_lost_is_asked_for(tree, root, hub):
    """What changed since a report that the parent does not have is no use: it asks for all."""
    relay, spoiled = between(hub), []

    def spoil(piece):
        """Spoils the name of the report that changes are of, once in each turn."""
        at = piece.find(b"C", 5)
        while at > 0 and (piece[at - 5:at - 2] != b"R\0\0" or len(piece) < at + 17):
            at = piece.find(b"C", at + 1)
        if at < 0 or len(spoiled) >= turn:
            return piece
        spoiled.append(at)
        return piece[:at + 9] + bytes([piece[at + 9] ^ 1]) + piece[at + 10:]

    def is_spoiled():
        root.ask("publish", "colour", str(time.monotonic()))
        return len(spoiled) == turn

    tree.begin()
    relay.changed, turn = spoil, 0
    applied = lambda: [it["applied"] for it in root.ask("tree")]
    for turn in range(1, 4):
        sure(until(is_spoiled, pause=0.2), "none was of changes")
        # (all is said again after 30 seconds)
        sure(until(lambda: applied() == [root.status()["changed"]] * 3, 20 / PATIENCE), applied())


@of_tree({"left": "root", "right": "root"})
def two_agents_of_one_name_are_counted(tree, root, left):
    clashes = lambda: [it["clashes"] for it in root.status()["children"]]
    # (one that starts again and again is none)
    for _ in range(4):
        left.restart()
        sure(until(left.up))
    sure(clashes() == [0, 0], clashes())
    twin = tree.add("twin", "root")
    twin.name = "left"
    twin.start()
    sure(until(lambda: clashes()[0] > 2), clashes())
    sure(clashes()[1] == 0 and until(lambda: root.said("clash left") == 1), clashes())
    # (and they do not connect without end)
    # (how often in a second is counted over two)
    before, begun = root.said("connected left"), time.monotonic()
    time.sleep(2)
    times = (root.said("connected left") - before) / (time.monotonic() - begun)
    sure(times < 20, "they connect", times, "times a second")
    twin.kill()
    del tree.agents["twin"]
    tree.write("after", "that")
    tree.settles()
