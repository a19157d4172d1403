"""A second root: it is promoted when the first one is gone, and of two roots one goes on."""
import concurrent.futures
import os
import shutil
import signal
import time

from daemons import becomes, by_tls, counted, during, free_port, of_tree, read, until
from runner import sure


def two(tree):
    """Either of two agents may be the root; the others are below either."""
    root, second = tree.root, tree["second"]
    racks = [agent for agent in tree if agent.parent is root and agent is not second]
    second.truth = second.home / "truth"
    second.truth.mkdir()
    for one, other in ((root, second), (second, root)):
        one.tables["root"] = {"settings": str(one.truth), "round": "500ms", "standby": True}
        one.top.update(parents=[other.at()], children=[it.name for it in (other, *racks)])
    for agent in racks:
        agent.top["parents"] = [root.at(), second.at()]


def begin(tree):
    """Starts all, and makes the first one the root of what lies in its folder."""
    tree.fill()
    tree.start()
    sure(until(tree.root.status), tree.root.text())
    tree.root.ask("promote", "--as-is")
    tree.is_well()


def alive(tree):
    return [agent for agent in tree if agent.alive()]


def follow(agent, *agents):
    """Asserts that all that run, or these agents, come to have what this root's folder has."""
    becomes(lambda: agent.tree.wrong(agents or alive(agent.tree), read(agent.truth)), [],
            "these do not have all:")


def is_now(agent, what, other=""):
    """Asserts that an agent comes to say that it is this."""
    agent.becomes(standby=what, other_root=other)


def strays(tree):
    return {agent.name: agent.status().get("strays") for agent in alive(tree)}


@of_tree({"second": "root", "left": "root", "right": "root", "leaf": "left", "deep": "leaf"}, two,
         by_tls, counted, runs=False, begins=True)
def an_agent_that_is_promoted_goes_on_and_the_old_root_stands_by(tree, root, second, left, _, leaf,
                                                                 deep):
    begin(tree)
    # what lies in the folder of one that is not promoted is nobody's
    second.write("key0", "of long ago")
    second.write("stale", "1")
    second.restart()
    is_now(second, "below")
    tree.goes_on(tree.truth())
    second.refuses("not the root", "publish", "key0", "x")
    left.refuses("no `standby`", "promote")
    seen = {it["name"]: it["standby"] for it in root.ask("tree")}
    sure(seen["second"] and not seen["left"], seen)
    # (its numbers are ahead of the others' clocks)
    root.kill()
    far = int((time.time() + 86_400) * 1e6)
    (root.truth / ".root").write_text(f"{far:020}\n")
    root.start()
    is_now(root, "root")
    sure(until(lambda: second.status()["applied"] > far), second.status())
    # others have more than it has seen, and could publish soon, and then there is no root
    known = second.files()
    second.kill()
    with root.publisher() as publish:
        for turn in range(300):
            last = publish("later", str(turn))
    becomes(lambda: deep.files().get("later"), b"299")
    root.kill()
    before = strays(tree)
    # (who says to it that it has more would have it refused)
    racks = tree["left"], tree["right"]
    for rack in racks:
        rack.signal(signal.SIGSTOP)
    second.start()
    is_now(second, "below")
    second.ask("promote")
    for rack in racks:
        rack.signal(signal.SIGCONT)
    is_now(second, "root")
    sure(read(second.truth) == known, read(second.truth))
    follow(second)
    # (nothing that it published was older than what they had)
    sure(strays(tree) == {**before, "second": 0}, before, strays(tree))
    sure(second.status()["sequence"] > last, second.status(), last)
    second.write("key1", "of the second")
    second.ask("publish", "key2", "of the second too")
    follow(second)
    # it stays the root
    second.restart()
    is_now(second, "root")
    follow(second)
    # the old root is back, with a folder of its own
    truth = read(second.truth)
    root.write("key1", "of the old root")
    root.write("mine", "1")
    begun = root.said("this is the root now")
    root.start()
    is_now(root, "stands-by", "second")
    tree.goes_on(truth, [agent for agent in tree if agent is not root])
    follow(second)
    root.says("second is another root: this one stands by")
    sure(root.said("this is the root now") == begun, root.text())
    sure("\nrignolda_stands_by 1\n" in root.counts(), root.counts())
    sure("stands by for second" in root.run("status").stdout, root.run("status").stdout)
    becomes(lambda: {it["name"]: it["stands_by"] for it in second.ask("tree")}.get("root"), True)
    sure("stands by" in second.run("tree").stdout, second.run("tree").stdout)
    # also where the other one is gone again: nobody chooses a root but an operator
    second.kill()
    root.restart()
    is_now(root, "stands-by")
    tree.goes_on(truth, alive(tree))
    root.becomes(parent=None)
    second.start()
    is_now(second, "root")
    follow(second)
    root.ask("demote")
    is_now(root, "below")
    follow(second)
    root.refuses("is not the root", "demote")
    # and back again, as it is planned: the second one sees it, and gives way
    sure(second.request(do="drain") == "done", second.text())
    root.ask("promote")
    is_now(root, "root")
    is_now(second, "stands-by", "root")
    root.write("key1", "of the first one again")
    follow(root)
    sure(deep.files()["key1"] == b"of the first one again", deep.files())
    second.ask("demote")
    is_now(second, "below")
    # a folder that is not as it was applied is not published
    root.ask("demote")
    sure(until(lambda: second.status()["cost"] >= 128), second.status())
    second.ask("wait")
    (second.settings / "key0").write_text("drifted")
    second.refuses("not a whole table", "promote")
    is_now(second, "below")
    sure(not (second.truth / ".root").exists(), second.text())


def cut(tree, is_cut):
    """Cuts the two roots off from each other, or no more."""
    for one, other in ((tree.root, tree["second"]), (tree["second"], tree.root)):
        one.top["parents"] = [other.at(free_port() if is_cut else None)]
        one.reload()


@of_tree({"second": "root", "left": "root", "leaf": "left"}, two, runs=False)
def of_two_roots_that_find_each_other_one_goes_on(tree, root, second, left, leaf):
    begin(tree)
    for is_demoted in (True, False):
        cut(tree, True)
        second.becomes(parent=None)
        second.ask("promote")
        second.write("who", "second")
        root.write("who", "root")
        follow(root, root, left, leaf)
        follow(second, second)
        # (none of them hears of the other one)
        for _ in during(1):
            sure({it.status()["standby"] for it in (root, second)} == {"root"})
        if is_demoted:
            # (by hand, while it does not see the other one)
            root.ask("demote")
            follow(second, left, second, leaf)
            is_now(root, "below")
        cut(tree, False)
        if not is_demoted:
            is_now(root, "stands-by", "second")
        follow(second)
        sure(leaf.files()["who"] == b"second", leaf.files())
        is_now(second, "root")
        if is_demoted:
            root.ask("promote")
            is_now(second, "stands-by", "root")
            follow(root)
            second.ask("demote")


@of_tree({"second": "root", "left": "root", "right": "root"}, two, runs=False)
def a_root_that_returns_while_the_other_one_is_away_keeps_back_what_is_old(tree, root, second, left,
                                                                         right):
    begin(tree)
    root.kill()
    second.ask("promote")
    second.ask("publish", "key0", "of the second")
    follow(second)
    second.kill()
    truth = read(second.truth)
    for _ in range(2):
        root.start()
        is_now(root, "stands-by")
        tree.goes_on(truth, [left, right])
        root.kill()
    root.says("this one stands by")
    root.start()
    second.start()
    is_now(second, "root")
    second.ask("publish", "key1", "of the second too")
    follow(second)


@of_tree({"second": "root", "left": "root"}, two, runs=False)
def values_for_groups_are_promoted_as_they_were_published_or_not_at_all(tree, root, second, _):
    """The root is lost; and somebody changed what the second one has beside its own files."""
    tree.write("colour@canary", "blue")
    begin(tree)
    truth = read(root.truth)
    follow(root)
    root.kill()
    beside = second.settings / ".groups"
    becomes(lambda: read(beside).get("colour..canary"), b"blue")
    for spoil in (lambda: (beside / "colour..canary").write_text("green"),
                  lambda: (beside / "colour..canary").unlink(),
                  lambda: (beside / "invented..canary").write_text("1"),
                  lambda: (beside / "key0").write_text("of long ago"),
                  lambda: beside.rename(second.home / "away")):
        shutil.copytree(beside, second.home / "before")
        spoil()
        second.refuses("is not a whole table as it was applied", "promote")
        is_now(second, "below")
        shutil.rmtree(beside, ignore_errors=True)
        (second.home / "before").rename(beside)
    second.ask("promote")
    sure(read(second.truth) == truth, read(second.truth))


@of_tree({"second": "root", "left": "root", "right": "root"}, two, runs=False)
def an_agent_that_lacks_a_change_is_promoted_as_it_is_alone(tree, root, second, left, right):
    """And what it lacks is said to whoever asks for it. (What its journal has is in steps.rs.)"""
    begin(tree)
    second.kill()
    number = root.ask("publish", "key0", "new")["sequence"]
    follow(root)
    root.kill()
    second.start()
    sure(until(second.status), second.text())
    becomes(lambda: [it["changed"] for it in second.ask("tree")].count(number), 2)
    second.refuses(f"has change {number}, and this agent has none after", "promote")
    is_now(second, "below")
    for key, value in left.files().items():
        second.write(key, value)
    sure(f"has change {number}" in second.ask("promote", "--as-is")["said"], second.text())
    is_now(second, "root")
    follow(second)
    sure(left.files()["key0"] == b"new", left.files())


@of_tree({"second": "root", "left": "root"}, two, runs=False)
def whoever_writes_to_its_folder_makes_no_standby_the_root(tree, root, second, left):
    begin(tree)
    mark = second.truth / ".root"
    far = int((time.time() + 86_400) * 1e6)
    for how in ("mode", "link"):
        second.kill()
        mark.write_text(f"{far:020}\n")
        mark.chmod(0o666 if how == "mode" else 0o600)
        if how == "link":
            os.link(mark, second.home / "other")
        second.start()
        is_now(second, "below")
        mark.unlink()
    second.says(".root does not belong to the user of the agent alone")
    is_now(root, "root")
    root.ask("publish", "key0", "after that")
    follow(root)


@of_tree({"second": "root", "left": "root"}, two, runs=False)
def a_spoiled_mark_of_a_root_is_harmless_or_refused(tree, root, second, left):
    """(What is no number is in apply.rs, and what else a start finds in roles.rs.)"""
    mark = root.truth / ".root"
    begin(tree)
    for spoiled in (b"", b"12"):
        root.kill()
        mark.write_bytes(spoiled)
        root.write("key0", spoiled)
        root.start()
        is_now(root, "root")
        tree.settles()
    root.kill()
    mark.unlink()
    mark.mkdir()
    before = tree.truth()
    root.write("key0", "never")
    root.start()
    is_now(root, "stands-by")
    tree.goes_on(before)
    mark.rmdir()
    root.ask("promote", "--as-is")
    is_now(root, "root")
    tree.settles()


@of_tree({"second": "root", "left": "root"}, two, runs=False)
def who_is_killed_while_it_is_promoted_may_be_promoted_again(tree, root, second, left):
    begin(tree)
    for turn, pause in enumerate((0, 0.001, 0.01, 0.03)):
        root.write("turn", turn)
        follow(root)
        root.kill()
        with concurrent.futures.ThreadPoolExecutor(1) as pool:
            asked = pool.submit(second.request, 20, do="promote")
            time.sleep(pause)
            second.restart()
            asked.result()
        sure(until(second.status), second.text()[-500:])
        said = second.request(20, do="promote")
        if said != "done" and second.status()["standby"] == "below":
            # (it has its files, but has heard no whole table since it began)
            sure("not a whole table" in str(said), said, second.text()[-500:])
            for key, value in second.files().items():
                second.write(key, value)
            sure(second.request(20, do="promote", as_is=True) == "done", second.text()[-500:])
        is_now(second, "root")
        follow(second)
        sure(left.files()["turn"] == str(turn).encode(), left.files())
        root.start()
        is_now(root, "stands-by", second.name)
        root.ask("demote")
        root, second = second, root
