"""Settings that have another value for some groups of agents, and how that becomes all's: what an
operator asks and is told. (Which value counts is in waiting.rs, publisher.rs and digest.rs, what is
a name in wire.rs, who is waited for in watching.rs, and what is not promoted in steps.rs.)"""
from daemons import of_tree, patient, read, root_has
from runner import sure

OF = {"root": [], "left": ["canary", "eu"], "leaf": [], "right": ["eu"]}
SHAPE = {"left": "root", "leaf": "left", "right": "root"}


def have_groups(tree):
    for agent in tree:
        if OF[agent.name]:
            agent.top["groups"] = OF[agent.name]


def here(tree, *words):
    """Has a change made, and come to be everywhere."""
    tree.root.ask(*words)
    tree.wait()
    sure(not tree.wrong(), *words, tree.wrong())


@of_tree(SHAPE, have_groups, patient, root_has(round="1h"), runs=False)
def a_group_has_its_own_value_until_it_is_that_of_all(tree, root, left, leaf, right):
    for name, value in (("colour", "green"), ("size@eu", 1), ("size@us", 2), ("other", 3)):
        tree.write(name, value)
    tree.start()
    tree.is_well()
    here(tree, "publish", "colour@canary", "blue")
    here(tree, "publish", "colour@eu", "white")
    groups = {it["name"]: it["groups"] for it in root.ask("tree")}
    sure(groups == OF, groups)
    lines = [line.split() for line in root.run("tree").stdout.splitlines()]
    sure([line[1] for line in lines[:3]] == ["groups", "0", "canary,eu"], lines)
    here(tree, "publish", "colour", "grey")
    here(tree, "publish", "colour@us", "pink")
    left.kill()
    for group, why in (("none", "no agent is known that is of `none`"),
                       ("canary", "the time is up: left is not connected\n")):
        root.refuses(why, "wait", "--group", group, "--timeout", "1s")
    left.start()
    tree.is_well()
    # the one for all is there at once where the others go
    here(tree, "unset", "colour@eu")
    sure(right.files()["colour"] == b"grey", right.files())
    here(tree, "promote-value", "colour@canary")
    sure(tree.truth() == {"colour": b"blue", "colour@us": b"pink", "size@eu": b"1",
                          "size@us": b"2", "other": b"3"}, tree.truth())
    # what is no name of one is refused, and named
    root.refuses("`a..b` is no key", "publish", "a..b", "1")
    tree.write("a..b", 1)
    root.becomes(unpublished=1)
    sure("`a..b`" in root.status()["faults"][0], root.status()["faults"])
    (root.truth / "a..b").unlink()
    # (a file by hand, and new groups of an agent, from the next round on)
    tree.write("colour@canary", "red")
    tree.wait()
    sure(not tree.wrong() and left.files()["colour"] == b"red", tree.wrong())
    sure(read(left.settings / ".groups").keys() == {"colour", "colour..canary", "colour..us",
                                                    "size..eu", "size..us"}, left.settings)
    left.top["groups"] = ["us"]
    left.reload()
    root.ask("round")
    tree.wait()
    sure(not tree.wrong(), tree.wrong())
