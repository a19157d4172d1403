"""Hooks that have one run for all of their keys that changed together."""
from daemons import becomes, of_tree, patient, root_has, until
from runner import sure

# (what it is told, and the files as it finds them; it ends when `go` is there, or fails)
NOTES = """
while read -r key; do
    said="$said $key=$(cat "$key" 2>/dev/null || echo -)"
done
echo "$RIGNOLDA_FOLDER:$(pwd):$#:$said" >>%(home)s/%(name)s
while [ -d %(home)s ] && [ ! -e %(home)s/go ]; do sleep 0.02; done
[ ! -e %(home)s/fail-%(name)s ]
"""


def hook(agent, name, *keys):
    path = agent.hook_of(f"hook-{name}", NOTES % {"home": agent.home, "name": name})
    agent.hooks.append({"keys": keys, "run": path})


def runs(agent, name):
    """What each run was told."""
    said = []
    for line in agent.noted(name):
        folder, here, words, keys = line.split(":")
        sure(folder == here == str(agent.settings) and words == "0", line)
        said.append(keys.split())
    return said


@of_tree({"leaf": "root"}, patient, root_has(round="1h"), runs=False)
def keys_that_changed_together_have_one_run(tree, root, leaf):
    hook(leaf, "app", "app.*", "colour")
    hook(leaf, "all", "*")
    leaf.hook(f'echo $1 $2 >>{leaf.home}/own')
    own = lambda: sorted(leaf.noted("own"))
    pending = lambda: sorted(it.name for it in (leaf.settings / ".pending").iterdir())
    lacks = lambda: root.lacks("--everywhere", number)
    for key in ("app.a", "app.b", "colour", "other", "yapp.c"):
        tree.write(key, 1)
    tree.start()
    sure(until(root.up), root.text())
    number = root.ask("publish", "last", "1")["sequence"]
    first = ["app.a=1", "app.b=1", "colour=1"]
    becomes(lambda: runs(leaf, "app"), [first])
    # it is applied when it has ended; what changes meanwhile has the next run
    sure("leaf" in lacks(), lacks())
    for key in ("app.a", "app.b"):
        root.ask("publish", key, "2")
    root.ask("unset", "colour")
    number = root.ask("publish", "app.a", "3")["sequence"]
    becomes(lambda: leaf.files().get("app.a"), b"3")
    # one that is killed while it runs begins again, with what it ought to have told
    leaf.restart()
    all = [first, ["app.a=3", "app.b=2", "colour=-"]]
    becomes(lambda: runs(leaf, "app"), all)
    (leaf.home / "go").touch()
    tree.wait(number)
    sure(runs(leaf, "app") == all, runs(leaf, "app"))
    sure({key.split("=")[0] for keys in runs(leaf, "all") for key in keys}
         == {"app.a", "app.b", "colour", "other", "yapp.c", "last"}, runs(leaf, "all"))
    sure(not pending(), "marks are left")
    # what fails has another run at the next round, and no other hook has
    before, told = own(), len(runs(leaf, "all"))
    (leaf.home / "fail-all").touch()
    for key in ("app.b", "other"):
        number = root.ask("publish", key, "4")["sequence"]
    leaf.becomes(failing=1)
    sure("leaf has a file or a hook that failed" in lacks(), lacks())
    sure(pending() == ["app.b", "other"], pending())
    (leaf.home / "fail-all").unlink()
    root.ask("round")
    leaf.becomes(failing=0)
    tree.wait(number)
    sure(runs(leaf, "app")[2:] == [["app.b=4"]], runs(leaf, "app"))
    sure(runs(leaf, "all")[-1] == ["app.b=4", "other=4"], runs(leaf, "all")[told:])
    sure(own() == sorted([*before, "set app.b", "set other"]), own())
    sure(not pending(), "marks are left")
    # a reload takes others
    leaf.hooks.pop()
    hook(leaf, "new", "*.b")
    leaf.reload()
    told = len(runs(leaf, "all"))
    for key in ("app.b", "other"):
        tree.publish(key, "5")
    sure(runs(leaf, "new") == [["app.b=5"]] and len(runs(leaf, "all")) == told)
