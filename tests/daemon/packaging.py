"""What the scripts of a package do to folders that the agent's user can change."""
import os
import pathlib
import re
import stat
import tempfile

from daemons import PACKAGING
from programs import ran
from runner import sure, test

# (nobody has these numbers)
AGENT, READERS, OPERATORS = 64990, 64991, 64992
NAMES = f"agent={AGENT} readers={READERS} operators={OPERATORS}"


def lacks_root():
    """Why folders of other users cannot be made here, or None."""
    done = ran("setpriv", f"--reuid={AGENT}", "--clear-groups", "true")
    return "root and setpriv are needed" if os.geteuid() or done[0] else None


def makes_folders(top):
    """Has the script make its folders beneath another one, twice."""
    script = f"set -eu; . {PACKAGING / 'accounts'}; {NAMES}; make_folders {top}; make_folders {top}"
    status, said = ran("sh", "-c", script)
    sure(not status, said)
    return said


def of(path):
    """The mode, owner and group of what is there."""
    it = path.lstat()
    return oct(stat.S_IMODE(it.st_mode)), it.st_uid, it.st_gid


def as_agent(*words):
    done = ran("setpriv", f"--reuid={AGENT}", f"--regid={READERS}", "--clear-groups", *words)
    sure(not done[0], words, done)


@test(needs=lacks_root)
def a_package_touches_nothing_that_the_agents_user_can_have_changed():
    with tempfile.TemporaryDirectory() as house:
        top = pathlib.Path(house)
        top.chmod(0o755)
        for name in ("etc", "var/lib", "run", "precious"):
            (top / name).mkdir(parents=True)
        etc, lib = top / "etc/rignolda", top / "var/lib/rignolda"
        etc.mkdir()
        made = {etc: ("0o750", 0, AGENT), etc / "settings.d": ("0o750", AGENT, AGENT),
                lib: ("0o755", AGENT, READERS), lib / "settings": ("0o750", AGENT, READERS),
                top / "run/rignolda": ("0o2750", AGENT, OPERATORS)}
        sure(not makes_folders(top))
        sure({path: of(path) for path in made} == made, {path: of(path) for path in made})
        precious = top / "precious"
        precious.chmod(0o700)
        (precious / "shadow").write_text("secret")
        # its folder is a link to one of root's
        as_agent("rmdir", lib / "settings")
        as_agent("ln", "-s", precious, lib / "settings")
        before = of(precious)
        sure(not makes_folders(top))
        sure(of(precious) == before and sorted(os.listdir(precious)) == ["shadow"], of(precious))
        # what root itself changed stays so, and a link that it made is none to a folder of others
        (etc / "settings.d").chmod(0o2770)
        (lib / "settings").unlink()
        lib.rename(precious / "moved")
        lib.symlink_to(precious)
        sure(not makes_folders(top))
        sure(of(etc / "settings.d") == ("0o2770", AGENT, AGENT), of(etc / "settings.d"))
        sure(of(precious) == before, of(precious))
        # nothing is made in a folder that others can change
        (top / "run/rignolda").rmdir()
        (top / "run").chmod(0o777)
        sure("run/rignolda is not made: others than root" in makes_folders(top))
        sure(not (top / "run/rignolda").exists())


@test
def what_a_package_does_after_it_is_unpacked_it_does_by_these_functions():
    """Each word of its scripts that changes a file acts on none in a folder of the agent's."""
    text = (PACKAGING / "make_deb").read_text()
    after = text[text.index("#!/bin/sh\\nset -e"):text.index("DEBIAN/postinst")]
    acts = re.findall(r"(?m)^\s*(?:\w+ )?(?:touch|install|chown|chmod|mkdir|ln|cp|mv|rm)\b.*", after)
    sure([it.split()[0] for it in acts] == ["as_agent"], acts)
