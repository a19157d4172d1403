"""A small house for a check of scripts: copies of them, with small commands in the place of what
they start. Nothing is proved there, and nothing of this repository is touched."""
import atexit
import hashlib
import os
import re
import shutil
import signal
import subprocess
import tempfile
import time
from pathlib import Path

from programs import TOP, Cases


# Commands like rt, and like the compiler and the linker that it finds. What they make of a crate is
# the text of its first file, so that of a program is a script; where it says that it differs, the
# word of how it was made is in it. A text may also ask for what the first part does.
KIT = r"""
do_as() {
    case $1 in
        *broken*) echo "not proved"; exit 1 ;;
        *slow*)
            trap 'kill $!; echo ended >"$WORK/ended"; exit 1' TERM
            sleep 600 &
            echo started >"$WORK/started"
            wait ;;
        *changes*) sed -i s/changes/after/ "$WORK/a house/crates/stab_cli/src/main.rt" ;;
    esac
}

make() {
    local file=src/main.rt
    [ -e "$file" ] || file=src/lib.rt
    sed "s/differs/differs $1/" "$file" >"$2" && chmod +x "$2"
}
"""
RT = KIT + r"""
case $1 in
    version) cat "$WORK/kit"; exit ;;
    help) echo "rt ci ${KEEPS-[--anew]}" >&2; exit ;;
    doc) echo "$WORK/a kit/START-HERE.md"; exit ;;
    ci) ;;
    *) exit 9 ;;
esac
printf '%s\n' "$*" >>"$WORK/calls"
pwd >"$WORK/place"
find . -type f | LC_ALL=C sort >"$WORK/files"
cat crates.txt >"$WORK/lines"
do_as "$(cat crates/*/src/*)"
for file in crates/*/src/main.rt; do
    [ ! -e "$file" ] || (
        cd "${file%/src*}" && mkdir -p out && made=out/${PWD##*/}.by-rattle &&
            make "ci${AGAIN-}" "$made" && cp "$made" "$made.o"
    )
done
sed -n 's/^\([a-z_]*\).*:.*/rt: \1 proved/p' crates.txt
echo '5 passed, 0 failed'"""
COMPILER = KIT + r"""
printf '%s\n' "$*" >>"$WORK/compiled"
[ -z "${NOT_PROVED-}" ] || exit 1
do_as "$(cat src/*)"
until [ "$1" = -o ]; do shift; done
make build "$2"
[ -z "${OTHER-}" ] || echo other >>"$2" """
# What is linked is its first object, or else the third one, between those of the C library.
LINKER = """
until [ "$1" = -o ]; do shift; done
[ -z "${NOT_LINKED-}" ] || exit 1
cp "$3" "$2" """
STATIC_LINKER = """
printf '%s\\n' "$*" >>"$WORK/linked"
identifier=$*
identifier=${identifier##*=0x}
until [ "$1" = -o ]; do shift; done
cp "$5" "$2"
[ -z "${IDENTIFIED-}" ] || printf "$(printf %s "${identifier%% *}" | sed 's/../\\\\x&/g')" >>"$2" """

# What could change what a script does.
UNSET = ("CDPATH", "TMPDIR", "RT_JOBS", "RT_BACKEND", "RELEASE_COMPILED")


def digest(data):
    return hashlib.sha256(data.read_bytes() if isinstance(data, Path) else data).hexdigest()


def remove(*paths):
    """Removes files and folders, where they are."""
    for path in paths:
        if path.is_dir() and not path.is_symlink():
            shutil.rmtree(path)
        elif path.is_symlink() or path.exists():
            path.unlink()


def house_of(name):
    """The files of tests/houses/NAME, each its path and its text, behind lines with `==> PATH`."""
    return [file.split("\n", 1) for file in re.split(
        "^==> ", (TOP / "tests/houses" / name).read_text(), flags=re.M)[1:]]


class Ended:
    def __init__(self, status, out, err):
        self.status, self.out, self.err = status if status >= 0 else 128 - status, out, err
        self.last = out.rpartition("\n")[0].rpartition("\n")[2]

    def __str__(self):
        return f"status {self.status}, and it wrote:\n{self.out}{self.err}"


class House(Cases):
    """A house, the commands beside it, and the cases of a check."""

    def __init__(self):
        super().__init__()
        self.work = Path(tempfile.mkdtemp())
        atexit.register(shutil.rmtree, self.work, ignore_errors=True)
        self.top, self.bin = self.work / "a house", self.work / "bin"
        self.temporary = self.work / "temporary"
        self.env = {name: value for name, value in os.environ.items() if name not in UNSET}
        self.env.update(WORK=str(self.work), PATH=f"{self.bin}:{self.env['PATH']}")
        self.ended = None
        for folder in (self.top, self.bin, self.temporary):
            folder.mkdir()

    def bring(self, *paths):
        """Copies scripts of this repository to the house."""
        for path in paths:
            to = self.top / path
            to.parent.mkdir(parents=True, exist_ok=True)
            shutil.copy2(TOP / path, to)

    def write(self, path, text="", mode=0o644):
        """Writes a file, whose path is one of the house unless it is whole, and answers it."""
        path = self.top / path
        path.parent.mkdir(parents=True, exist_ok=True)
        path.write_text(text)
        path.chmod(mode)
        return path

    def change(self, path, old, new):
        """Changes what a file has of this pattern."""
        text = (self.top / path).read_text()
        assert re.search(old, text, re.M), (path, old)
        (self.top / path).write_text(re.sub(old, new, text, flags=re.M))

    def command(self, path, text):
        """Writes a command: what it does in bash."""
        return self.write(path, f"#!/usr/bin/env bash\n{text}\n", 0o755)

    def bring_kit(self):
        """Brings what builds the programs, over a kit of small commands."""
        self.bring("release.sh", *(f"tools/{it}" for it in (
            "shims/kit.c", "shims/processor.c", "launch", "release.py", "crates.py", "programs.py",
            "running.py", "index_page.py", "static.py", "debian.py")))
        # (at first without the rows for arm64)
        self.change("tools/launch", "^    'arm64/.*\n", "")
        self.command(self.bin / "rt", RT)
        for name, does in (
                ("bin/rattle", COMPILER), ("bin/rattle-link", LINKER),
                ("toolchain/bin/ld.lld", STATIC_LINKER),
                ("toolchain/bin/clang", 'touch "${@: -1}"')):
            self.command(self.work / "a kit" / name, does)
        self.env["RIGNOLDA_MUSL"] = str(self.work / "musl")
        self.musl("musl")

    def musl(self, text, *machines):
        """Says which C library these machines have: one whose files have this text, or none."""
        for machine in machines or ("x86_64",):
            remove(self.work / "musl" / machine)
            for name in ("rcrt1.o", "crti.o", "libc.a", "crtn.o") if text else ():
                self.write(self.work / "musl" / machine / "lib" / name, text)

    def kit(self, name):
        self.write(self.work / "kit", f"{name}\n")

    def read(self, name):
        """What a command has left in a file of the folder beside the house."""
        path = self.work / name
        return path.read_text() if path.exists() else ""

    def run(self, *words, given="", cwd=None, **env):
        """Runs a command with these changes of the environment, and notes how it ended."""
        done = subprocess.run(words, input=given, capture_output=True, text=True, cwd=cwd,
                              errors="replace", env={**self.env, **env})
        self.ended = Ended(done.returncode, done.stdout, done.stderr)
        return self.ended

    def interrupted(self, number, *words, **env):
        """Runs a command until it writes to the file `started`, and sends it a signal then."""
        remove(self.work / "started", self.work / "ended")
        # (a signal that is ignored here, as HUP under nohup, would be ignored there)
        with open(self.work / "out", "w") as out, open(self.work / "err", "w") as err:
            started = subprocess.Popen(
                ["env", "--default-signal=INT,TERM,HUP", *words], stdout=out, stderr=err,
                stdin=subprocess.DEVNULL, env={**self.env, **env})
        end = time.time() + 60
        while not self.read("started") and time.time() < end:
            time.sleep(0.1)
        started.send_signal(getattr(signal, f"SIG{number}"))
        self.ended = Ended(started.wait(), self.read("out"), self.read("err"))
        return self.ended

    def left_nothing(self):
        """Whether nothing is left in the folder for temporary files."""
        return not any(self.temporary.iterdir())

    def holds(self, name, is_well):
        """Counts a case, with how the last command ended if it does not hold."""
        super().holds(name, is_well, self.ended)
