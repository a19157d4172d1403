#!/usr/bin/env -S python3 -B
"""Tests the scripts ./stab and ./rignolda in a copy of their own, with small commands in the place
of rt and of the compiler that it finds: nothing is proved, and nothing of this repository touched.
The last line is 'N passed, M failed'.
"""
import gzip
import os
import re
import shutil
import subprocess
import sys
from concurrent.futures import ThreadPoolExecutor

from house import House, digest, remove

house = House()
holds, top, work, write, command = house.holds, house.top, house.work, house.write, house.command
change = house.change
release, manifest = top / "release", top / "release/MANIFEST"
house.work.chmod(0o711)
AS_ROOT = os.geteuid() == 0


def text(crate, words):
    """Changes the text of a crate, and leaves the times as if nothing had been changed. Programs
    print this text, their words and their input, and end with status 7."""
    place = "lib"
    if crate in ("stab_cli", "rignolda"):
        place, words = "main", f'#!/bin/sh\necho "{words}; $*; $(cat)"\nexit 7'
    os.utime(write(f"crates/{crate}/src/{place}.rt", f"{words}\n"), (1e9, 1e9))


def without(folder):
    """The path of somebody who has no kit, and no more than the commands of a folder."""
    return {"PATH": str(work / folder)}


NO_KIT = without("without")
RIGNOLDA = {"start": [top / "rignolda"]}


def stab(*words, start=(top / "stab",), **more):
    """Runs ./stab, or what else starts it, without the kit and with the input 'in'."""
    return house.run(*start, *words, given="in", **{**NO_KIT, **more})


def gave(name, said, *words, says=(), **more):
    """Runs ./stab with these words: whether the program has run and wrote what it says, each of
    these texts was said, and nothing was left."""
    ended = stab(*words, TMPDIR=str(house.temporary), **more)
    holds(name, ended.status == 7 and ended.out == f"{said}; {' '.join(words)}; in\n"
          and (all(it in ended.err for it in says) if says else not ended.err)
          and house.left_nothing() and not (top / "out").exists())


def refused(name, said, *words, **more):
    """Whether it ends with status 3, writes nothing but on standard error, and there says so."""
    ended = stab(*words, **{"TMPDIR": str(house.temporary), **more})
    holds(name, ended.status == 3 and not ended.out and said in ended.err
          and house.left_nothing() and not (top / "out").exists())


# A house of six crates, of which the program needs five: two at the bottom, one over the first, one
# over all of these, and its own.
for crate in "low", "other", "mid", "top", "unused", "stab_cli":
    text(crate, crate)
text("mid", "mod part;")
write("crates/mid/src/part.rt", "a part\n")
write("crates.txt", "# crates\nlow: itoa\nother:\nmid: low itoa\ntop: other mid\nunused: low\n\n"
      "stab_cli may_wait=4: low top clap\n")
write("HANDLES", "Handles allowed: none.\n")
house.bring("stab", "rignolda")
house.bring_kit()
house.kit("kit-1")
for tool in ("bash cat chmod cp dirname env find gzip mktemp readlink rm sh sha256sum sort uname "
             "xargs").split():
    (work / "without").mkdir(exist_ok=True)
    (work / "without" / tool).symlink_to(shutil.which(tool))


def make_release(words):
    """Makes the release of sources with this text, as somebody does who has a kit."""
    text("stab_cli", words)
    house.run(top / "release.sh")
    remove(top / "out")


BUILDS = ": ./release.sh builds the programs"
refused("without a release that is said", f"there is no release{BUILDS}")
make_release("released")
gave("a release runs at once, without the kit, with words, input and status", "released", "one",
     "two words")
for word in "--help", "-h":
    gave(f"of stab, which refuses help, it says where that is ({word})", "released", word,
         says=[f"help is in its manual: man '{top}/man/stab.1'\n"])
gave("and only where nothing else is asked", "released", "link", "--help")
for file in top.rglob("*.rt"):
    os.utime(file)
gave("new times of the same sources change nothing", "released")
crates = (top / "crates.txt").read_text()
text("unused", "other")
change("crates.txt", r"\Z", "last: unused\n")
gave("nor do crates that the program does not need", "released")
DIFFER = f"the sources are not those of the release{BUILDS}"
for name, does, undoes in (
        ("changed sources with old times are others", lambda: text("stab_cli", "second"),
         lambda: text("stab_cli", "released")),
        ("and so is a new file", lambda: write("crates/low/specs/Lib.antt", "pub mod Lib\n"),
         lambda: remove(top / "crates/low/specs")),
        ("another line of a crate that is needed",
         lambda: change("crates.txt", "^other:", "other: itoa"),
         lambda: write("crates.txt", crates)),
        ("other handles", lambda: write("HANDLES", "Handles allowed: Wait.\n"),
         lambda: write("HANDLES", "Handles allowed: none.\n")),
        ("what a program calls besides", lambda: change("tools/shims/kit.c", r"\Z", "more\n"),
         lambda: house.bring("tools/shims/kit.c"))):
    does()
    refused(name, DIFFER)
    undoes()
gave("with the old sources the program runs again", "released")
gave("CDPATH changes nothing", "released", "one", CDPATH=f"{work}:/",
     start=["bash", "-c", 'cd -- "$0/.." && "./a house/stab" "$1"', top])
linked = house.bin / "linked"
linked.symlink_to(top / "stab")
gave("a symbolic link on the path leads to the program", "released", "two", start=["linked"],
     cwd="/", PATH=f"{work}/without:{house.bin}")
gave("and from another folder, with CDPATH", "released", "three",
     start=["bash", "-c", 'cd / && "$0" "$1"', linked], CDPATH=f"{work}:{top}:/")
house.kit("kit-3")
gave("another kit changes nothing", "released", PATH=house.env["PATH"])
# (as a user who may not write here)
subprocess.run(["chmod", "-R", "a-w,a+rX", top], check=True)
house.temporary.chmod(0o1777)
gave("in a clone that cannot be written to, it runs", "released", "one", start=[
    *["setpriv", "--reuid=65534", "--regid=65534", "--clear-groups"] * AS_ROOT, "env",
    f"PATH={work}/without", top / "stab"], PATH=house.env["PATH"])
subprocess.run(["chmod", "-R", "u+w", top], check=True)
before = os.umask(0)
gave("with a umask of 000 nothing else happens", "released")
os.umask(before)
shutil.copytree(work / "without", work / "watched", symlinks=True)
remove(work / "watched/chmod")
command(work / "watched/chmod", f"""stat -c %a "$(dirname "$3")" >"$WORK/rights"
exec {shutil.which("chmod")} "$@" """)
(work / "watched/stat").symlink_to(shutil.which("stat"))
stab(**without("watched"))
holds("nobody else may look at where it is unpacked", house.read("rights") == "700\n")
refused("where it can be unpacked nowhere, that is said", "set TMPDIR to a folder",
        TMPDIR="/no/such/folder")
shutil.copytree(work / "without", work / "no_run", symlinks=True)
remove(work / "no_run/chmod")
command(work / "no_run/chmod", f'[ "$1" != 755 ] || exec {shutil.which("chmod")} 644 "${{@:2}}"')
refused("and where nothing that is unpacked can be run", "set TMPDIR to a folder",
        **without("no_run"))
near = work / "near/a folder"
near.mkdir(parents=True)
for place in str(near), "a folder", ".":
    ended = stab(cwd=near.parent, TMPDIR=place)
    holds(f"it runs from the temporary folder {place[-8:]}",
          ended.out == "released; ; in\n" and not any(near.iterdir()))
for name in "find", "bash", "tools/launch", "-type", "--", "stab":
    command(work / "hostile" / name, "echo hostile")
gave("what lies in the current folder does not matter", "released", "*", "-type",
     cwd=work / "hostile")
gave("nor with a link to the launcher", "released", "..", start=[linked], cwd=work / "hostile")
with ThreadPoolExecutor(8) as pool:
    several = list(pool.map(lambda it: house.run(top / "stab", it, given="in", **NO_KIT),
                            "12345678"))
holds("of several at once each runs", [(it.status, it.out) for it in several] == [
    (7, f"released; {count}; in\n") for count in "12345678"])

# What is spoiled of a release: nothing runs.
shutil.copytree(release, work / "release")


def restore(place):
    remove(release)
    shutil.copytree(work / place, release)


packed, lines = (release / "stab.gz").read_bytes(), manifest.read_bytes()
(release / "stab.gz").write_bytes(packed + b"x")
gave("what follows the program in its file is no part of it", "released")
for name, file, data in (
        ("another program", "stab.gz", gzip.compress(b"#!/bin/sh\necho spoiled\n")),
        ("half a program", "stab.gz", packed[:40]), ("no program", "stab.gz", None),
        ("a manifest without a digest", "MANIFEST", lines.replace(b"sha256 ", b"sha256 x")),
        ("a manifest with a long digest", "MANIFEST", lines.replace(b"sha256 ", b"sha256 012")),
        ("a manifest with another line", "MANIFEST", lines + b"more\n"),
        ("an empty manifest", "MANIFEST", b""),
        ("the digest of another program", "MANIFEST",
         re.sub(b"sha256 [0-9a-f]*", f"sha256 {digest(b'another')}".encode(), lines)),
        ("no manifest", "MANIFEST", None)):
    remove(release / file)
    if data is not None:
        (release / file).write_bytes(data)
    refused(f"{name}: nothing runs", "there is no release" if name == "no manifest" else
            "the release is spoiled")
    restore("release")

# The second program, of a crate beside that of the first one.
refused("a program of a crate that is not listed is refused", "crates.txt lists no crate",
        **RIGNOLDA)
text("rignolda", "second")
change("crates.txt", r"\Z", "rignolda: mid\n")
refused("a release without a program runs nothing for it", "the release has no rignolda",
        **RIGNOLDA)
gave("beside which the first one runs", "released")
make_release("released")
holds("both are released together",
      [it.split()[0] for it in manifest.read_text().splitlines()] == ["kit", "stab", "rignolda"])
gave("and the second one runs at once", "second", "one", **RIGNOLDA)
text("other", "changed")
refused("sources of the first one alone, when changed, stop that one",
        "the sources are not those of the release")
gave("and not the second one", "second", **RIGNOLDA)
text("other", "other")
shutil.copytree(release, work / "both")
(release / "stab.gz").replace(release / "rignolda.gz")
refused("one program in the place of the other does not run", "the release is spoiled",
        **RIGNOLDA)
restore("both")
change(manifest, "^(rignolda .*\n)", r"\1\1")
refused("nor does any where the manifest has a line twice",
        "the release is spoiled: its MANIFEST is none", **RIGNOLDA)
restore("both")
remove(work / "without/gzip")
refused("without gzip that is said", "the command gzip is needed")
(work / "without/gzip").symlink_to(shutil.which("gzip"))
remove(work / "without/uname")
command(work / "without/uname", "echo Darwin arm64")
refused("on another system it is said what is needed", "for Linux on x86-64 and arm64,"
        " and this is Darwin arm64")

# On arm64 the program of the release for it runs.
command(work / "arm64/uname", "echo Linux aarch64")
ARM64 = {"PATH": f"{work}/arm64:{house.env['PATH']}"}
house.bring("tools/launch")
refused("on arm64 it is said that a release has nothing for it",
        f"the release has no arm64/stab{BUILDS}", **ARM64)
house.musl("musl", "x86_64", "aarch64")
make_release("released")
remove(release / "stab.gz")
stab("one", **ARM64)
holds("and else its program runs",
      house.ended.status == 7 and house.ended.out.endswith("; one; in\n"))
sys.exit(house.sum_up())
