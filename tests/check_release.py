#!/usr/bin/env -S python3 -B
"""Tests the script ./release.sh in a copy of its own, with small commands in the place of rt:
nothing is proved, and nothing of this repository is touched. What ./stab makes of a release is
tested by check_stab.py. The last line is 'N passed, M failed'.
"""
import contextlib
import fcntl
import filecmp
import gzip
import re
import shutil
import subprocess
import sys

from house import House, digest, remove

house = House()
holds, top, work, write, command = house.holds, house.top, house.work, house.write, house.command
change, low = house.change, "crates/low/src/lib.rt"
release, manifest = top / "release", top / "release/MANIFEST"
program = top / "crates/stab_cli/src/main.rt"
made = top / "crates/stab_cli/out/stab_cli.by-rattle"

# A house of two crates, the pages and the examples.
write(low, "low\n")
write(program, "proved 1\n")
write("crates.txt", "low:\nstab_cli: low\n")
write("HANDLES", "Handles allowed: none.\n")
for file in ("README.md", "docs/A.md", "docs/B.md", "crates/low/data/job.json",
             "crates/low/data/runs/a.json"):
    write(file, f"{file}\n")
(top / "examples").symlink_to("crates/low/data")
write("CHANGELOG.md", "# Changelog\n\nText.\n\n## 0.10.2, 2026-11-23: a release\n\n"
      "## 2026-11-22: before\n")
house.bring_kit()
house.kit("kit-1 logic 1")


@contextlib.contextmanager
def having(files):
    """Gives files of the house other texts, or bytes, for a while."""
    before = {path: (top / path).read_bytes() if (top / path).exists() else None for path in files}
    for texts in files, before:
        for path, data in texts.items():
            remove(top / path)
            if data is not None:
                write(path)
                (top / path).write_bytes(data if isinstance(data, bytes) else data.encode())
        if texts is files:
            yield


def run(*words, files=(), **env):
    """Runs ./release.sh, where these files have these texts, and notes how it ended."""
    write(work / "calls")
    with having(dict(files)):
        return house.run(top / "release.sh", *words, TMPDIR=str(house.temporary), **env)


def well(calls):
    """Whether it ended well, and left nothing, after so many calls of rt."""
    return (house.ended.status == 0 and house.read("calls").count("\n") == calls
            and house.left_nothing())


def released(name, calls, *words):
    """Makes a release, which has to end well after so many calls of rt."""
    run(*words)
    holds(name, well(calls))


def refused(name, text, *words, **files):
    """Whether it ends with status 3, and says so."""
    ended = run(*words, **files)
    holds(name, ended.status == 3 and text in ended.err and house.left_nothing())


def checked(name, passed, *others, **more):
    """Whether the check ends with so many cases that hold, and names just these as other ones."""
    ended = run("--check", **more)
    holds(name, ended.last == f"{passed} passed, {len(others)} failed"
          and re.findall("^OTHER  (.*)", ended.out, re.M) == [*others]
          and ended.status == bool(others) and house.left_nothing())


def same(one, other):
    return subprocess.run(["diff", "-r", one, other], stdout=subprocess.DEVNULL).returncode == 0


def keep():
    remove(work / "release")
    shutil.copytree(release, work / "release")


def more(path, text="more\n"):
    """A file of the house with more at its end."""
    return {path: (top / path).read_text() + text}


def names_in(archive):
    """The names in an archive, without the folder that it has."""
    said = subprocess.run(["tar", "-tf", archive], capture_output=True, text=True, check=True)
    return [name.partition("/")[2] for name in said.stdout.splitlines()]


def sums_are_right(folder):
    said = subprocess.run(["sha256sum", "-c", "--quiet", "SHA256SUMS"], cwd=folder)
    return said.returncode == 0


WHOLE, MANIFEST, KIT = ("release/ has its files", "the manifest is one",
                        "this kit built it, or builds the same")


def of(name):
    """The cases of an artefact: its sources, its file, and whether that was built again."""
    return [f"{name}: {case}" for case in (
        "the manifest names these sources", "the manifest names the file beside it",
        "the file is what was just built, byte for byte")]


SOURCES, BESIDE, EQUAL = of("stab")
SAME_OBJECT = "stab: the object in the file is what was just built, byte for byte"
checked("without a release the check fails", 0, WHOLE, MANIFEST, SOURCES, BESIDE, EQUAL, KIT)
holds("and says what to do", "run ./release.sh and commit" in house.ended.out)
refused("nor is there an archive", "there is no release: run ./release.sh first", "--archive")
released("a release is built where nothing was", 1)
holds("it says how far it is", "stab_cli is proved: 2 of 2 crates" in house.ended.err)
holds("what it builds is what is needed", house.read("files").split() == [
    "./HANDLES", "./crates.txt", *(f"./crates/{it}" for it in (
        "low/data/job.json", "low/data/runs/a.json", "low/src/lib.rt", "stab_cli/src/main.rt"))
] and house.read("lines") == "low:\nstab_cli: low\n")
lines = manifest.read_text().splitlines()
holds("and is one", sorted(it.name for it in release.iterdir()) == ["MANIFEST", "stab.gz"]
      and gzip.decompress((release / "stab.gz").read_bytes()) == program.read_bytes()
      and lines[0] == "kit kit-1 logic 1" and len(lines) == 2
      and re.fullmatch(f"stab sha256 {digest(program)} sources [0-9a-f]{{64}} compared with "
                       f"kit-1 logic 1 and musl {digest(b'musl' * 4)}", lines[1]))
linked = house.read("linked")
holds("whose program can be placed anywhere, needs nothing, and has its object's digest inside",
      all(f" {it} " in f" {linked}" for it in (
          "-static", "-pie", "--no-dynamic-linker", "--wrap=main",
          f"--build-id=0x{digest(program)}")))
keep()
write("release/notes", "more\n")
released("a second one is made by what rt has proved before", 1)
holds("and is the same, with no file more", house.read("calls") == "ci\n"
      and same(work / "release", release))
released("with --prove everything is built again", 1, "--prove")
holds("from nothing, whatever rt has proved before, and the same again",
      house.read("calls") == "ci --anew\n" and same(work / "release", release))
run("--prove", KEEPS="")
holds("to a kit that always does so, and knows no such word, none is said",
      house.read("calls") == "ci\n")
for number, status in ("TERM", 143), ("INT", 130), ("HUP", 129):
    with having({program: "slow\n"}):
        ended = house.interrupted(number, top / "release.sh", TMPDIR=str(house.temporary))
    holds(f"it ends at the signal {number}, with all that it started",
          ended.status == status and "interrupted" in ended.err and house.read("ended")
          and house.left_nothing() and same(work / "release", release))
for name, text, what in (
        ("what cannot be linked is not released", "the program was not built", {"NOT_LINKED": "1"}),
        ("what changes during a build is not released", "the sources have changed during the build",
         {"files": {program: "changes\n"}})):
    refused(name, text, "--prove", **what)
    holds("and the release stays", same(work / "release", release))
(work / "no_kit").mkdir()
for tool in "bash dirname env find python3 readlink sha256sum sort uname xargs".split():
    (work / "no_kit" / tool).symlink_to(shutil.which(tool))
refused("without rt there is no release", "the command rt of the Rattle kit is needed",
        PATH=str(work / "no_kit"))
checked("before the gate has built the program the check fails", 5, EQUAL)
write(made, "proved 1\n")
checked("a release that is the program that was built passes", 6)
OTHER_MADE = {made: "proved 1\nx"}
checked("another program fails", 5, EQUAL, files=OTHER_MADE)
checked("where rt ci has taken it from an earlier run, its object is made anew", 6)
remove(made.with_name(f"{made.name}.o"))
checked("and where that is not proved, it fails", 5, EQUAL, NOT_PROVED="1")
for text in "another", "":
    house.musl(text)
    checked(f"of another C library or none a program fails that is not of its object ({text})", 5,
            SAME_OBJECT)
    holds("which is said", "stab is NOT COMPARED as a whole" in house.ended.out)
    checked(f"and so does one that was not built ({text})", 5, EQUAL, files=OTHER_MADE)
    run("--prove")
house.musl("")
refused("without a C library there is no release", "Debian's package musl-dev is needed", "--prove")
house.musl("musl")
run("--prove", IDENTIFIED="1")
house.musl("another")
checked("of another C library a program passes that is of the object", 6)
holds("which is said as well", "stab is NOT COMPARED as a whole" in house.ended.out)
house.musl("musl")
run("--prove")
checked("other sources of what it calls fail", 5, SOURCES, files=more("tools/shims/kit.c"))
checked("other sources fail, also where the program is the same", 5, SOURCES, files=more(low))
refused("and are not packed", "the release of stab was made from other sources", "--archive",
        files=more(low))
house.kit("kit-2 logic 1")
checked("one of another kit passes where this kit builds the same", 6)
checked("and else fails", 4, EQUAL, KIT, files=OTHER_MADE)
house.kit("kit-1 logic 1")
checked("a third file fails", 5, WHOLE, files={"release/notes": "more\n"})
ANOTHER = {"release/stab.gz": gzip.compress(b"proved 2\n")}
checked("another program beside the manifest fails", 4, BESIDE, EQUAL, files=ANOTHER)
refused("and is not packed", "the release is spoiled", "--archive", files=ANOTHER)
packed = (release / "stab.gz").read_bytes()
checked("so does half a program", 4, BESIDE, EQUAL, files={"release/stab.gz": packed[:10]})
checked("and so does more than the program", 5, BESIDE, files={"release/stab.gz": packed + b"x"})
for name, text in (("a manifest of one line fails", lines[0] + "\n"),
                   ("and so does one with a long digest",
                    f"{lines[0]}\n{lines[1].replace(' sources ', '0 sources ')}\n")):
    holds(name, f"\nOTHER  {MANIFEST}\n" in run("--check", files={manifest: text}).out)
write(program, "proved 3\n")
write(made, "proved 3\n")
write(".git/rt-ci.lock")
with open(top / ".git/rt-ci.lock", encoding="utf-8") as lock:
    fcntl.flock(lock, fcntl.LOCK_EX)
    holds("none is made of it while rt ci still runs", run("--after-ci").status == 3
          and "rt ci runs here" in house.ended.err)
released("one is made of what the gate has just built", 0, "--after-ci")
holds("which is counted", house.ended.last == "1 passed, 0 failed")
checked("and it is that", 6)
shutil.copytree(release, work / "after")
remove(made)
holds("where that built nothing it fails", run("--after-ci").status == 1
      and house.ended.last == "0 passed, 1 failed")
holds("and the release stays", same(work / "after", release))
write(program, "proved 1\n")
write(made, "proved 1\n")
released("what is built again is as before", 0, "--after-ci")
holds("to the byte", same(work / "release", release))
refused("what is not proved is not released", "the program was not built",
        files={program: "broken\n"})
holds("and the release stays", same(work / "release", release))
released("an archive is packed", 0, "--archive")
archive = top / "out/rignolda-0.10.2-x86_64-linux.tar.xz"
shutil.copy(archive, work / "first.tar.xz")
holds("with the program, the pages, the examples and their digests", names_in(archive) == [
    "", "CHANGELOG.md", "README.md", "SHA256SUMS", "docs/", "docs/A.md", "docs/B.md", "examples/",
    "examples/job.json", "examples/runs/", "examples/runs/a.json", "stab"])
subprocess.run(["tar", "-C", work, "-xf", archive], check=True)
holds("its digests are right", sums_are_right(work / "rignolda-0.10.2-x86_64-linux"))
shutil.copytree(top, work / "b", symlinks=True, ignore=shutil.ignore_patterns("out"))
subprocess.run(f"chmod -R go-rwx '{work}/b'; find '{work}/b' -exec touch -d 2001-01-01 {{}} +",
               shell=True, check=True)
house.run("bash", "-c", 'umask 077; exec "$0" --archive', work / "b/release.sh")
holds("packed elsewhere, with other times and rights, it is the same", filecmp.cmp(
    work / "first.tar.xz", work / "b/out" / archive.name, shallow=False))
write("LICENSE", "licence\n")
run("--archive")
holds("a licence is packed, if there is one", "LICENSE" in names_in(archive))
refused("a date alone is no version", "the first heading of CHANGELOG.md has no version and date",
        "--archive", files={"CHANGELOG.md": "## 2026-11-23: no version\n"})
holds("another word is refused", run("--other").status == 2)

# A release of several things: two libraries for C and a module as well.
LIBRARY_SOURCES, LIBRARY_BESIDE, LIBRARY = of("librignolda.a")
SETTINGS_SOURCES, SETTINGS_BESIDE, SETTINGS = of("librignolda_settings.a")
MODULE_SOURCES, MODULE_BESIDE, MODULE = of("rignolda.wasm")
IN_PAGE = "rignolda.wasm: page/index.html has it"
write("crates/stab_c/src/lib.rt", "a library\n")
write("crates/rignolda_settings_c/src/lib.rt", "settings\n")
write("crates/stab_page/src/lib.rt", "a module\n")
change("crates.txt", r"\Z", "stab_c staticlib: low itoa\nrignolda_settings_c staticlib: low\n"
       "stab_page staticlib: low\n")
write("page/page.html", "<script>\nlet it = '{{MODULE}}';\n</script>\n")
for file in ("include/rignolda.h", "man/stab.1", "docs/schema/job.json", "agents/agent.c",
             "agents/out/agent", "rust/rignolda/src/lib.rs", "rust/rignolda/target/built",
             "rust/rignolda_machine/src/lib.rs"):
    write(file)
write("CHANGELOG.md", "## 1.2.0, 2026-11-24, later: of three\n")
CARGO = '[package]\nname = "it"\nversion = "1.2.0"\n\n'
write("rust/rignolda/Cargo.toml", CARGO)
checked("a release that lacks what crates.txt lists fails", 4, WHOLE, MANIFEST, LIBRARY_SOURCES,
        LIBRARY_BESIDE, LIBRARY, SETTINGS_SOURCES, SETTINGS_BESIDE, SETTINGS, MODULE_SOURCES,
        MODULE_BESIDE, MODULE, IN_PAGE)
released("a release of four is built from nothing, by one call", 1)
holds("the compiler gets the libraries of the kit and of the tree", re.search(
    "--extern low=/.*/crates/low/out/rlib/low.rlib --extern itoa=/.*/a kit/rlibs/itoa.rlib ",
    house.read("compiled")))
FILES = ["librignolda.a", "librignolda_settings.a", "rignolda.wasm"]
holds("and has four files and their lines",
      sorted(it.name for it in release.iterdir()) == ["MANIFEST", *FILES, "stab.gz"]
      and re.findall(r"^\S+", manifest.read_text(), re.M) == ["kit", "stab", *FILES])
for file, crate in zip(FILES, ("stab_c", "rignolda_settings_c", "stab_page")):
    holds(f"a library or a module lies there as it is ({file})", filecmp.cmp(
        release / file, top / f"crates/{crate}/src/lib.rt", shallow=False))
keep()
released("a second one is built", 1)
holds("and is the same", same(work / "release", release))
write(made, "proved 1\n")
checked("where rt ci has run, the library and the module are made and compared", 16)
holds("with no call of rt", well(0))
refused("but not where checks have left other libraries", "run ./gate", "--check",
        files={"crates/low/out/rlib/stamp": ""})
LIST = {"RELEASE_COMPILED": str(work / "list")}
for crate, counts in ("stab_c", "1 passed, 0 failed"), ("stab_cli", "0 passed, 0 failed"), (
        "stab_page", "1 passed, 0 failed"):
    holds(f"what rt ci makes no file of can be compiled before ({crate})",
          run("--compile", crate, **LIST).last == counts and house.ended.status == 0)
holds("but not what is not proved", run("--compile", "rignolda_settings_c", NOT_PROVED="1",
                                        **LIST).last == "0 passed, 1 failed")
refused("or nothing is made of", "nothing of a crate low", "--compile", "low")
write(work / "compiled")
checked("which the check then takes", 16, **LIST)
holds("with what it has to compile itself",
      re.findall("--crate-name (\\w+)", house.read("compiled")) == ["rignolda_settings_c"])
write("crates/stab_c/out/librignolda.a", "another\n")
checked("and compares", 15, LIBRARY, **LIST)
checked("where it was not in this run, it is compiled once more", 16)
write("crates/stab_c/out/librignolda.a", "a library\n")
write(work / "compiled")
checked("and where it was of other sources", 14, LIBRARY_SOURCES, LIBRARY, **LIST,
        files=more("crates/stab_c/src/lib.rt"))
holds("(it alone)", house.read("compiled").count("--crate-name stab_c ") == 1)
checked("others than those of the release fail", 13, LIBRARY, SETTINGS, MODULE, OTHER="1")
checked("and so do those that are not proved", 13, LIBRARY, SETTINGS, MODULE, NOT_PROVED="1")
SPOILED = more("release/librignolda.a")
checked("a library that is spoiled fails", 14, LIBRARY_BESIDE, LIBRARY, files=SPOILED)
refused("and is not packed", "the release is spoiled: its librignolda.a is not the one",
        "--archive", files=SPOILED)
checked("other sources of one fail for this one alone", 14, LIBRARY_SOURCES, LIBRARY,
        files=more("crates/stab_c/src/lib.rt"))
crates = (top / "crates.txt").read_text()
checked("and so does another line of its crate", 15, LIBRARY_SOURCES,
        files={"crates.txt": crates.replace("itoa", "itoa ryu")})
change("page/index.html", r"\Z", "more\n")
checked("another page fails", 15, IN_PAGE)
house.run(top / "tools/index_page.py")
checked("which is written anew by itself", 16)
checked("a file more than the crates give fails", 10, WHOLE, MANIFEST,
        files={"crates.txt": crates.replace("stab_page staticlib: low\n", "")})
write("crates/stab_c/src/lib.rt", "another library\n")
released("what has changed is built", 1)
checked("and released", 16)
refused("a crate for Rust of another version is not packed",
        "CHANGELOG.md has the version 1.2.0, and the crate rignolda for Rust 1.1.9", "--archive",
        files={"rust/rignolda/Cargo.toml": CARGO.replace("1.2.0", "1.1.9")})
command("tools/pages.py", 'echo claims >"$1"')
run("--archive")
archive = top / "out/rignolda-1.2.0-x86_64-linux.tar.xz"
said = subprocess.run(["tar", "-xOf", archive, "--wildcards", "*/docs/CLAIMS.md"],
                      capture_output=True)
holds("the page of claims is written into the archive", said.stdout == b"claims\n")
holds("the archive has all of it", [
    it for it in names_in(archive) if not re.search(r"/$|^$|^examples|^[A-Z]|\.md$", it)] == [
        "agents/agent.c", "docs/schema/job.json", "include/rignolda.h", "lib/librignolda.a",
        "lib/librignolda_settings.a", "man/stab.1", "page/index.html", "page/rignolda.wasm",
        "rust/rignolda/Cargo.toml", "rust/rignolda/lib/x86_64-linux.a",
        "rust/rignolda/src/lib.rs", "rust/rignolda_machine/lib/x86_64-linux-settings.a",
        "rust/rignolda_machine/src/lib.rs", "stab"])

# The daemon, whose programs another compiler makes.
DAEMON = ["rignoldad", "rignoldactl"]
command(house.bin / "cargo", """to=target/release
case $* in
    --version) echo cargo 1.0; exit ;;
    *--target-dir*) to=target/arm64/aarch64-unknown-linux-gnu/release ;;
esac
mkdir -p "$to"
for program in rignoldad rignoldactl; do
    cat "$program/src/main.rs" rignolda/lib/* rignolda_machine/lib/* >"$to/$program"
done""")
command(house.bin / "rustc", 'echo "rustc ${RUSTC:-1.0}"')
command(house.bin / "dpkg-deb", "")
for file in ("rust/Cargo.toml", "rust/Cargo.lock", "rust/rignolda/build.rs",
             "rust/rignolda_machine/build.rs", "tools/debian_crates"):
    write(file)
write("rust/rignoldad/src/main.rs", "a daemon\n")
write("rust/rignoldactl/src/main.rs", "a control\n")
write("rust/rignoldad/Cargo.toml", CARGO)
command("rust/rignoldad/packaging/make_deb", 'cat "$1/rignoldad" "$1/rignoldactl" "$1/stab" >"$4"\n'
        'echo "$2 $3 $SOURCE_DATE_EPOCH" >>"$4"')
house.bring("tools/build_daemon")
remove(top / "out")


def daemon(*words, files=(), **env):
    """Runs tools/build_daemon, where these files have these texts, and notes how it ended."""
    with having(dict(files)):
        return house.run(top / "tools/build_daemon", *words, **env)


def said(name, status, text, *words, **more):
    """Whether it ends with this status, and says this."""
    ended = daemon(*words, **more)
    holds(name, ended.status == status and text in ended.out)


NAMED = [case for program in DAEMON for case in of(program)[:2]]
checked("a release without the programs of the daemon fails", 14, WHOLE, MANIFEST, *NAMED)
refused("and is not packed", "the release of rignoldad was made from other sources: run "
        "tools/build_daemon --keep", "--archive")
said("they are said to be missing", 1, "run tools/build_daemon --keep", "--check")
lines = manifest.read_text().splitlines()[:5]
said("they are kept", 0, "", "--keep")
daemon("--keep")
sources = daemon("--sources").out.strip()
lines += [f"{it} sha256 {digest(top / 'rust/target/release' / it)} sources {sources} compared with "
          "rustc 1.0" for it in DAEMON]
holds("with lines of their own, each once", manifest.read_text().splitlines() == lines)
checked("then nothing is wrong", 20)
keep()
run()
holds("another release leaves them as they are", same(work / "release", release))
said("they are what is built of the sources", 0, "", "--check")
said("where another compiler built them they are not compared, which is no success", 4,
     "rignoldactl is NOT COMPARED: rustc 1.0 built it, not rustc 2.0", "--check", RUSTC="2.0")
house.bring("tests/check_daemon.py", "tests/programs.py")
for script in re.findall('"(check[a-z_]*.py)"', (top / "tests/check_daemon.py").read_text()):
    command(f"tests/daemon/{script}", "echo '0 passed, 0 failed'")
counts = []
for compiler in "1.0", "2.0":
    ended = house.run(top / "tests/check_daemon.py", RUSTC=compiler)
    found = re.fullmatch("([0-9]+) passed, ([0-9]+) failed", ended.last)
    counts.append([*map(int, found.groups())])
holds("the gate says so too, and does not count it", "NOT COMPARED" in ended.out
      and counts[0] == [counts[1][0] + 1, counts[1][1]])
# Somebody puts another program there, with its digest, and names another compiler.
ANOTHER = {"release/rignoldad.gz": gzip.compress(b"another\n")}
said("another program is found by its digest", 1, "rignoldad.gz is not what its MANIFEST says",
     "--check", files=ANOTHER)
NAMES = {manifest: re.sub("(?<=rignoldad sha256 ).{64}", digest(b"another\n"),
                          manifest.read_text())}
said("and with its digest by its bytes", 1, "another rignoldad than these sources give", "--check",
     files={**ANOTHER, **NAMES})
said("and with another compiler it is not taken for compared", 4,
     "rignoldad is NOT COMPARED: rustc 2.0 built it, not rustc 1.0", "--check",
     files={**ANOTHER, manifest: NAMES[manifest].replace("rustc 1.0", "rustc 2.0")})
said("another digest is found", 1, "rignoldad.gz is not what its MANIFEST says", "--check",
     files=NAMES)
checked("here too", 19, NAMED[1], files=NAMES)
(work / "unpacked").mkdir()
said("and it is not unpacked", 1, "is not what its MANIFEST says", "--unpack", work / "unpacked",
     files=NAMES)
daemon("--unpack", work / "unpacked")
holds("the right ones are", same(top / "rust/target/release", work / "unpacked"))
OTHERS = more("rust/rignoldad/src/main.rs")
said("other sources are found", 1, "has a rignoldad of other sources", "--check", files=OTHERS)
checked("for both", 18, NAMED[0], NAMED[2], files=OTHERS)
daemon()
refused("a daemon of another version is not packed",
        "CHANGELOG.md has the version 1.2.0, and the crate rignoldad for Rust 1.1.9", "--archive",
        files={"rust/rignoldad/Cargo.toml": CARGO.replace("1.2.0", "1.1.9")})
run("--archive")
holds("the archive has the programs, and what installs them", [
    it for it in names_in(archive) if re.search("rignolda[dc]", it) and it[-1] != "/"] == [
        "rignoldactl", "rignoldad", "rust/rignoldad/Cargo.toml",
        "rust/rignoldad/packaging/make_deb"])
# (the first second of 24 November 2026)
holds("a package is made of the same programs, of the day of the version",
      (top / "out/rignoldad_1.2.0_amd64.deb").read_text() == "".join(
          (top / "rust/target/release" / it).read_text() for it in DAEMON)
      + program.read_text() + "1.2.0 amd64 1795478400\n")
holds("both have their digests beside them", sums_are_right(top / "out")
      and (top / "out/SHA256SUMS").read_text().count("\n") == 2)

# For arm64 too: its compilers come from Debian's packages.
command(house.bin / "apt-get", """[ -z "${NO_DEBIAN-}" ] || exit 1
tools="$WORK/a house/out/debian-amd64/usr"
mkdir -p "$tools/bin" "$tools/lib/rustlib"
printf '#!/bin/sh\\necho rustc 3.0\\n' >"$tools/bin/rustc"
chmod 755 "$tools/bin/rustc" """)
house.bring("tools/launch")
house.musl("musl", "x86_64", "aarch64")
BUILT = [f"arm64/{it}" for it in ("stab", "librignolda.a", "librignolda_settings.a")]
BY_CARGO = [f"arm64/{it}" for it in DAEMON]
checked("a release that has nothing for arm64 fails", 18, WHOLE, MANIFEST,
        *[case for it in BUILT for case in of(it)],
        *[case for it in BY_CARGO for case in of(it)[:2]])
house.env["IDENTIFIED"] = "1"
refused("and is not packed", "the release of arm64/stab was made from other sources", "--archive")
for musl, text in ("", "Debian's package musl-dev is needed for arm64"), ("musl", ""):
    house.musl(musl, "aarch64")
    run("--prove")
    holds(f"a release of both needs the C library of both ({musl})",
          house.ended.status == (0 if musl else 3) and text in house.ended.err)
said("without Debian's compilers there is no daemon for arm64", 3,
     "Debian's compilers for arm64 cannot be had here", "--arm64", NO_DEBIAN="1")
said("with them there is", 0, "", "--arm64", "--keep")
said("which is what is built again", 0, "", "--arm64", "--check")
holds("by their compilers", re.findall("^arm64/rignoldad .* compared with (.*)$",
                                       manifest.read_text(), re.M) == ["rustc 3.0, cargo 1.0"])
checked("then nothing is wrong", 33)
compiled = house.read("compiled")
holds("each was compiled for its machine", compiled.count("--target aarch64-unknown-linux-gnu") >= 3
      and compiled.count("--target x86_64-unknown-linux-gnu") >= 2)
holds("and the crates for Rust have the archives of both", sorted(
    f"{it.parent.parent.name} {it.name}" for it in (top / "rust").glob("*/lib/*")) == [
        f"{crate} {machine}-linux{part}.a"
        for crate, part in (("rignolda", ""), ("rignolda_machine", "-settings"))
        for machine in ("aarch64", "x86_64")])
sources = daemon("--sources").out
OTHERS = more("rust/rignolda/lib/aarch64-linux.a")
holds("an archive is one of the sources of its own machine's daemon alone",
      daemon("--sources", files=OTHERS).out == sources)
checked("and of that", 31, *[of(it)[0] for it in BY_CARGO], files=OTHERS)
checked("what was built before for arm64 is not built again", 33)
remove(work / "compiled")
checked("which is the same", 33)
holds("(the others are)", house.read("compiled").count("aarch64") == 0
      and house.read("compiled").count("x86_64") > 0)
remove(top / "out")
for text in "another", "":
    house.musl(text, "aarch64")
    checked(f"of another C library or none one for arm64 passes that is of the object ({text})", 33)
    holds("which is said", "arm64/stab is NOT COMPARED as a whole" in house.ended.out)
house.musl("musl", "aarch64")
checked("another program for arm64 fails", 31, *of("arm64/stab")[1:],
        files={"release/arm64/stab.gz": gzip.compress(b"proved 2\n")})
run("--archive")
holds("there are an archive and a package of both", sums_are_right(top / "out")
      and re.findall("  (.*)$", (top / "out/SHA256SUMS").read_text(), re.M) == [
          "rignolda-1.2.0-x86_64-linux.tar.xz", "rignoldad_1.2.0_amd64.deb",
          "rignolda-1.2.0-aarch64-linux.tar.xz", "rignoldad_1.2.0_arm64.deb"])
holds("with the same names inside", *[names == others for names, others in [[
    names_in(top / f"out/rignolda-1.2.0-{it}-linux.tar.xz") for it in ("x86_64", "aarch64")]]])
sys.exit(house.sum_up())
