#!/usr/bin/env -S python3 -B
"""Builds what release/ has, and makes the release. ./release.sh starts it.

    tools/release.py            makes the files of release/ from the present sources. It takes what
                                rt ci has passed before on this machine, where the kit keeps that.
    tools/release.py --prove    the same, with all of it proved and built from nothing
    tools/release.py --after-ci
                                the same, of what rt ci has just proved and built here, as
                                ./gate --release does. The last line is 'N passed, M failed'.
    tools/release.py --check    compares release/ with what rt ci has just built, as the gate does.
                                The last line is 'N passed, M failed'.
    tools/release.py --compile CRATE
                                compiles what rt ci makes no file of, once rt ci has proved the
                                crates below this one. The last line is the same.
    tools/release.py --archive  packs the release with the pages and the examples for users, as a
                                file in out/, and its programs as a package for Debian, where
                                dpkg-deb is here. Both are the same, byte for byte, whoever packs
                                them, and out/SHA256SUMS has their digests.

What release/ has is in the table of tools/launch; a program is compressed. The file MANIFEST has
the line of the kit, and a line for each of these files: its name, the digest of what it holds,
unpacked if it is a program, the digest of its sources, and what it was compared with: the kit, with
the C library that is inside a program, or the compiler that gave the same bytes from these sources.
A program is linked by tools/static.py, of the object of which rt ci has linked its own; where there
is no such C library here, or another one, --check compares that object. The programs of the daemon
are made by tools/build_daemon --keep; --check sees that they and their sources are those of their
lines. What is compiled for arm64 takes minutes, and is kept beside a note of its sources and the
kit. Where RELEASE_COMPILED names a file, this is the list of what was compiled in this run of the
gate, which is not compiled once more. It needs Python 3.8.
"""
import contextlib
import fcntl
import functools
import os
import re
import shutil
import subprocess
import sys
import tempfile
import time
import zlib
from collections import namedtuple
from pathlib import Path

import index_page
import static
from crates import anew, below, compiler, kit, listed, read
from programs import Cases
from running import Commands, Interrupted
from static import digest_of

TOP = Path(__file__).resolve().parent.parent
RELEASE, KEPT = TOP / "release", TOP / "out"
LOG = KEPT / "build.log"
COMPILED = os.environ.get("RELEASE_COMPILED", "")
DAEMON = TOP / "tools/build_daemon"
WASM = "wasm64-unknown-unknown"
# The artefacts for arm64 have names that begin so; the others are for x86-64, or for a page.
ARM64 = "arm64/"
# The bytes of a module's stack: the lists of all links of a tree are on it, and copies of them.
STACK = "16777216"

# What release/ has: its kind, its crate, and the digest of its sources.
Artefact = namedtuple("Artefact", "kind crate sources")


def processor_of(name):
    """What an artefact is for, by its name."""
    return "aarch64" if name.startswith(ARM64) else "x86_64"


def target_of(name):
    return f"{processor_of(name)}-unknown-linux-gnu"


@functools.lru_cache
def library_for(name):
    """The C library that goes into a program, or None."""
    return static.musl(processor_of(name))


def output(*words, **options):
    """What a command writes, where it ends well."""
    return subprocess.run(words, check=True, stdout=subprocess.PIPE, **options).stdout


class Release(Commands):
    """The release and the present sources, and what runs."""

    def __init__(self):
        super().__init__()
        # What was built, by its names.
        self.room, self.fresh = None, {}
        # The digests of the objects of which programs were linked, by their names.
        self.objects = {}
        self.look()
        # (the programs of the daemon, where the daemon is here)
        parts = ["", ARM64] if any(it.startswith(ARM64) for it in self.artefacts) else [""]
        self.daemon = [part + it for part in parts for it in ("rignoldad", "rignoldactl")
                       if (TOP / "rust/rignoldad").is_dir()]

    def say(self, text):
        print(f"release: {text}", file=sys.stderr, flush=True)

    def fail(self, text):
        self.say(text)
        sys.exit(3)

    def look(self):
        self.artefacts, self.released = {}, {}
        said = subprocess.run(["bash", "-c", '. "$0/tools/launch"; tell', TOP],
                              stdout=subprocess.PIPE, text=True)
        if said.returncode:
            sys.exit(said.returncode)
        for line in said.stdout.splitlines():
            kind, *words = line.split("\t")
            if kind == "kit":
                self.kit, self.why, self.released_by = words
            elif kind == "artefact":
                self.artefacts[words[0]] = Artefact(*words[1:])
            else:
                self.released[words[0]] = tuple(words[1:])

    def sources(self, *more):
        """The digest of the sources of each artefact, and of these programs of the daemon."""
        found = {name: it.sources for name, it in self.artefacts.items()}
        for name in more:
            words = ["--arm64"] * name.startswith(ARM64)
            found[name] = output(DAEMON, *words, "--sources", text=True).strip()
        return found

    def file(self, name):
        is_program = name in self.daemon or self.artefacts[name].kind == "program"
        return RELEASE / (f"{name}.gz" if is_program else name)

    def contents(self, name):
        """What the file of an artefact holds, and whether it is whole and nothing follows it."""
        file = self.file(name)
        try:
            data = file.read_bytes()
            if file.suffix != ".gz":
                return data, True
            reader = zlib.decompressobj(31)
            return reader.decompress(data), reader.eof and not reader.unused_data
        except (OSError, zlib.error):
            return b"", False

    def is_named(self, name):
        """Whether an artefact of the release is the one that the manifest names."""
        data, is_whole = self.contents(name)
        return is_whole and digest_of(data) == self.released.get(name, "?")[0]

    # How it is built.

    def start(self, words, folder, **options):
        env = {name: value for name, value in os.environ.items() if name != "RT_BACKEND"}
        return super().start(words, cwd=folder, env=env, stderr=subprocess.STDOUT, **options)

    def does(self, words, folder):
        """Runs a command whose words go to the log, and answers whether it ends well."""
        with open(LOG, "a", encoding="utf-8") as log:
            return self.end(self.start(words, folder, stdout=log)) == 0

    def compile(self, tree, crate, source, to, *words):
        """Has the compiler prove and compile a crate over what rt ci has left of the libraries
        below it: the first file, the file to make, and what else the compiler is to be told."""
        # (beside rt ci no processor is free for a second job)
        jobs = "1" if COMPILED else "2"
        return self.does([*compiler("build", crate, source, tree), "--jobs", jobs, "-o", str(to),
                          *words], f"{tree}/crates/{crate}")

    def compile_own(self, tree, name):
        """Compiles an artefact that rt ci makes no file of, where that was not done yet: an archive
        for C, that of a module, or the object of a program for arm64. Answers its file, or None.
        The proofs of a crate are kept beside it, for its next artefact."""
        kind, crate = self.artefacts[name][:2]
        out = tree / f"crates/{crate}/out"
        to = out / (name.replace("/", "-") + {"program": ".o", "library": "", "module": ".a"}[kind])
        target = WASM if kind == "module" else target_of(name)
        words = ["--target", target, "--incremental", "out/compiled", "--backend", "llvm"]
        if kind != "program":
            words += ["--crate-type", "staticlib"]
        source = "src/main.rt" if kind == "program" else "src/lib.rt"
        # (of these sources, by this kit, in this file)
        line, note = f"{self.artefacts[name].sources} {self.kit} {to}", Path(f"{to}.of")
        for it in KEPT, out:
            it.mkdir(mode=0o755, exist_ok=True)
        with open(out / "compiled.lock", "a", encoding="utf-8") as lock:
            fcntl.flock(lock, fcntl.LOCK_EX)
            if line in read(COMPILED).splitlines() or to.is_file() and read(note) == (
                    f"{line} {digest_of(to.read_bytes())}"):
                return to
            if any((tree / f"crates/{it}/out/rlib/stamp").is_file()
                   for it in below(crate, listed())[:-1]):
                self.fail("checks have left other libraries here than rt ci does: run ./gate")
            for it in to, note:
                it.unlink(missing_ok=True)
            if not self.compile(tree, crate, source, to, *words) or not to.is_file():
                return None
            if COMPILED:
                with open(COMPILED, "a", encoding="utf-8") as them:
                    them.write(f"{line}\n")
            if name.startswith(ARM64):
                note.write_text(f"{line} {digest_of(to.read_bytes())}")
        return to

    def link(self, target, made, *files, options=()):
        """Has the linker of the kit make a file for this target, and answers whether it does."""
        home = kit()
        return self.does([f"{home}/bin/rattle-link", "--target", target, "--toolchain",
                          f"{home}/toolchain", *options, "-o", str(made), *files], made.parent)

    def is_object_of(self, made):
        """Whether the object beside a program is the one of which rt linked it, over glibc."""
        again, libraries = made.with_name(f"{made.name}.again"), ("libos_c.a", "liblibc_c.a")
        return (Path(f"{made}.o").is_file()
                and self.link(target_of(""), again, f"{made}.o",
                              *(f"{kit()}/c/{it}" for it in libraries))
                and again.read_bytes() == made.read_bytes())

    def make_static(self, name, made):
        """Links a program of the object beside the one that rt has made, so that it needs no C
        library, and answers its file, or None. Where there is none to link, it is that of rt, which
        makes none for arm64."""
        self.objects[name] = digest_of(Path(f"{made}.o").read_bytes())
        if not library_for(name):
            if not made.is_file():
                return None
            self.say("Debian's package musl-dev is not here: the program needs the C library glibc")
            return made
        to = made.with_name(f"{made.name}.static")
        is_well = static.link(library_for(name), processor_of(name), f"{made}.o", to,
                              lambda words: self.does(words, made.parent))
        return to if is_well else None

    def make_program(self, tree, name):
        """Makes a program of which rt ci has made its own, and answers its file, or None. rt ci may
        have taken that from an earlier run, with no object then."""
        crate = self.artefacts[name].crate
        made = tree / f"crates/{crate}/out/{crate}.by-rattle"
        is_well = made.is_file() and (self.is_object_of(made) or (
            self.compile(tree, crate, "src/main.rt", f"{made}.o", "--backend", "rattle")
            and self.is_object_of(made)))
        return self.make_static(name, made) if is_well else None

    def make_after_ci(self, tree, name):
        """Makes an artefact in a tree where rt ci has proved its crates, and answers its file, or
        None. rt ci has made the programs, each by two compilers; those of a release are made by
        Rattle's own. It makes no file of a library for C, and nothing for arm64."""
        kind = self.artefacts[name].kind
        if kind == "program" and not name.startswith(ARM64):
            return self.make_program(tree, name)
        compiled = self.compile_own(tree, name)
        if not compiled or kind == "library":
            return compiled
        made = compiled.with_suffix("")
        if kind == "program":
            return self.make_static(name, made)
        is_well = self.link(WASM, made, compiled, options=["--stack", STACK])
        return made if is_well and made.is_file() else None

    def compile_of(self, crate):
        """Compiles the artefacts of a crate that rt ci makes no file of."""
        cases = Cases()
        if crate not in (it.crate for it in self.artefacts.values()):
            self.fail(f"the release has nothing of a crate {crate}")
        for name, it in self.artefacts.items():
            if it.crate == crate and (it.kind != "program" or name.startswith(ARM64)):
                cases.holds(f"{name} is compiled", self.compile_own(TOP, name), f"see {LOG}")
        return cases.sum_up()

    def build_in_copy(self, is_anew):
        """Proves and builds the artefacts, as the gate does, in a copy of the sources: each crate
        once, side by side where they do not depend on each other."""
        crates, needed, proved, begin = listed(), [], 0, time.monotonic()
        for it in self.artefacts.values():
            below(it.crate, crates, needed)
        self.room = Path(tempfile.mkdtemp())
        shutil.copy(TOP / "HANDLES", self.room)
        (self.room / "crates.txt").write_text("".join(f"{crates[it].line}\n" for it in needed))
        for crate in needed:
            shutil.copytree(TOP / "crates" / crate, self.room / "crates" / crate, symlinks=True,
                            ignore=shutil.ignore_patterns("out", "must-fail"))
        with open(LOG, "a", encoding="utf-8") as log:
            process = self.start(["rt", "ci", *(anew() if is_anew else [])], self.room,
                                 stdout=subprocess.PIPE)
            for line in process.stdout:
                log.write(line)
                found = re.match(r"rt: ([a-z0-9_]+) (proved$|is kept:)", line)
                if found:
                    proved += 1
                    self.say(f"{found[1]} is proved: {proved} of {len(needed)} crates, after "
                             f"{int(time.monotonic() - begin) // 60} min")
            is_well = self.end(process) == 0
        for name in self.artefacts if is_well else ():
            made = self.make_after_ci(self.room, name)
            if not made:
                return False
            self.fresh[name] = made.read_bytes()
        self.remove_room()
        return is_well

    def remove_room(self):
        if self.room:
            # (what rt had started ends a moment after it)
            for _ in range(20):
                shutil.rmtree(self.room, ignore_errors=True)
                if not self.room.exists():
                    break
                time.sleep(0.1)
        self.room = None

    def begin(self):
        """Makes the folder of what is written on the way, if there is none, with an empty log."""
        KEPT.mkdir(mode=0o755, exist_ok=True)
        if not COMPILED:
            LOG.write_text("")

    def build(self, is_anew):
        """Proves and builds the artefacts. With `is_anew` this begins from nothing; else it takes
        what rt ci has passed before."""
        if not shutil.which("rt"):
            self.fail("the command rt of the Rattle kit is needed for a release")
        self.begin()
        self.say(f"proving and building {' '.join(self.artefacts)}{' from nothing' * is_anew}, "
                 "which takes up to half an hour")
        before = self.sources()
        if not self.build_in_copy(is_anew):
            self.fail(f"the program was not built, and what rt said is in {LOG}")
        self.look()
        if self.sources() != before:
            self.fail("the sources have changed during the build: run ./release.sh again")

    # How it is released.

    def write(self, files, lines):
        """Writes the files of the release and its manifest of these lines, and nothing else."""
        files[RELEASE / "MANIFEST"] = "".join(f"{line}\n" for line in lines).encode()
        for it in RELEASE.glob("*"):
            shutil.rmtree(it) if it.is_dir() and not it.is_symlink() else it.unlink()
        for file, data in files.items():
            file.parent.mkdir(parents=True, exist_ok=True)
            file.write_bytes(data)

    def copy_archives(self):
        """Copies the archives for the crates for Rust, which have those of their targets inside."""
        for name, it in self.artefacts.items():
            crate, part = ("_machine", "-settings") if "settings" in name else ("", "")
            to = TOP / f"rust/rignolda{crate}/lib"
            if it.kind == "library" and to.parent.is_dir():
                to.mkdir(exist_ok=True)
                shutil.copy(RELEASE / name, to / f"{processor_of(name)}-linux{part}.a")

    def make(self, is_anew):
        """Makes the files of release/, which are built first where that was not just done."""
        for name, it in self.artefacts.items():
            if it.kind == "program" and not library_for(name):
                self.fail("for a release Debian's package musl-dev is needed for "
                          f"{static.DEBIAN[processor_of(name)]}")
        if not self.fresh:
            self.build(is_anew)
        files, lines = {}, [f"kit {self.kit}"]
        for name, it in self.artefacts.items():
            data = self.fresh[name]
            files[self.file(name)] = (output("gzip", "-9n", input=data) if it.kind == "program"
                                      else data)
            own = f" and {library_for(name).name}" if it.kind == "program" else ""
            lines.append(f"{name} sha256 {digest_of(data)} sources {it.sources} compared with "
                         f"{self.kit}{own}")
        for name in self.daemon:
            if not self.why and name in self.released:
                if not self.file(name).is_file():
                    self.fail(f"the release has no {name}.gz: run tools/build_daemon --keep")
                files[self.file(name)] = self.file(name).read_bytes()
                lines.append("{} sha256 {} sources {} compared with {}".format(
                    name, *self.released[name]))
        # (what is no more of a release goes)
        self.write(files, lines)
        if any(it.kind == "module" for it in self.artefacts.values()):
            index_page.write()
        self.copy_archives()
        names = " ".join(self.artefacts)
        self.say(f"release/ has what these sources give ({names}); commit all of it")
        if self.daemon:
            self.say("the daemon has this library inside: where that differs, run "
                     "tools/build_daemon --keep")

    def is_proving(self):
        """Whether rt ci runs here: it has this lock until it ends."""
        with contextlib.suppress(FileNotFoundError, NotADirectoryError), \
                open(TOP / ".git/rt-ci.lock", encoding="utf-8") as lock:
            try:
                fcntl.flock(lock, fcntl.LOCK_EX | fcntl.LOCK_NB)
            except BlockingIOError:
                return True
        return False

    def make_over_ci(self):
        """Makes the files of release/ of what rt ci has just proved and built here."""
        self.begin()
        if self.is_proving():
            self.fail("rt ci runs here, and has not built all yet: wait until it ends")
        cases = Cases()
        for name in self.artefacts:
            made = self.make_after_ci(TOP, name)
            cases.holds(f"{name} is built", bool(made), f"see {LOG}")
            if made:
                self.fresh[name] = made.read_bytes()
        if not cases.failed:
            self.make(False)
        return cases.sum_up()

    def is_of_another_library(self, name):
        """Whether another C library than is here is in the program of the release."""
        named = re.search(" and (musl [0-9a-f]{64})$", self.released.get(name, ("",))[-1])
        library = library_for(name)
        return (self.artefacts[name].kind == "program" and bool(named)
                and (not library or library.name != named[1]))

    def cases(self):
        """Compares the release with what was just proved and built of the present sources: each
        case with whether it holds, and what is wrong if it does not."""
        wanted = {RELEASE / "MANIFEST", *map(self.file, [*self.artefacts, *self.daemon])}
        there = {it for it in RELEASE.rglob("*") if it.is_symlink() or not it.is_dir()}
        yield ("release/ has its files", there == wanted
               and all(it.is_file() and not it.is_symlink() for it in wanted),
               f"it has not exactly MANIFEST and a file for {' '.join(self.artefacts)}")
        yield ("the manifest is one", {*self.released} == {*self.artefacts, *self.daemon},
               f"{RELEASE}/MANIFEST is missing or spoiled, or lists other files")
        sources, differ = self.sources(*self.daemon), []
        for name in sources:
            yield (f"{name}: the manifest names these sources",
                   self.released.get(name, "??")[1] == sources[name],
                   f"run {self.maker(name)}" if name in self.daemon else
                   "the release was made from other sources")
            yield (f"{name}: the manifest names the file beside it", self.is_named(name),
                   "it is another one, or spoiled")
            if name in self.daemon:
                continue
            data = self.contents(name)[0]
            made = self.make_after_ci(TOP, name)
            what, is_same = "the file is", bool(made) and data == made.read_bytes()
            if name in self.objects and self.is_of_another_library(name):
                what = "the object in the file is"
                # (its digest is in the program, as its build identifier)
                is_same = bytes.fromhex(self.objects[name]) in data
                print(f"{name} is NOT COMPARED as a whole: in it is another C library than here")
            differ += [name] * (not is_same)
            yield (f"{name}: {what} what was just built, byte for byte", is_same,
                   f"it differs, or that was not built: see {LOG}")
            if self.artefacts[name].kind == "module":
                yield (f"{name}: page/index.html has it",
                       read(index_page.TO) == index_page.page(data), "run tools/index_page.py")
        yield ("this kit built it, or builds the same", self.released_by == self.kit or not differ,
               f"the release was built by another kit: {self.released_by}")

    def check(self):
        self.begin()
        cases = Cases()
        for case in self.cases():
            cases.holds(*case)
        if cases.failed:
            print("release: run ./release.sh and commit what it makes\n"
                  "release: where it makes the same again, run ./release.sh --prove")
        return cases.sum_up()

    def maker(self, name):
        if name not in self.daemon:
            return "./release.sh"
        return f"tools/build_daemon {'--arm64 ' * name.startswith(ARM64)}--keep"

    def pack(self, to, processor):
        """Puts the artefacts for a processor, and the modules, into the folder of an archive, and
        then the pages, the examples and what else is for users: the sources of agents and of the
        Rust crate too, which take the library from lib/ there."""
        sources = self.sources(*self.daemon)
        for name in sources:
            is_module = name not in self.daemon and self.artefacts[name].kind == "module"
            if processor_of(name) != processor and not is_module:
                continue
            if self.released.get(name, "??")[1] != sources[name]:
                self.fail(f"the release of {name} was made from other sources: run "
                          f"{self.maker(name)} first")
            if not self.is_named(name):
                self.fail(f"the release is spoiled: its {name} is not the one that its MANIFEST "
                          "names")
            is_program = self.file(name).suffix == ".gz"
            folder = "" if is_program else "lib/" if name.endswith(".a") else "page/"
            file = to / folder / name.rpartition("/")[2]
            file.parent.mkdir(parents=True, exist_ok=True)
            file.write_bytes(self.contents(name)[0])
            file.chmod(0o755 if is_program else 0o644)
        # (what was built there by hand stays)
        ignore = shutil.ignore_patterns("__pycache__", "out", "target")
        for part in ("README.md CHANGELOG.md examples LICENSE Makefile docs man completions "
                     "include agents install.sh Containerfile rust/rignolda rust/rignolda_machine "
                     "rust/rignoldad/Cargo.toml rust/rignoldad/packaging page/index.html").split():
            if (TOP / part).is_dir():
                shutil.copytree(TOP / part, to / part, ignore=ignore, dirs_exist_ok=True)
            elif (TOP / part).exists():
                (to / part).parent.mkdir(parents=True, exist_ok=True)
                shutil.copy(TOP / part, to / part)
        # (of what is inside programs)
        if (TOP / "tools/musl-licence.txt").exists():
            shutil.copy(TOP / "tools/musl-licence.txt", to)
        if (TOP / "tools/pages.py").exists():
            output(TOP / "tools/pages.py", to / "docs/CLAIMS.md")

    def package(self, folder, processor, version, day):
        """Makes the package for Debian, from the folder of an archive, and answers its name."""
        maker = folder / "rust/rignoldad/packaging/make_deb"
        if not os.access(maker, os.X_OK) or not shutil.which("dpkg-deb"):
            self.say("no package for Debian is made: there is no daemon or no dpkg-deb")
            return []
        kind = static.DEBIAN[processor]
        name = f"rignoldad_{version}_{kind}.deb"
        second = output("date", "-u", "-d", day, "+%s", text=True).strip()
        output(maker, folder, version, kind, KEPT / name, env={
            **os.environ, "SOURCE_DATE_EPOCH": second, "DPKG_DEB_COMPRESSOR_TYPE": "xz",
            "DPKG_DEB_COMPRESSOR_LEVEL": "6", "DPKG_DEB_THREADS_MAX": "1"})
        self.say(f"{KEPT}/{name}")
        return [name]

    def archive(self):
        """Packs the release. Its version is at the top of CHANGELOG.md, with the day, and that of
        the crates for Rust is the same."""
        if self.why:
            self.fail(f"{self.why}: run ./release.sh first")
        heading = re.search("^## .*$", read(TOP / "CHANGELOG.md"), re.M)
        found = heading and re.fullmatch(
            r"## ([0-9]+(?:\.[0-9]+){2}), ([0-9]{4}(?:-[0-9]{2}){2})(?:[,:].*)?", heading[0])
        if not found:
            self.fail("the first heading of CHANGELOG.md has no version and date")
        version, day = found.groups()
        for part in ("rignolda", "rignoldad", "rignoldactl"):
            own = re.search('^version = "(.*)"$', read(TOP / f"rust/{part}/Cargo.toml"), re.M)
            if own and own[1] != version:
                self.fail(f"CHANGELOG.md has the version {version}, and the crate {part} for Rust "
                          f"{own[1]}")
        KEPT.mkdir(mode=0o755, exist_ok=True)
        names = []
        for processor in sorted({*map(processor_of, self.artefacts)}, reverse=True):
            names += self.archive_for(processor, version, day)
        sums = "".join(f"{digest_of((KEPT / it).read_bytes())}  {it}\n" for it in names)
        (KEPT / "SHA256SUMS").write_text(sums)
        print(sums, end="")

    def archive_for(self, processor, version, day):
        """Packs what is for a processor, and answers the names of what it has made."""
        self.room = Path(tempfile.mkdtemp())
        folder = self.room / f"rignolda-{version}-{processor}-linux"
        folder.mkdir()
        self.pack(folder, processor)
        files = sorted(str(it.relative_to(folder)) for it in folder.rglob("*") if it.is_file())
        (folder / "SHA256SUMS").write_text(
            "".join(f"{digest_of((folder / it).read_bytes())}  {it}\n" for it in files))
        names = [f"{folder.name}.tar.xz"]
        output("tar", "-C", self.room, "--format=ustar", "--sort=name", f"--mtime={day} 00:00:00Z",
               "--owner=0", "--group=0", "--numeric-owner", "--mode=u=rwX,go=rX", "-I", "xz -T1",
               "-cf", KEPT / names[0], folder.name, env={**os.environ, "LC_ALL": "C"})
        self.say(f"{KEPT}/{names[0]}")
        names += self.package(folder, processor, version, day)
        self.remove_room()
        return names


def main(words):
    does = {(): lambda it: it.make(False), ("--prove",): lambda it: it.make(True),
            ("--after-ci",): Release.make_over_ci, ("--check",): Release.check,
            ("--archive",): Release.archive}.get(tuple(words))
    if words[:1] == ["--compile"] and len(words) == 2:
        does = lambda it: it.compile_of(words[1])
    if not does:
        sys.stderr.write("release: it takes one of --prove, --after-ci, --check, --compile CRATE "
                         "and --archive, or nothing\n")
        return 2
    release = Release()
    try:
        return does(release)
    except Interrupted:
        release.end_all()
        release.say("interrupted: nothing was built")
    except (OSError, subprocess.CalledProcessError) as fault:
        release.fail(str(fault))
    finally:
        release.remove_room()
    release.end_as_interrupted()


if __name__ == "__main__":
    sys.exit(main(sys.argv[1:]))
