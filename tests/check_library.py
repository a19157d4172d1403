#!/usr/bin/env -S python3 -B
"""Tests the static library from C and from Rust.

  tests/check_library.py             with each of gcc, clang and cargo that is there, and with
                                     sanitizers: some minutes
  tests/check_library.py --gate      with the kit's compiler alone: two minutes

LIBRARY and INCLUDE in the environment name another archive and the folder of its header. The last
line is 'N passed, M failed'.
"""
import os
import re
import shutil
import sys
import tempfile
from pathlib import Path

from programs import TOP, Cases, paragraphs, ran
import try_check_report
from compare import drawn, runs
from crates import clang

ARCHIVES = "crates/stab_c/out/libstab_c.a", "release/librignolda.a", "release/libstab_c.a"
CARGO = "rust/rignolda/Cargo.toml"
WARNED, INLINE = ("-Wall", "-Wextra", "-Werror"), "-DRIGNOLDA_INLINE"
IN_C = "-std=gnu11", "-O2", *WARNED
# The rows of the header's table of what to call when nothing comes: each of them is needed.
ROWS = "connection", "number", "child", "sender", "receiver", "list"


class Library(Cases):
    """The archive that is tested, and a folder for what is built."""

    def __init__(self, room):
        super().__init__()
        self.room, self.include = room, Path(os.environ.get("INCLUDE", "include")).resolve()
        named = [os.environ.get("LIBRARY"), *filter(os.path.isfile, ARCHIVES), ARCHIVES[0]]
        self.archive = Path(next(filter(None, named))).resolve()

    def make(self, *words):
        """What make does with the agents, over the archive."""
        return ran("make", "-s", "-C", "agents", f"INCLUDE={self.include}",
                   f"LIBRARY={self.archive}", *words)

    def in_c(self, name, rounds, jobs, words):
        """Builds the programs in C by the words of a compiler, and runs them."""
        tests = "link", "sessions", "arrives"
        at = {test: self.room / test for test in tests}
        for test, to in at.items():
            # (the source before the archive, which a linker reads in this order)
            self.works(f"{name}: {test} builds", words[0], f"tests/library/{test}.c", *words[1:],
                       "-o", to)
        self.has_none(f"{name}: the drawn runs", runs(at["link"]))
        self.has_none(f"{name}: {jobs} drawn links", drawn(at["link"], jobs))
        self.works(f"{name}: ends over connections that do what they may", at["sessions"])
        self.works(f"{name}: items arrive from all bits", at["arrives"], rounds, "1")
        for word in ROWS:
            status, said = ran(at["arrives"], "1000", "1", "without", word)
            self.holds(f"{name}: without this row of the table they do not ({word})",
                       status == 1 and not said.endswith(" after 0 of them items do not arrive\n"),
                       said)
        for word in "maker-begins", "handles-left", "keeps-one":
            status, said = ran(at["sessions"], word)
            self.holds(f"{name}: ends that do what they may not ({word})",
                       status == 1 and said.startswith("broken: "), said)

    def in_both(self, name, rounds, words):
        """Compares each call of the archive with the inline one, which is by hand: each says what
        the other has to do."""
        made = self.room / "both"
        self.works(f"{name}: both forms build", words[0], "tests/library/both.c",
                   "tests/library/inline.c", *words[1:], "-o", made)
        self.works(f"{name}: each call does what the inline one does", made, *rounds.split())

    def has_same(self, name, declared, there):
        """Counts whether two lists of calls are the same."""
        self.holds(name, declared and sorted(declared) == sorted(there),
                   str(set(declared) ^ set(there)))

    def has_all_calls(self):
        """Whether both forms are compared in every call of the header, and whether the header of
        settings declares what its archive has, in C and in C++."""
        header = self.include / "rignolda_settings.h"
        self.has_same("both forms are compared in every call",
                      re.findall(r"^RIGNOLDA_CALL \w+ (\w+)\(",
                                 (self.include / "rignolda.h").read_text(), re.M),
                      ["rignolda_" + it for it in re.findall(
                          r"\bCALL\((\w+)\)\(", Path("tests/library/calls.h").read_text())])
        names = ran("nm", "--extern-only", "--defined-only", "release/librignolda_settings.a")[1]
        self.has_same("the header of settings declares the calls of its archive",
                      re.findall(r"^\w+ (rignolda_\w+)\(", header.read_text(), re.M),
                      re.findall(r" T (\w+)$", names, re.M))
        for kind in ["c", "-std=c11", "-pedantic"], ["c++", "-std=c++11"]:
            self.works(f"the header of settings in {kind[1][5:]}", clang()[0], *WARNED, "-nostdinc",
                       "-isystem", "tests/library/bare", "-fsyntax-only", "-x", *kind, header)

    def by_python(self):
        """What is tested without a compiler."""
        self.has_none("the checker of reports", try_check_report.wrong())
        (self.room / "file").touch()
        for it in paragraphs(TOP / "tests/library/refused"):
            (name,), (text,), (words,) = it["name"], it["says"], it["words"]
            words = [it.format(room=self.room) for it in words.split()]
            status, said = ran("agents/run_tree", "--agent", "/bin/sh", *words)
            last = said.rstrip("\n").rpartition("\n")[2]
            self.holds(f"agents: {name}", status == 2 and "run_tree: error: " in last
                       and last.endswith(text.format(room=self.room)), said)

    def is_closed(self):
        """Whether the archive has no undefined symbol, and no name without the prefix."""
        undefined, defined = (ran("nm", *words, "--", self.archive)[1] for words in (
            ["-u"], ["--extern-only", "--defined-only"]))
        names = re.findall(r"^\w+ \w (\S+)", defined, re.M)
        self.holds("no symbol is undefined, and all have the prefix", " U " not in undefined
                   and names and all(it.startswith("rignolda_") for it in names),
                   undefined + defined)

    def is_installed(self, name, compiler):
        """Installs the library as `make install` does, and builds and runs a program in C++ by what
        pkg-config says of it, over the shared library and over the archive."""
        to = self.room / "installed"
        words = "make", "-s", f"PREFIX={to}", f"LIBRARY={self.archive}"
        env = {**os.environ, "PKG_CONFIG_PATH": f"{to}/lib/pkgconfig",
               "LD_LIBRARY_PATH": f"{to}/lib"}
        self.works(f"{name} is installed", *words, "install")
        flags = ran("pkg-config", "--cflags", "--libs", "rignolda", env=env)[1].split()
        for kind, more in ("shared", []), ("static", ["-static"]):
            made = self.room / kind
            self.works(f"{name}: {kind}, it builds by pkg-config", compiler, "-std=c++11", *WARNED,
                       "tests/library/tree.cc", *more, *flags, "-o", made)
            status, said = ran(made, env=env)
            is_shared = " rignolda_" in ran("nm", "-u", "--", made)[1]
            self.holds(f"{name}: {kind}, it runs", (status, said) == (0, "7\n8\n9\n")
                       and is_shared == (kind == "shared"), said)
        self.works(f"{name} is gone again", *words, "uninstall")
        self.holds(f"{name} leaves nothing", not any(it.is_file() for it in to.rglob("*")))

    def gate(self):
        words = clang("-std=gnu11", "-nostdinc", "-isystem", "tests/library/bare",
                      f"-I{self.include}", "-fsanitize=undefined", "-fsanitize-trap=undefined")
        self.in_c("the kit", "20000", 300, [*words, self.archive])
        self.in_both("the kit", "100000 1", [*words, self.archive])
        self.has_all_calls()
        self.by_python()
        for name, file in (("librignolda.a", "rignolda/lib/{}-linux.a"),
                           ("librignolda_settings.a", "rignolda_machine/lib/{}-linux-settings.a")):
            for machine, folder in ("x86_64", ""), ("aarch64", "arm64/"):
                self.works(f"the crate for Rust has {folder}{name} of the release", "cmp",
                           f"rust/{file.format(machine)}", f"release/{folder}{name}")
        self.works("all of the archive needs nothing else", clang()[0], "-nostdlib", "-static",
                   "-fuse-ld=lld", "-Wl,--whole-archive", self.archive,
                   "-Wl,-e,rignolda_params_check", "-o", self.room / "alone")

    def whole(self):
        for name, plus in ("gcc", "g++"), ("clang", "clang++"):
            if not shutil.which(name):
                continue
            words = [name, *IN_C, "-Wconversion", f"-I{self.include}", "-Wl,--as-needed"]
            safe = [*words, "-g", "-fsanitize=address,undefined", "-fno-sanitize-recover=all"]
            self.in_c(name, "1000000", 10000, [*words, self.archive])
            self.in_c(f"{name}, sanitizers", "200000", 2000, [*safe, self.archive])
            for form, more in ("", []), (", inline", [INLINE]):
                for kind in ["c++", "-std=c++11"], ["c", "-std=c11", "-pedantic"]:
                    self.works(f"{name}{form}: the header in {kind[1][5:]}", name, "-x", *kind,
                               *WARNED, "-Wconversion", *more, "-fsyntax-only",
                               self.include / "rignolda.h")
            self.in_both(name, "1000000 1", [*words, self.archive])
            self.in_both(f"{name}, sanitizers", "200000 2 all", [*safe, self.archive])
            if shutil.which("pkg-config"):
                self.is_installed(name, plus)
        self.is_closed()
        self.has_all_calls()
        if shutil.which("cargo"):
            self.in_rust()
        self.by_python()
        said = self.make("help", "LIBRARY=")[1]
        self.holds("agents: what make can do", re.search("^ +make spoiled +the same agents", said,
                                                         re.M), said)
        status, said = self.make("run")
        self.holds("agents: make run", status == 0, said)
        for what in "runs", "restarts":
            self.works(f"agents: 20 drawn trees ({what})", "agents/trials", what, "20")
        status, said = self.make("spoiled")
        self.holds("agents: spoiled ones are caught", status == 0 and said.count("\n") == 10
                   and said.count(": caught, as it has to be") == 9, said)

    def in_rust(self):
        own = {**os.environ, "CARGO_TARGET_DIR": str(self.room / "cargo")}
        own.pop("RIGNOLDA_LIBRARY", None)
        env = {**own, "RIGNOLDA_LIBRARY": str(self.archive)}
        link = self.room / "cargo/release/examples/link"
        for name, env, *words in (
                ("tests and examples", env, "test"),
                ("the link builds", env, "build", "--release", "--example", "link"),
                ("the package builds by itself", own, "package", "--allow-dirty")):
            self.works(f"cargo: {name}", "cargo", *words, "--offline", "--quiet",
                       "--manifest-path", CARGO, env=env)
        self.has_none("cargo: the drawn runs", runs(link))
        self.has_none("cargo: 10000 drawn links", drawn(link, 10000))


def main(words):
    does = {(): Library.whole, ("--gate",): Library.gate}
    if tuple(words) not in does:
        sys.stderr.write("check_library.py: it takes --gate, or no words at all\n")
        return 2
    os.chdir(TOP)
    with tempfile.TemporaryDirectory() as room:
        library = Library(Path(room))
        does[tuple(words)](library)
    return library.sum_up()


if __name__ == "__main__":
    sys.exit(main(sys.argv[1:]))
