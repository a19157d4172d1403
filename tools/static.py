"""Links a program that needs no C library where it runs, since the C library musl is inside: for
Linux on x86_64 or aarch64, of the object that the compiler of the kit has made.

The compiler and the linker are those of the kit. What a program calls and musl has not is in
tools/shims. musl is that of Debian's package musl-dev: the one that is installed, or else one
that is unpacked in out/, where apt-get has it. RIGNOLDA_MUSL names a folder of others: in it, each
by the name of an architecture, a folder with lib/ and include/.
"""
import hashlib
import os
import subprocess
import tempfile
from collections import namedtuple
from pathlib import Path

import debian
from crates import kit

SHIMS = [*map(Path(__file__).resolve().parent.joinpath, ("shims/kit.c", "shims/processor.c"))]
# What Debian calls an architecture.
DEBIAN = {"x86_64": "amd64", "aarch64": "arm64"}
# The files of musl that a program is linked with, in this order: its objects stand before the last
# two.
FILES = "rcrt1.o", "crti.o", "libc.a", "crtn.o"
# The bytes of each thread's stack, as glibc has it: that of musl is 128 KiB, and a program may need
# more.
STACK = 8 << 20

# A C library: its folders, and what it is called.
Library = namedtuple("Library", "lib include name")


def digest_of(data):
    return hashlib.sha256(data).hexdigest()


def musl(architecture):
    """musl for an architecture, or None where there is none."""
    part = f"{architecture}-linux-musl"
    named = os.environ.get("RIGNOLDA_MUSL")
    if named:
        lib, include = (Path(named, architecture, it) for it in ("lib", "include"))
    else:
        home = Path("/")
        if not Path("/usr/lib", part, "libc.a").is_file():
            home = debian.unpacked(DEBIAN[architecture], "musl-dev")
        if not home:
            return None
        lib, include = home / "usr/lib" / part, home / "usr/include" / part
    if not all((lib / it).is_file() for it in FILES):
        return None
    data = b"".join((lib / it).read_bytes() for it in FILES)
    return Library(lib, include, f"musl {digest_of(data)}")


def compiled(library, architecture, source, to, *words):
    """The words that compile a file of C over musl."""
    own = ["-mno-outline-atomics"] if architecture == "aarch64" else []
    return [f"{kit()}/toolchain/bin/clang", f"--target={architecture}-unknown-linux-musl",
            "-std=gnu11", "-O2", "-fPIE", "-Wall", "-Wextra", "-Werror", "-nostdinc", "-isystem",
            library.include, *own, *words, "-c", source, "-o", to]


def linked(library, program, *files, options=()):
    """The words that link a program of these objects and musl. It can be placed anywhere in memory,
    and nothing of it that need not change can be written to."""
    first, second, archive, last = (library.lib / it for it in FILES)
    return [f"{kit()}/toolchain/bin/ld.lld", "-static", "-pie", "--no-dynamic-linker", "-z", "text",
            "-z", "relro", "-z", "now", "-z", "noexecstack", "-z", f"stack-size={STACK}",
            "--gc-sections", "--strip-all", *options, "-o", program, first, second, *files,
            archive, last]


def builds(library, architecture, program, sources, *words, first=(), last=(), options=(),
           does=lambda words: subprocess.call(words) == 0):
    """Links a program of these sources, which are compiled with these words, and of objects before
    and after them, and answers whether it does. Commands are run by `does`."""
    with tempfile.TemporaryDirectory() as room:
        objects = {source: f"{room}/{source.stem}.o" for source in sources}
        return all(does([*map(str, one)]) for one in (
            *(compiled(library, architecture, *it, *words) for it in objects.items()),
            linked(library, program, *first, *objects.values(), *last, options=options)))


def link(library, architecture, made, program, does):
    """The same of an object, whose digest is in the program, as its build identifier."""
    own = digest_of(Path(made).read_bytes())
    return builds(library, architecture, program, SHIMS, first=[made], does=does,
                  options=["--wrap=main", f"--build-id=0x{own}"])
