#!/usr/bin/env -S python3 -B
"""Packages of Debian: what tests need is installed, where that may be; what is linked, or is for
another machine, is unpacked in out/debian-ARCHITECTURE, where nothing of the system is changed.

    tools/debian.py ARCHITECTURE PACKAGE..
        unpacks these packages of amd64 or arm64, with none of those that they depend on, and prints
        the folder; what is there already stays
    tools/debian.py --needed ARCHITECTURE PACKAGE..
        the same, with those that they depend on and that are not installed here
    tools/debian.py --install PACKAGE..
        installs these; the status is 1 where that may not be

apt-get fetches them by what this machine's lists of sources name, with a state of its own in out/
where the architecture is another one. To unpack them needs no rights.
"""
import fcntl
import os
import platform
import re
import shutil
import sys
import tempfile
from pathlib import Path

from programs import ran

OUT = Path(__file__).resolve().parent.parent / "out"
# Of the emulators of this package one is taken.
EMULATORS, EMULATOR = "qemu-user-static", "usr/bin/qemu-aarch64-static"
# What programs for arm64 load where they run.
LOADED = "libc6", "libgcc-s1", "libssl3"


def install(*packages):
    """Installs packages on this system, where that may be, and answers whether it has. Where there
    is no systemd, services of theirs are not started."""
    words = ["apt-get", "-q", "-y", "-o", "DPkg::Lock::Timeout=300", "--no-install-recommends",
             "install", *packages]
    env = {**os.environ, "DEBIAN_FRONTEND": "noninteractive", "RUNLEVEL": "1"}
    if os.getuid() or not shutil.which("apt-get"):
        return False
    # (a fresh machine has no list of packages yet)
    return not packages or ran(*words, env=env)[0] == 0 or (
        ran("apt-get", "-q", "update", env=env)[0] == 0 and ran(*words, env=env)[0] == 0)


def own_state(architecture, room):
    """The environment in which apt-get is one of another architecture, with lists of its own."""
    for part in "state/lists/partial", "cache/archives/partial":
        (room / part).mkdir(parents=True, exist_ok=True)
    (room / "apt.conf").write_text(
        f'APT::Architecture "{architecture}";\nAPT::Architectures {{ "{architecture}"; }};\n'
        f'Dir::State "{room}/state";\nDir::State::status "/dev/null";\n'
        f'Dir::Cache "{room}/cache";\n')
    return {**os.environ, "APT_CONFIG": str(room / "apt.conf")}


def below(packages, env):
    """These packages, and those that they depend on and that are not installed."""
    files = ran("apt-get", "-q", "-y", "--no-install-recommends", "--print-uris", "install",
                *packages, env=env)[1]
    return [*{*packages, *re.findall(r"^'\S+' ([a-z0-9.+-]+)_\S+\.deb ", files, re.M)}]


def fetch(architecture, packages, to, with_needed):
    """Fetches packages into a folder, and answers whether all of them came."""
    def comes(env):
        more = below(packages, env) if with_needed else packages
        return ran("apt-get", "-q", "download", *more, env=env, cwd=to)[0] == 0

    if ran("dpkg", "--print-architecture")[1].strip() == architecture and comes(os.environ):
        return True
    env = own_state(architecture, to / "apt")
    return ran("apt-get", "-q", "update", env=env)[0] == 0 and comes(env)


def unpack(package, home, only):
    """Unpacks a package into a folder, or one file of it, and answers whether it does."""
    words = ["dpkg-deb", "-x", package, home]
    if only:
        words = ["sh", "-c", 'dpkg-deb --fsys-tarfile "$1" | tar -x -C "$2" "./$3"', "sh", package,
                 home, only]
    return ran(*words)[0] == 0


def unpacked(architecture, *packages, with_needed=False, only=None):
    """The folder with these packages, or None where they cannot be had."""
    home = OUT / f"debian-{architecture}"
    if not all(map(shutil.which, ("apt-get", "dpkg", "dpkg-deb"))):
        return None
    home.mkdir(parents=True, exist_ok=True)
    with open(home / "lock", "a", encoding="utf-8") as lock:
        fcntl.flock(lock, fcntl.LOCK_EX)
        missing = [it for it in packages if not (home / f"has-{it}").is_file()]
        if missing:
            with tempfile.TemporaryDirectory() as room:
                if not fetch(architecture, missing, Path(room), with_needed):
                    return None
                if not all(unpack(it, home, only) for it in Path(room).glob("*.deb")):
                    return None
            for it in missing:
                (home / f"has-{it}").touch()
    return home


def runs_arm64(has_loaded=False):
    """The words before those of a program for arm64, which are none on such a machine, or None
    where it cannot run. With `has_loaded`, programs may load what Debian's have."""
    if platform.machine() == "aarch64":
        return []
    found = shutil.which("qemu-aarch64") or shutil.which("qemu-aarch64-static")
    if not found:
        home = unpacked("amd64", EMULATORS, only=EMULATOR)
        found = home and str(home / EMULATOR)
    loaded = found and has_loaded and unpacked("arm64", *LOADED)
    if not found or has_loaded and not loaded:
        return None
    return [found, "-L", str(loaded)] if has_loaded else [found]


def main(words):
    if words[:1] == ["--install"]:
        sys.exit(not install(*words[1:]))
    with_needed = words[:1] == ["--needed"]
    words = words[with_needed:]
    if len(words) < 2 or words[0] not in ("amd64", "arm64"):
        sys.exit(__doc__)
    print(unpacked(*words, with_needed=with_needed)
          or sys.exit("debian: the packages cannot be had here"))


if __name__ == "__main__":
    main(sys.argv[1:])
