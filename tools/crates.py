"""What the scripts share: the crates of crates.txt, how many tasks fit, and the kit's compiler."""
import collections
import os
import re
import subprocess

TOP = os.path.dirname(os.path.dirname(os.path.realpath(__file__)))

# So much memory is counted for each task that proves. A task takes less for most of its time, and
# a few take up to 5 GB for a while.
TASK_BYTES = 3_000_000_000

# A crate: its line of crates.txt, and the libraries after the colon, those of the kit as well.
Crate = collections.namedtuple("Crate", "line uses")


def read(path):
    """The text of a file, or an empty one where there is none."""
    try:
        with open(path, encoding="utf-8", errors="replace") as it:
            return it.read()
    except OSError:
        return ""


def listed(top=TOP):
    """The crates of crates.txt by their names, in its order: only crates before it are below one.
    A line is a name, words with '=' or 'staticlib', a colon, and the libraries."""
    found = {}
    for line in read(f"{top}/crates.txt").splitlines():
        line = line.partition("#")[0]
        words, _, uses = line.partition(":")
        if words.split():
            found[words.split()[0]] = Crate(line, uses.split())
    return found


def below(name, crates, found=None):
    """The crate, and those of this repository that it stands on, the lowest first. Names that were
    found before, which are given, stay where they are."""
    found = [] if found is None else found
    if name in crates and name not in found:
        for library in crates[name].uses:
            below(library, crates, found)
        found.append(name)
    return found


def first_number(path, before=""):
    """The number that follows a text in a file, or None."""
    found = re.search(rf"^{before}\s*([0-9]+)", read(path), re.M)
    return int(found[1]) if found else None


def processors():
    """How many processors there are: those that this process may run on, or fewer by a quota."""
    count = len(os.sched_getaffinity(0))
    quota = re.match(r"([0-9]+) ([0-9]+)", read("/sys/fs/cgroup/cpu.max"))
    if quota:
        quota, period = map(int, quota.groups())
    else:
        quota = first_number("/sys/fs/cgroup/cpu/cpu.cfs_quota_us")
        period = first_number("/sys/fs/cgroup/cpu/cpu.cfs_period_us")
    return min(count, max(quota // period, 1)) if quota and period else count


def free():
    """How many bytes of memory are free, also under a limit of a control group."""
    found = [1024 * (first_number("/proc/meminfo", "MemAvailable:") or 0)]
    for limit, held, before in (
        ("/sys/fs/cgroup/memory.max", "/sys/fs/cgroup/memory.stat", "anon"),
        ("/sys/fs/cgroup/memory/memory.limit_in_bytes",
         "/sys/fs/cgroup/memory/memory.stat", "total_rss"),
    ):
        limit, held = first_number(limit), first_number(held, before)
        if limit is not None and held is not None:
            found.append(limit - held)
    return min(found)


def tasks():
    """How many tasks that prove may run at once, and why."""
    count, bytes_free = processors(), free()
    fit = max(bytes_free // TASK_BYTES, 1)
    return min(count, fit), (f"{count} processors, and {bytes_free / 1e9:.1f} GB of free memory for"
                             f" {fit} tasks of {TASK_BYTES / 1e9:.1f} GB")


def spare(lanes):
    """How many tasks that prove fit into memory beside so many."""
    return max(free() // TASK_BYTES - lanes, 0)


def lines_of(crate, top=TOP):
    """How many lines a crate has, which a check of it reads, whatever it proves of them."""
    return sum(read(f"{at}/{name}").count("\n")
               for at, _, names in os.walk(f"{top}/crates/{crate}") for name in names
               if "/out" not in at and name.endswith((".rt", ".antt")))


def kit():
    """The folder of the kit."""
    said = subprocess.run(["rt", "doc"], check=True, stdout=subprocess.PIPE, text=True).stdout
    return os.path.dirname(said.strip())


def anew():
    """The words that have rt ci prove all from nothing. Some kits take what was passed before on
    this machine, unless they are told so; others always begin from nothing, and know no such
    word."""
    said = subprocess.run(["rt", "help"], stdin=subprocess.DEVNULL, stdout=subprocess.PIPE,
                          stderr=subprocess.STDOUT, text=True).stdout
    return ["--anew"] if "--anew" in said else []


def compiler(verb, crate, source, top=TOP):
    """The words of the compiler for a crate whose first file is `source`, over the libraries that
    rt ci has left in a tree: of them these are statements alone, which rt itself does not take."""
    home, crates = kit(), listed()
    words = [f"{home}/bin/rattle", verb, "--crate-name", crate, source]
    words += ["--extern", f"std={home}/rlibs/std.rlib", "-L", f"dependency={home}/rlibs"]
    for it in crates[crate].uses:
        folder = f"{top}/crates/{it}/out/rlib" if it in crates else f"{home}/rlibs"
        words += ["--extern", f"{it}={folder}/{it}.rlib"]
    for it in below(crate, crates)[:-1]:
        words += ["-L", f"dependency={top}/crates/{it}/out/rlib"]
    words += ["--antt-project", f"{home}/rattle/logic/antt-project.json"]
    words += ["--logic-built", f"{home}/logic_built"]
    if verb == "build":
        words += ["--links", f"{crate}=", "--toolchain", f"{home}/toolchain"]
    return words


def clang(*words, is_program=True):
    """The words of the kit's clang for a program over the kit's C library, or else for an object
    that a program loads, which needs none: with these words more, such as its sources."""
    home = f"{kit()}/toolchain"
    own = ["-fPIC", "-shared"]
    if is_program:
        own = ["-fPIE", "-pie", "-Wl,--dynamic-linker=/lib64/ld-linux-x86-64.so.2"]
        words += tuple(f"{home}/lib/{it}" for it in (
            "Scrt1.o", "crti.o", "crtbeginS.o", "crtendS.o", "crtn.o", "libc.so.6",
            "libc_nonshared.a"))
    return [f"{home}/bin/clang", "-O2", "-Wall", "-Wextra", "-Werror", "-nostdlib",
            "-fuse-ld=lld", *own, *words]
