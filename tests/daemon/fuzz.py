#!/usr/bin/env python3
"""Looks for inputs that harm the daemon, by hand: libFuzzer over what reads messages, bodies,
configurations and requests of control, and over a whole agent, without its sockets.

    tests/daemon/fuzz.py [--minutes 1] [TARGET..]   each target so long; usually all
    tests/daemon/fuzz.py --fits                     whether the targets fit the code, as the gate

It needs cargo, Debian's crates (tools/build_daemon) and, but for --fits, clang with its libFuzzer
(clang and libclang-rt-*-dev). An input that does harm is kept, and a line names its file. What each
target has to find, planted.py plants. The last line is 'N passed, M failed'.
"""
import os
import pathlib
import re
import shutil
import sys
import tempfile

from daemons import HOME, PACKAGING
from protocol import body, entry, frame, hello, look, report, way
from runner import HERE, options, sum_up
from programs import ran

# (targets.rs knows them by their numbers)
TARGETS = ["messages", "body", "configuration", "control", "agent"]
TRIPLE = "x86_64-unknown-linux-gnu"
# (where it lies, cargo finds the settings that name Debian's crates)
CRATE = HOME / "rust/target/fuzz_targets"
FLAGS = ("-Cpasses=sancov-module -Cllvm-args=-sanitizer-coverage-level=4 "
         "-Cllvm-args=-sanitizer-coverage-inline-8bit-counters "
         "-Cllvm-args=-sanitizer-coverage-pc-table "
         "-Cllvm-args=-sanitizer-coverage-trace-compares -Ccodegen-units=1")
LIFE = 0x0102030405060708


def cargo(rust, *words, **more):
    """Has cargo do something with the targets, over the daemon's sources in a folder."""
    CRATE.mkdir(parents=True, exist_ok=True)
    shutil.copy(HOME / "rust/Cargo.lock", CRATE)
    manifest = (HERE / "fuzz_targets/manifest").read_text()
    (CRATE / "Cargo.toml").write_text(manifest.format(here=HERE, rust=rust))
    return ran("cargo", *words, "--offline", "--quiet", cwd=CRATE, env={**os.environ, **more})


def build(rust, work):
    """Builds the fuzzer over the daemon's sources in a folder: the status, and what was said."""
    status, said = cargo(rust, "build", "--release", "--target", TRIPLE, "--target-dir",
                         work / "target", RUSTFLAGS=FLAGS)
    if status:
        return status, said
    wrapped = ["malloc", "calloc", "realloc", "posix_memalign"]
    return ran("clang", "-O1", "-fsanitize=fuzzer", HERE / "fuzz_targets/harness.c",
               work / "target" / TRIPLE / "release/libtargets.a", "-lssl", "-lcrypto", "-lpthread",
               "-ldl", "-lm", "-lgcc_s", *(f"-Wl,--wrap={it}" for it in wrapped), "-o",
               work / "fuzzer")


def piece(at, text):
    """What comes to an agent by one of its lines."""
    return bytes([at, len(text)]) + text


def seeds():
    """Inputs to begin with, by their target, as the program writes them or an example has them."""
    late, nothing = b"\7\310", frame(3, b"")
    leaf = report(b'[{"name":"leaf"}]    ')
    whole = re.search('^const WHOLE.*?\n(.*?)^"#;',
                      (HOME / "rust/rignoldad/tests/config.rs").read_text(), re.M | re.S)[1]
    # (the first byte says what is expected: a hello, a way, what a parent sends, or a child)
    return {
        "messages": [
            b"\0" + hello("host31", "rack3", LIFE), b"\0" + look("host31", ""),
            b"\1" + way(9, ["hub", "rack2"]), b"\2" + way(0, ["hub"]) + frame(3, body(b"H", 1)),
            b"\3A\0\3" + report([{"name": "child"}, {"name": "leaf", "parent": "child"}]) + b"G",
            b"\2Q", b"\3" + report([["leaf"], [[["new"], {"parent": "child", "gaps": 7}]]])],
        "body": [body(b"H", 1), body(b"C", 7, [entry(b"a", b"xy"), entry(b"b", None)]),
                 body(b"T", 7, [entry(b"a", b"xy"), entry(b"b")])],
        "configuration": [
            (PACKAGING / "agent.toml").read_bytes(), whole.encode(),
            b'name = "a"\nlisten = "unix:/a"\nchildren = ["b", "c@unix:/c"]\n[root]\n'
            b'settings = "/etc/s"\nround = "30s"\nharmless = 23\n'],
        "control": [b'{"do":"publish","key":"a","value":"00ff"}\n{"do":"unset","key":"a"}\n'
                    b'{"do":"child-add","name":"b"}\n{"do":"tree"}\n'],
        # (an agent's own calls have the first lines)
        "agent": [
            piece(5, hello("leaf", "inner", LIFE, version=2)) + piece(5, b"A\0\3")
            + piece(5, leaf) + piece(5, b"G"),
            piece(5, hello("hub1", "inner", LIFE, version=2)) + piece(5, way(0, ["hub1"]))
            + piece(5, nothing) + late,
            piece(1, look("hub2", "inner", 255)) + piece(1, way(0, ["hub2"])) + late,
            piece(6, way(0, ["hub3"])) + late
            + piece(14, hello("hub3", "inner", LIFE) + nothing) + late]}


def tried(name, seconds, work):
    """Runs a target: the status, and what it said. An input that does harm is beside the fuzzer."""
    folders = [work / part / name for part in ("found", "seeds")]
    for folder in folders:
        folder.mkdir(parents=True, exist_ok=True)
    for at, text in enumerate(seeds()[name]):
        (folders[1] / str(at)).write_bytes(text)
    # (no address space without end either)
    return ran("prlimit", "--as=4096000000", work / "fuzzer", f"-max_total_time={seconds}",
               "-max_len=4096", "-timeout=300", "-rss_limit_mb=512", "-print_final_stats=1",
               "-verbosity=1", f"-artifact_prefix={work}/harm-{name}-", *folders,
               env={**os.environ, "RIGNOLDA_FUZZ": str(TARGETS.index(name)), "TMPDIR": str(work)})


def is_harmless(name, minutes, work):
    """Tries a target: whether no input did harm."""
    status, said = tried(name, 60 * minutes, work)
    if not status:
        figures = dict(re.findall(r"^stat::(\w+): *(\d+)", said, re.M))
        print(f"{name}: {figures.get('number_of_executed_units')} inputs tried, "
              f"{len(list((work / 'found' / name).iterdir()))} kept for what they reach, at most "
              f"{figures.get('peak_rss_mb')} MB", flush=True)
        return True
    kept = pathlib.Path(tempfile.mkdtemp(prefix="rignolda-harm-"))
    (kept / "said").write_text(said)
    for path in work.glob("harm-*"):
        path.rename(kept / path.name)
    print(*re.findall("^.*(?:panicked|ERROR|bytes are asked for).*\n.*", said, re.M)[:3], sep="\n")
    print(f"{name}: HARM by an input, which is in {kept}", flush=True)
    return False


def main():
    chosen = options("targets", minutes=1, fits=False)
    if chosen.fits:
        status, said = cargo(HOME / "rust", "check", "--target-dir", HOME / "rust/target")
        print(said, end="")
        return sum_up([not status])
    with tempfile.TemporaryDirectory() as work:
        work = pathlib.Path(work)
        status, said = build(HOME / "rust", work)
        if status:
            sys.exit(f"the fuzzer cannot be built: {said}")
        names = chosen.targets or TARGETS
        return sum_up([is_harmless(name, chosen.minutes, work) for name in names])


if __name__ == "__main__":
    sys.exit(main())
