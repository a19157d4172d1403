#!/usr/bin/env -S python3 -B
"""Tests the script ./gate in a copy of its own, with small commands in the place of its parts, and
tests/try_edits.py with one in the place of the prover: nothing is proved, and nothing of this
repository is touched. The last line is 'N passed, M failed'.
"""
import gzip
import os
import re
import sys

from house import TOP, House, remove
from programs import paragraphs

house = House()
house.bring("gate", "tools/costs.py", "tools/crates.py", "tools/programs.py", "tools/running.py")
holds = house.holds
# The scripts of tests that the gate runs. The first one counts five cases, and the others none.
SCRIPTS = [it for it in re.findall(r"^(?:tests|tools)/\w+\.\w+", (TOP / "gate").read_text(), re.M)
           if it != "tools/pages.py"]
# Three crates, each over the one before, with planted bugs; and what rt says of the first of them.
house.write("crates.txt", "low:\nmid: low\nhigh: mid\n")
for crate in "low", "mid", "high":
    (house.top / "tests/edits" / crate).mkdir(parents=True)
FIRST = "echo rt: low proved"
PARTS = "echo 300 passed, 0 failed", "echo 42 passed, 0 failed"


def script(at, does="echo 0 passed, 0 failed"):
    house.command(SCRIPTS[at], f'echo "$PWD: a script of tests"; {does}')


def pages_and_release(pages="2 passed, 0 failed", release="3 passed, 0 failed"):
    house.command("tools/pages.py", f'echo "$PWD: pages $*"; echo {pages}')
    house.command("release.sh", f'echo "$PWD: release $*"; echo {release}')


def run_gate(*words, **env):
    return house.run(house.top / "gate", *words, TMPDIR=str(house.temporary), **env)


def run(first=PARTS[0], second=PARTS[1], *words, **env):
    """Runs the gate with these two parts. Further words are those of the gate."""
    house.command(house.bin / "rt", '[ "$1" = ci ] || { echo "kit-1${KEEPS---anew}"; exit; }\n'
                  f'echo "$PWD: rt $*, ${{RT_JOBS-none}}"; {FIRST}; {first}')
    house.command("tests/refused/check.py", f'echo "$PWD: check $*"; {second}')
    return run_gate(*words, **env)


def lines():
    return house.ended.out.split("\n")


def ended(last):
    """Whether it ended with this last line, and with status 1 where that counts a failure."""
    status = int(bool(re.search(" [1-9][0-9]* failed$", last)))
    return (house.ended.status, house.ended.last) == (status, last) and house.left_nothing()


def gave(last):
    """Whether the gate ended with this last line, after all parts."""
    return (ended(last) and house.ended.out.count(": a script of tests\n") == len(SCRIPTS)
            and any(re.fullmatch(rf"{house.top}: rt ci, [0-9]+", it) for it in lines())
            and {f"{house.top}: {it}" for it in (
                "check ", "edits low", "edits mid", "edits high", "release --check",
                "pages --check")} <= {*lines()})


for at in range(len(SCRIPTS)):
    script(at)
script(0, "echo 5 passed, 0 failed")
house.command("tests/try_edits.py", 'echo "$PWD: edits $*"; echo 0 passed, 0 failed')
pages_and_release()
for it in paragraphs(TOP / "tests/houses/gate"):
    run(*(it.get(word, [usual])[0] for word, usual in zip(("first", "second"), PARTS)))
    holds(it["name"][0], gave(it["last"][0]))
script(1, "kill -KILL $$")
run()
holds("and so is one beside others", gave("352 passed, 1 failed"))
holds("which is named",
      f"gate: {SCRIPTS[1]} ended with status 137, and no count in its last line" in lines())
script(1, "echo 4 passed, 1 failed; exit 1")
run(RT_JOBS="1")
holds("and one at a time they count the same", gave("356 passed, 1 failed"))
script(1)
said = run().out
holds("what a part writes is shown", "\n300 passed, 0 failed\n" in said)
holds("what the first part took is said", re.search(
    "^gate: .*: rt ci has ended, after [0-9.]+ processor minutes$", said, re.M))
script(2, "echo a program is NOT COMPARED; echo 0 passed, 0 failed")
said = run().out
holds("what was not compared or tried is said once more at the end, and counts for nothing",
      said.endswith("gate: 1 things were not compared or tried, which is no success:\n"
                    "a program is NOT COMPARED\n352 passed, 0 failed\n"))
script(2)
page = house.top / "out/gate.md"
holds("and in a table", all(
    re.search(fr"^\| `{it}` \| [0-9.]+ \| [0-9.]+ \|$", page.read_text(), re.M)
    for it in ("rt ci", "tests/try_edits.py", "the others")))
holds("which has all that it took",
      re.search(r"^\*\*[0-9.]+ minutes, [0-9.]+ processor minutes, ", page.read_text(), re.M))
holds("it says how many tasks run at once, and why", re.search("^gate: [0-9]+ tasks at once: "
      "[0-9]+ processors, and .* for [0-9]+ tasks of 3.0 GB$", said, re.M))
run(RT_JOBS="3")
holds("which the environment decides, if it does",
      {"gate: 3 tasks at once: as RT_JOBS says", f"{house.top}: rt ci, 3"} <= {*lines()})
said = run(*PARTS, "--anew").out
holds("with --anew all of it is proved again",
      re.search(f"^{house.top}: rt ci --anew, [0-9]+$", said, re.M))
run(*PARTS, "--anew", KEEPS="")
holds("and by a kit that always does so, and knows no such word", gave("352 passed, 0 failed"))
said = house.run("taskset", "-c", "0", house.top / "gate", TMPDIR=str(house.temporary)).out
holds("never more than the processors", "gate: 1 tasks at once: 1 processors, " in said)
for name, parts in (
        ("a release that differs fails the gate", {"release": "2 passed, 1 failed; exit 1"}),
        ("and so does a page that is out of date", {"pages": "1 passed, 1 failed; exit 1"})):
    pages_and_release(**parts)
    run()
    holds(name, ended("351 passed, 1 failed"))
pages_and_release()
for missing, last in ("release.sh", "349 passed, 1 failed"), (
        "tests/refused/check.py", "310 passed, 1 failed"):
    run()
    remove(house.top / missing)
    run_gate()
    holds(f"a part that is missing is a failure ({missing})", ended(last))
    pages_and_release()
run()
holds("another word is refused", run_gate("--other").status == 2)
holds("--help prints what the words of the gate do, and nothing runs", run_gate("--help").out ==
      re.search('^"""(.*?)"""', (TOP / "gate").read_text(), re.S | re.M)[1] and ended("as well, "
      "and Linux.") and not house.ended.err)
holds("without the kit it says what is missing", (house.run(
    sys.executable, "-B", house.top / "gate", PATH=str(house.temporary)).status == 2
    and house.ended.out == "gate: it needs the command rt of the Rattle kit, and finds none\n"))

# While the first part goes on, others begin: at first none, then those that need nothing of it,
# and over crates that are proved the planted bugs of a crate, and what compiles it for the release;
# after it what runs the programs, what looks at those that it has built, and in the end what
# compares the release. Where the programs of the present sources are there before it, what runs
# them begins beside it as well.
BESIDE = f"""how=late; [ "$(nice)" -le {os.nice(0)} ] || how=beside
    echo "$1 $how" >>"$WORK/begun"; echo 0 passed, 0 failed"""
APART = next(it for it in SCRIPTS if it == "tests/check_stab.py")
RUN = next(it for it in SCRIPTS if it == "tests/check_drawn.py")
OVER = next(it for it in SCRIPTS if it == "tests/check_tables.py")
for it, name in (APART, "apart"), (RUN, "run"), (OVER, "over"):
    house.command(it, BESIDE.replace("$1", name))
house.command("tests/try_edits.py", BESIDE)
house.command("release.sh", '[ -n "$RELEASE_COMPILED" ] || exit 1\n'
              + BESIDE.replace("$1", "$*"))
house.write("tools/launch", """part=
table=(
    'it.a library mid'
    'arm64/it.a library mid'
    'it.wasm module no_such_crate'
)
read_table() { :; }
find_sources() { :; }
is_released() { release=$WORK/released; [ -e "$release" ]; }""")
STEPS = """
has() { for _ in $(seq 200); do grep -q "$1" "$WORK/begun" && return; sleep 0.05; done; }
sleep 0.3; cp "$WORK/begun" "$WORK/at_first"
echo rt: low proved; has apart; has low; has compile; has '^mid'; cp "$WORK/begun" "$WORK/beside"
echo 1 passed, 0 failed"""


def begun(first, *words):
    """What had begun at first, beside the first part, and at the end."""
    for it in "begun", "at_first", "beside":
        house.write(house.work / it)
    house.command(house.bin / "rt", f'[ "$1" = ci ] || {{ echo kit-1; exit; }}\n{first}')
    run_gate(*words)
    at_first, beside, after = (house.read(it).split("\n")[:-1]
                               for it in ("at_first", "beside", "begun"))
    holds("and the release is compared", after.count("--check late") == 1)
    return sorted(at_first), sorted(beside), sorted({*after} - {"--check late"})


at_first, beside, after = begun(STEPS)
holds("at first nothing runs beside the first part", at_first == [])
NEED_NOTHING = ["--compile mid beside", "apart beside", "low beside", "mid beside"]
holds("then what needs nothing of it, and what is over a crate, in the time that is left over",
      beside == NEED_NOTHING)
holds("and after it what runs the programs, and planted bugs over what it has not proved",
      after == sorted([*beside, "high late", "over late", "run late"]))
for it in "stab", "rignolda":
    house.write(house.work / f"released/{it}.gz").write_bytes(gzip.compress(b""))
_, beside, after = begun(STEPS.replace("has apart", "has apart; has run"))
holds("but beside it where they are there before, and not what looks at those that it has built", (
    beside, after) == ([*NEED_NOTHING, "run beside"], sorted([*beside, "high late", "over late"])))
_, beside, after = begun(STEPS, "--release")
holds("and never where the release is made anew, which is then taken from what was compiled",
      beside == NEED_NOTHING and {"run late", "--after-ci late"} < {*after}
      and "run beside" not in after)
remove(house.work / "released")
_, beside, after = begun(STEPS.replace("rt: low proved", "rt: low NOT PROVED")
                         .replace("has apart; has low; has compile; has '^mid'", "sleep 0.3"))
holds("over what is not proved nothing begins before it has ended", beside == [] and after == [
    "--compile mid late", "apart late", "high late", "low late", "mid late", "over late",
    "run late"])
for it in APART, RUN, OVER:
    script(SCRIPTS.index(it))
house.command("tests/try_edits.py", 'echo "$PWD: edits $*"; echo 0 passed, 0 failed')

# A release is made of what the first part has built, where that has passed.
COMPARED = ["release --compile mid", "release --check"]
house.command("release.sh", 'echo "release $*" >>"$WORK/begun"; echo 1 passed, 0 failed')
for first, wanted, name in (
        ("echo 300 passed, 0 failed", ["release --after-ci", *COMPARED],
         "with --release it is made, and then compared"),
        ("echo 299 passed, 1 failed; exit 1", COMPARED, "but not where the first part fails")):
    house.write(house.work / "begun")
    run(first, PARTS[1], "--release", RT_JOBS="1")
    holds(name, house.read("begun").split("\n")[:-1] == wanted)
pages_and_release()

run("echo 'rt: ok; handles allowed: none; done in this run: 3 of the 9 proofs (of crates and of"
    " their tests); the others are kept from earlier runs of the same files on this machine'\n"
    "echo 9 passed, 0 failed")
holds("and what rt says of that is kept", "`rt ci` did 3 of the 9 proofs (of crates and of their "
      "tests), and took" in page.read_text())
remove(house.top / "tests/edits")

# Planted bugs that are tried apart, of a crate of four functions. The prover is a command that goes
# by what a body says.
house.bring("tests/edits.py", "tests/try_edits.py", "tests/programs.py")
house.write("crates.txt", "low:\n")
house.write("crates/low/src/lib.rt", """\
pub fn one() { first }
impl Cup {
    fn two(&self) { second }
}
impl From<Full> for Cup {
    fn three() { third }
}
const MOST: u16 = 4;
""")
KIT = house.work / "kit"
house.command(house.bin / "rt", f"echo '{KIT}/START-HERE.md'")
house.command(KIT / "bin/rattle", r"""words=$*
    echo "check ${words##*--jobs 1}" >>"$WORK/steps"
    status=0
    while read -r name says; do
        case $says in
            *inside*) closure=$(sed -E 's/(\w+)$/fn::\1::map/' <<<"$name")
                echo "note: src/lib.rt:1:1: it is not proved that it returns"
                echo "fn low::$closure: no proof: expected answers in x"
                echo "fn low::$name: no proof: it calls \`low::$closure\`, which is not proved" ;;
            *wrong*) echo "note: src/lib.rt:1:1: it is not proved that it returns"
                echo "fn low::$name: no proof: expected answers in x; \`search\` did not prove \`y\`" ;;
            *gone*) echo "proofs/x/Answers.antt:1:1: error: \`x\` is not in scope"
                echo "fn low::$name: not proved" ;;
            *rests*) grep -q wrong src/lib.rt || { echo "fn low::$name: proved"; continue; }
                echo "fn low::$name: not proved" ;;
            *calls*) echo "fn low::$name: no proof: it calls \`low::one\`, which is not proved" ;;
            *) echo "fn low::$name: proved"; continue ;;
        esac
        status=1
    done < <(sed -nE 's/.*fn one/one /p; s/.*fn two/Cup::two /p; s/.*fn three/CupFromFull::three /p
        s/const/limit /p' src/lib.rt)
    exit $status""".replace("\\`", "\`"))


def tried(name, last, steps, edits, *words, folder="edits"):
    """Whether it ends so, with these checks, for planted bugs, each a pair of texts."""
    house.write(house.work / "steps")
    remove(house.top / "tests/edits", house.top / "tests/more_edits")
    for at, (old, new) in enumerate(edits):
        house.write(f"tests/{folder}/low/{'abc'[at]}.edit",
                    f"file: src/lib.rt\nold: {old}\nnew: {new}\n")
    house.run(house.top / "tests/try_edits.py", *words, TMPDIR=str(house.temporary))
    holds(name, ended(last) and house.read("steps") == "".join(f"check {it}\n" for it in steps))


for it in paragraphs(TOP / "tests/houses/edits"):
    (words,), (folder,) = it.get("words", [""]), it.get("folder", ["edits"])
    tried(it["shows"][0], it["last"][0], [
        "".join(f" --only {name}" for name in step.split()) for step in it["step"]],
        [edit.split(" | ") for edit in it["edit"]], *words.split(), folder=folder)
    for text in it.get("says", []):
        holds("and is named", f"\n{text}" in f"\n{house.ended.out}")
holds("a crate that is not listed is refused",
      house.run(house.top / "tests/try_edits.py", "no_such").status == 2)

# A gate whose first part does not end by itself.
house.command(house.bin / "rt", """trap 'kill $!; echo ended >"$WORK/ended"; exit 1' TERM
    sleep 600 & echo started >"$WORK/started"; wait""")
for name, status in ("TERM", 143), ("INT", 130), ("HUP", 129):
    house.interrupted(name, house.top / "gate", TMPDIR=str(house.temporary))
    holds(f"it ends at the signal {name}, with what it started",
          house.ended.status == status and house.read("ended") and house.left_nothing())
sys.exit(house.sum_up())
