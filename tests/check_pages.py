#!/usr/bin/env -S python3 -B
"""Tests the scripts tools/pages.py, tests/edits.py and tests/duplicates.py in a small house of its
own, and touches nothing else. The last line is 'N passed, M failed'.
"""
import sys

from house import TOP, House, house_of, remove
from programs import paragraphs

house = House()
holds, top, write = house.holds, house.top, house.write
# By the path of each file of the house its text: a crate with a type, a trait, laws and a private
# function, and two pages; and what the page of claims has to say of them.
*FILES, (_, CLAIMS) = house_of("pages")
README, CUP, LIB = (dict(FILES)[it] for it in (
    "README.md", "crates/low/src/cup.rt", "crates/low/src/lib.rt"))


def make_house(more=()):
    """Makes the house anew, with more files."""
    remove(top)
    house.bring("tools/pages.py", "tools/claims_head", "tools/crates.py", "tools/programs.py", *(
        f"tests/{it}.py" for it in ("programs", "edits", "duplicates")))
    for path, text in {**dict(FILES), **dict(more)}.items():
        write(path, text)


def says(name, script, status, *lines):
    """Whether a script ends with this status, and says just these lines."""
    ended = house.run(top / script, *["--check"] * (script == "tools/pages.py"))
    holds(name, (ended.status, ended.out) == (status, "".join(f"{it}\n" for it in lines)))


def pages(name, passed, *faults):
    says(name, "tools/pages.py", bool(faults), *faults, f"{passed} passed, {len(faults)} failed")


make_house()
pages("pages that cite what exists are well", 2)
house.run(top / "tools/pages.py")
written = (top / "out/CLAIMS.md").read_text()
holds("the page of claims has what is public, with its clauses, and each record that is cited",
      written[written.index("## `low`"):] == CLAIMS)
house.run(top / "tools/pages.py", house.work / "page")
holds("it is written to another file as well", house.read("page") == written)
pages("and is none of the pages that are looked at", 2)
for name, line, fault in (
        ("a clause that is not there is found", "The clause `Cup::fill.empty`.",
         "no clause Cup::fill.empty"),
        ("also of a function named before it", "The clause `.level` of `Cup::fill`.",
         "no clause .level of what this line names"),
        ("and of a record", "`IsFull.empty`", "no clause IsFull.empty"),
        ("a function that is not there is found", "`laws::saucers`",
         "no such name in the sources: laws::saucers"),
        ("a file that is not there is found", "`specs/Saucers.antt`", "no file specs/Saucers.antt"),
        ("a page that is not there is found", "[x](docs/NO.md)", "no file docs/NO.md"),
        ("a heading that is not there is found", "[x](docs/LAYERS.md#high)",
         "no heading docs/LAYERS.md#high")):
    make_house({"README.md": f"{README}{line}\n"})
    pages(name, 1, f"README.md:10: {fault}")
make_house({"README.md": f"{README}{'word ' * 884}\n"})
pages("a README that is too long is found", 1, "README.md:0: it has 901 words, and may have 900")
make_house({"README.md": f"{README}By kit-1.\n", "release/MANIFEST": "kit kit-1\nstab sha256\n"})
pages("it names the kit of the release", 2)
make_house({"README.md": f"{README}By kit-1.\n", "release/MANIFEST": "kit kit-2\nstab sha256\n"})
pages("and no other", 1, "README.md:0: it does not name the kit of release/MANIFEST: kit-2")

# What the proof has to say of functions that may be refused.
WHY, STAYS = "**No clause says why**", "**No clause says what a refusal leaves**"
CHANGES = "wash(cup: &mut Cup, by: u16) -> Result<(), AllocError>"
REFUSES = "wash(by: u16) -> Result<u16, WashFault>"
SILENT = "write the clause, or name it there"


def prove(name, function, clause, *faults, line="All is said."):
    """Whether this line of the proof has these faults, where a function of the crate low has this
    clause, and may be refused."""
    make_house({
        "crates/low/src/wash.rt":
            f"/// Washes.\npub fn {function}\n    ensures {{ {clause} }}\n{{}}\n",
        "crates/low/src/lib.rt": f"{LIB}mod wash;\npub use wash::wash;\n",
        "docs/PROOF.md": f"# Proof\n{line}\n"})
    pages(name, 3 - bool(faults), *faults)


OF, = paragraphs(TOP / "tests/houses/clauses")
for clause in OF["leaves"]:
    prove(f"a clause says what a refusal leaves ({clause})", CHANGES, clause)
for clause in OF["not leaves"]:
    prove(f"and where none does, the proof has to say so ({clause})", CHANGES, clause,
          "docs/PROOF.md:0: low::wash: no clause says what a refusal leaves of what it is lent, "
          f"and the sentence {STAYS} does not name it: {SILENT}")
    for name in "wash", "low::wash", "wa*":
        prove(f"by its name ({name}; {clause})", CHANGES, clause,
              line=f"{STAYS} of `{name}`. And `Cup::fill`.")
for clause in OF["why"]:
    prove(f"a clause says why ({clause})", REFUSES, clause)
for clause in OF["not why"]:
    prove(f"and where none does, the proof has to say so ({clause})", REFUSES, clause,
          f"docs/PROOF.md:2: Cup::fill: take it out of the sentence {WHY}, since there is no such "
          "public function, or nothing for a clause to say",
          "docs/PROOF.md:2: low::wash: no clause says of every refusal which one it is, and the "
          f"sentence {WHY} does not name it: {SILENT}", line=f"{WHY} `Cup::fill` fails.")
    prove(f"by its name ({clause})", REFUSES, clause, line=f"{WHY} `wash` fails.")
prove("and it may not say so where a clause does", REFUSES, "IfErr result (IsReason by)",
      "docs/PROOF.md:2: low::wash has a clause on it now: take wash out of the sentence "
      f"{WHY}", line=f"{WHY} `wash` fails.")
holds("another word is refused", house.run(top / "tools/pages.py", "--other").status == 1)

# Edits of the house: one of the gate, of two pairs, and two by hand, one with a control.
BUGS, APART, MORE = "crates/low/must-fail", "tests/edits/low", "tests/more_edits/low"
CONTROLS, NEVER = "tests/controls/low", "crates/low/must-fail/never_pours.edit"


def edit(*texts, file="src/cup.rt"):
    """The text of an edit: pairs of an old and a new text."""
    return f"file: {file}\n" + "".join(
        f"old: {old}\nnew: {new}\n" for old, new in zip(texts[::2], texts[1::2]))


def stale(name, passed, changed, place=None, fault=None):
    """Whether this fault is found in a house with these edits and files, None where one is gone."""
    make_house({
        NEVER: edit("self.pour(by)", "self.pour(0)", "pour(0)", "pour(1)"),
        f"{APART}/level_less_one.edit": edit("        self.level", "        self.level - 1"),
        f"{MORE}/pours_nothing.edit": edit("        true", "        false"),
        f"{MORE}/cup_without_level.edit": edit("    level: u16", "    level: u32"),
        f"{CONTROLS}/pours_nothing.edit": edit("        true", "        !false"),
        "crates/low/proofs/cup/Cup+pour/returns.antt": ""})
    remove(top / BUGS / "cup_without_bottom.edit", top / APART / "cup_with_a_hole.edit")
    for path, text in changed.items():
        remove(top / path)
        if text is not None:
            write(path, text)
    faults = [f"OTHER  {place}", f"       {fault}"] if place else []
    says(name, "tests/edits.py", bool(place), *faults,
         f"{passed} passed, {int(bool(place))} failed")


stale("edits that fit the code are well", 9, {})
for name, changed, fault in (
        ("one whose text is gone is found",
         {"crates/low/src/cup.rt": CUP.replace("pour(by)", "pour(by + 0)")},
         "src/cup.rt has this text 0 times, and not once: self.pour(by)"),
        ("and one whose second text is there twice, after the first pair",
         {"crates/low/src/cup.rt": f"{CUP}// pour(0)\n"},
         "src/cup.rt has this text 2 times, and not once: pour(0)"),
        ("and one that changes a comment alone", {NEVER: edit("Fills the cup", "Fills it")},
         "it changes no code of src/cup.rt"),
        ("or spaces", {NEVER: edit("self.pour(by)", "self.pour( by )")},
         "it changes no code of src/cup.rt"),
        ("and one of a file that is not there",
         {NEVER: edit("self.pour(by)", "self.pour(0)", file="src/saucer.rt")},
         "src/saucer.rt is no file of src/ or specs/ in this crate"),
        ("or is no code", {NEVER: edit("file", "files", file="must-fail/never_pours.edit")},
         "must-fail/never_pours.edit is no file of src/ or specs/ in this crate"),
        *((f"and one that cannot be read ({lines})", {NEVER: f"file: src/cup.rt\n{lines}\n"},
           "it is not a line 'file: ' and then pairs of lines 'old: ' and 'new: '")
          for lines in ("new: x", "old: self.pour(by)", "also: x", "", "old:\nnew: x"))):
    stale(name, 8, changed, NEVER, fault)
for name, folder in ("and one with the name of another", MORE), (
        "also among those that are tried apart", APART):
    stale(name, 9, {f"{folder}/never_pours.edit": edit("self.pour(by)", "self.pour(2)")},
          f"{folder}/never_pours.edit", "a planted bug of the gate has this name")
for name, passed, control, place, fault in (
        ("and one that lacks a control", 7, None, MORE,
         "pour has a file in proofs/, so a control is needed in tests/controls"),
        ("and a control of another function", 8, edit("self.pour(by)", "self.pour(by + 0)"), MORE,
         "its control is not of the same function, pour in src/cup.rt"),
        ("and a control whose text is gone, once", 8, edit("    false", "    true"), CONTROLS,
         "src/cup.rt has this text 0 times, and not once:     false")):
    stale(name, passed, {f"{CONTROLS}/pours_nothing.edit": control}, f"{place}/pours_nothing.edit",
          fault)
stale("and a control of no planted bug", 9, {
    f"{CONTROLS}/pours_all.edit": edit("        true", "        !false")},
    f"{CONTROLS}/pours_all.edit", "there is no planted bug of this name")
stale("and a file that nobody tries", 7, {
    f"{MORE}/cup_without_level.edit": None, f"{MORE}/cup_without_level": "it"}, MORE,
    "cup_without_level is no edit: nobody tries it")
stale("and a folder of no crate", 9, {"tests/more_edits/high/it.edit": ""}, "tests/more_edits/high",
      "crates.txt lists no such crate")

# Lines that are there twice: a run of eight, each of which has another form than the one before.
RUN = "fn pour(by: u16) {\n  let left = by;\n  if left > 7 {\n    spill(left);\n  }\n" \
    '  let said = "gone";\n  print(said, left);\n  while left > by {\n    fill(by)\n  }\n}\n'
OTHER = RUN.replace("pour", "wash").replace("left", "rest").replace('"gone"', '"a b"')
COPIES, ROOM = "tests/duplicates.txt", "src 8\nspecs 0\nproofs 0\n"


def twice(name, src, more=(), table=ROOM, note=(), fault=None, proofs=(0, 0)):
    """Whether so many copies in src, of so many lines, are found in a house with these files."""
    make_house({COPIES: table, "crates/low/src/pour.rt": RUN, **dict(more)})
    says(name, "tests/duplicates.py", bool(fault), *note,
         *(f"{'OTHER' if it == fault else 'same'}{'  ' if it == fault else '   '}"
           f"{number} copies in {it}, of {lines} lines" + (
               f"\n       {COPIES} says {known}: `tests/duplicates.py N` lists the N longest "
               "copies of each kind" if it == fault else "")
           for it, (number, lines), known in (("src", src, 8), ("specs", (0, 0), 0),
                                              ("proofs", proofs, 0))),
         f"{3 - bool(fault)} passed, {int(bool(fault))} failed")


twice("lines that are there once are no copies", (0, 0),
      note=[f"{COPIES}: write 0 in place of 8 for src"])
twice("as many as before are well", (1, 8), {"crates/low/src/wash.rt": OTHER})
for name, more in (
        ("a copy more is found", {"crates/low/src/more.rt": OTHER, "crates/low/src/z.rt": RUN}),
        ("also in one file", {"crates/low/src/more.rt": f"{OTHER}{RUN}"})):
    twice(name, (2, 16), more, fault="src")
twice("and in proofs, with other words", (0, 0), fault="proofs", proofs=(1, 8),
      table=ROOM.replace("src 8", "src 0"), more={
          "crates/low/proofs/A.antt": RUN, "crates/low/proofs/B.antt": OTHER})
for name, text, lines in (
        ("with comments and imports between its lines", OTHER.replace(
            "{\n", "{ // it\n  // pours\n\n  use it;\n"), 8),
        ("and lines of the same form as the one before", OTHER.replace(
            "  let rest = by;\n", "  let rest = by;\n  let more = it;\n"), 8),
        ("but no table", "x = y;\nx = [1, 2];\n" * 8, 0),
        ("no shorter run", RUN.replace("    fill(by)\n", ""), 0),
        ("nor one where a word would become two", RUN.replace("spill(left)", "spill(by)"), 0)):
    twice(name, (int(lines > 0), lines), {"crates/low/src/wash.rt": text},
          table=ROOM.replace("8", str(lines)))
make_house({COPIES: ROOM, "crates/low/src/pour.rt": RUN, "crates/low/src/wash.rt": OTHER})
holds("and the longest are listed", house.run(top / "tests/duplicates.py", "1").out.startswith(
    "8 lines: crates/low/src/wash.rt:1-9 as crates/low/src/pour.rt:1-9\n"))
remove(top / COPIES)
holds("without the table it fails", house.run(top / "tests/duplicates.py").status == 1)
sys.exit(house.sum_up())
