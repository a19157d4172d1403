#!/usr/bin/env python3
"""Sees planted bugs refused, each in its own function.

    tests/try_edits.py [CRATE..]               those of tests/edits, as the gate does
    tests/try_edits.py --more [CRATE..]        those of tests/more_edits, which show what one of the
                                               gate shows as well, or a smaller clause: by hand,
                                               where their crate has changed
    tests/try_edits.py --controls [CRATE..]    sees that the controls of planted bugs are proved

`rt ci` proves a crate once more for the edits of crates/CRATE/must-fail, and loads it for each. But
an edit changes the body of a function, and all else rests on that function's contract. So here the
prover is asked for the edited functions and what they call, over the libraries that `rt ci` has
left in this folder, and edits of several functions of a crate are tried together: 20 seconds for
each. An edit is refused where its own function is not proved, for its meaning and not because a
proof names what is gone, and nothing else is refused but what calls such a function.

RT_JOBS says how many checks run at once. Nothing of this repository is touched. Each edit is one
case, and the last line is 'N passed, M failed'.
"""
import concurrent.futures
import os
import re
import shutil
import sys
import tempfile

sys.dont_write_bytecode = True
from edits import TOP, edits_in, paths_of, texts_with  # noqa: E402
from crates import compiler, lines_of, listed, tasks  # noqa: E402
from programs import ran, sum_up  # noqa: E402

# What a check says of a function that is not proved, and of that what says nothing against it but
# that it calls another one.
REFUSED = re.compile(r"^fn \w+::(\S+): (?:no proof|not proved)(.*)$", re.M)
CALLS = re.compile(r"[:;] it calls [^;]*")
# The name of a closure begins with that of its function, after a word.
CLOSURE = re.compile(r"(^|::)fn::(\w+)::.*")
# What a check says where a proof names what an edit took away.
GONE = re.compile(r"proofs/.*(has no field|is not in scope|has no `|was not admitted)")


def rounds(crate, edits):
    """The names of a crate's edits, each with the paths of its functions, in as few lists as serve:
    in a list no two are in one function. One that is in no function is alone."""
    found = []
    for name, edit in edits.items():
        paths = paths_of(crate, edit)
        for one in found:
            if "" not in paths and not any("" in its or paths & its for its in one.values()):
                one[name] = paths
                break
        else:
            found.append({name: paths})
    return found


def checked(crate, edits, names):
    """What the check of a crate says with the edits of these names, each given with the paths of
    its functions, which are looked at alone; and its status."""
    texts = texts_with(f"{TOP}/crates/{crate}", [edits[name] for name in names])
    if texts is None:
        return "its texts are not in its file once", 1
    with tempfile.TemporaryDirectory(prefix="rt-edit-") as room:
        for part in ("src", "specs", "proofs"):
            if os.path.isdir(f"{TOP}/crates/{crate}/{part}"):
                shutil.copytree(f"{TOP}/crates/{crate}/{part}", f"{room}/{part}")
        for file, text in texts.items():
            with open(f"{room}/{file}", "w", encoding="utf-8") as it:
                it.write(text)
        root = next(it for it in ("src/lib.rt", "src/main.rt") if os.path.isfile(f"{room}/{it}"))
        words = [*compiler("check", crate, root), "--jobs", "1"]
        words += [word for path in sorted(set().union(*names.values()) - {""})
                  for word in ("--only", path)]
        status, said = ran(*words, cwd=room)
    return said, status


def refusals(said, told):
    """The functions that a check refuses, each with why, without those of which it says only that
    they call another one; a closure is of its function. It is an empty text where nothing is said
    against the function itself, so that it may be refused for one that it calls."""
    found = {}
    for path, why in REFUSED.findall(said):
        folder = f"/{path.replace('::', '/')}/"
        errors = [it for it in told if folder in it and ": error" in it and not GONE.search(it)]
        left = CALLS.sub("", why).strip(":; ")
        if left or not why:
            of = CLOSURE.sub(r"\1\2", path)
            found[of] = found.get(of) or left or "".join(errors[:1])
    return found


def is_one(path, paths):
    """Whether a function is one of those whose names have these ends."""
    return any(f"::{path}".endswith(f"::{it}") for it in paths - {""})


def tried(crate, edits, names):
    """Of each of these edits: its name, whether it is refused, and what was said."""
    whole, is_alone = set().union(*names.values()), len(names) == 1
    said, status = checked(crate, edits, names)
    told = [line for line in said.split("\n") if re.match(r"(note: )?\S+:\d+:\d+: |error", line)]
    refused = refusals(said, told)
    others = [why for path, why in refused.items() if not is_one(path, whole)]
    is_meant = "" in whole or not (others if is_alone else any(others))
    is_clear = status == 1 and is_meant and not all(map(GONE.search, told))
    found = []
    for name, paths in names.items():
        why = [why for path, why in refused.items() if "" in paths or is_one(path, paths)]
        if is_clear and (any(why) or why and is_alone):
            found.append((name, True, max(why)[:160] or "not proved"))
        elif is_alone:
            found.append((name, False, (told or said.strip().split("\n")[-1:])[0][:160]))
        else:
            # (its function calls another one, say, that is not proved)
            found += tried(crate, edits, {name: paths})
    return found


def proved(crate, edits, names):
    """The same of controls, each of which has to be proved."""
    said, status = checked(crate, edits, names)
    if status and len(names) > 1:
        return [proved(crate, edits, {name: names[name]})[0] for name in names]
    return [(name, status == 0, said.strip().split("\n")[-1][:160]) for name in names]


# What is asked for: the folder of its edits, what tries them, and what they have to be.
KINDS = {"": ("edits", tried, "refused"), "--more": ("more_edits", tried, "refused"),
         "--controls": ("controls", proved, "proved")}


def main(words):
    kind = words[0] if words and words[0] in KINDS else ""
    (folder, tries, wanted), words, crates = KINDS[kind], words[bool(kind):], listed()
    unknown = [it for it in words if it not in crates]
    if unknown:
        print(f"try_edits: crates.txt lists no crate {unknown[0]}", file=sys.stderr)
        return 2
    results, jobs = [], os.environ.get("RT_JOBS", "")
    edits = {crate: edits_in(f"tests/{folder}/{crate}") for crate in words or crates}
    works = [(crate, names) for crate in edits for names in rounds(crate, edits[crate])]
    with concurrent.futures.ThreadPoolExecutor(int(jobs) if jobs.isdigit() else tasks()[0]) as pool:
        # (the longest ones first, so that none of them is left alone at the end)
        begun = {place: pool.submit(tries, crate, edits[crate], names)
                 for place, (crate, names) in sorted(
                     enumerate(works), key=lambda it: -lines_of(it[1][0]))}
        for place, (crate, _) in enumerate(works):
            for name, is_well, why in begun[place].result():
                results.append(is_well)
                print(f"{wanted if is_well else 'FAILED'} {crate}/{name}: {why}", flush=True)
    return sum_up(results)


if __name__ == "__main__":
    sys.exit(main(sys.argv[1:]))
