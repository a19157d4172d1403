#!/usr/bin/env -S python3 -B
"""Finds planted bugs that a change of the code has broken, and controls: tests/edits.py [CRATE..]

This proves nothing: tests/try_edits.py has the prover refuse the planted bugs, and prove the
controls. A planted bug shows something of a contract only where an edit of the same place that
keeps the meaning is proved. The answers of a function with a file in proofs/ name values of the
code, and are refused as well where an edit only takes such a name away. So a planted bug of such a
function has a control in tests/controls/CRATE: an edit of the same function, which keeps the
meaning and as much of the bug's form as it can. Of each edit it is found that

- `rt must-fail` can read it: a line 'file: ', and then pairs of lines 'old: ' and 'new: '; a line
  'in: ' may be between, which it passes over: where the text is in no function, this is the one
  that has to be refused;
- its file is one of src/, or of specs/ where that is what a law is shown by, and has each old text
  once, also after the pairs before it;
- what it changes is code, and no comment alone;
- no other planted bug of its crate has its name;
- a control is of the same function as the planted bug of its name;
- a planted bug of a function that has a file in proofs/ has a control.

Each edit is one case, and so is each folder of edits, whose crate has to be listed. The last line
is 'N passed, M failed'.
"""
import collections
import glob
import itertools
import os
import re
import sys

from programs import TOP, counted
from crates import listed, read

# The folders of a crate's edits: those of the gate, by `rt ci` and apart, those that are tried by
# hand, and controls.
FOLDERS = ("crates/{}/must-fail", "tests/edits/{}", "tests/more_edits/{}", "tests/controls/{}")
# The line that begins a function, by what is before its name; and that of an impl: its own
# parameters, its trait, if it has one, its type, and the arguments of that.
FUNCTION = re.compile(r'( *)(?:pub(?:\(\w+\))? )?(?:const )?(?:unsafe )?(?:extern "C" )?fn (\w+)')
IMPL = re.compile(r"impl(<.*?>)? (?:(\w.*?) for )?(\w+)(<.*>)?")
# The words in such a part, but for lifetimes.
WORD = re.compile(r"(?<!['\w])\w+")

# An edit: the path of a file, the pairs of its texts, and the function that it names, or ''.
Edit = collections.namedtuple("Edit", "file pairs function")


def edits_in(folder):
    """The edits in a folder, by their names."""
    found = {}
    for path in sorted(glob.glob(f"{TOP}/{folder}/*.edit")):
        named, pairs = {}, []
        for line in read(path).splitlines():
            key, _, text = line.partition(": ")
            if key in ("file", "in"):
                named[key] = text
            elif key == "old":
                pairs.append((text, ""))
            elif key in ("new", "new:") and pairs:
                pairs[-1] = (pairs[-1][0], text)
        found[os.path.basename(path).removesuffix(".edit")] = Edit(
            named.get("file", ""), pairs, named.get("in", ""))
    return found


def path_of(crate, file, old):
    """The end of the name of the function with this text, as a check prints it, or ''."""
    text = read(f"{TOP}/crates/{crate}/{file}")
    if text.count(old) != 1 or not file.startswith("src/"):
        return ""
    name = ""
    for line in reversed(text[: text.index(old) + len(old)].split("\n")):
        if name:
            began = IMPL.match(line)
            if began:
                own, trait, args = (WORD.findall(began[it] or "") for it in (1, 2, 4))
                args = [it for it in args if it not in own]
                return f"{began[3]}{''.join(args + trait)}::{name}"
        elif line == "}":
            # (what comes after a function is in none)
            return ""
        elif began := FUNCTION.match(line):
            name = began[2]
            if not began[1]:
                break
    place = re.sub(r"(^|/)(lib|main|mod)$", "", file[len("src/") : -len(".rt")])
    return f"{place}/{name}".strip("/").replace("/", "::") if name else ""


def code(text):
    """A text without its comments, and without what is between its words."""
    return re.sub(r"\s", "", re.sub(r"//.*|(?m:^ *--.*)", "", text))


def paths_of(crate, edit):
    """The ends of the names of the functions with the texts of an edit, or of the one that it
    names."""
    return {edit.function or path_of(crate, edit.file, old) for old, _ in edit.pairs}


def fault_of_function(crate, edit):
    """What is wrong with the function that an edit names, if it names one, or None."""
    if not edit.function:
        return None
    path, (place, _, name) = edit.function.replace("::", "/"), edit.function.rpartition("::")
    source = read(f"{TOP}/crates/{crate}/src/{place.replace('::', '/')}.rt")
    if not re.search(rf"^(pub(\(\w+\))? )?(const )?fn {re.escape(name)}\b", source, re.M):
        return f"there is no function {edit.function}"
    if any(path_of(crate, edit.file, old) for old, _ in edit.pairs):
        return "it names a function, and is in one"
    if os.path.isdir(f"{TOP}/crates/{crate}/proofs/{path}"):
        return "the function that it names has a file in proofs/, and it can have no control"
    return None


def fault_of_texts(crate, edit):
    """Why an edit cannot be applied, or changes no code, or None."""
    file, pairs, _ = edit
    path = f"{TOP}/crates/{crate}/{file}"
    if not re.fullmatch(r"src/[\w/]+\.rt|specs/\w+\.antt", file) or not os.path.isfile(path):
        return f"{file} is no file of src/ or specs/ in this crate"
    before = text = read(path)
    for old, new in pairs:
        count = text.count(old)
        if not old or count != 1:
            return f"{file} has this text {count} times, and not once: {old}"
        text = text.replace(old, new)
    return f"it changes no code of {file}" if code(text) == code(before) else None


def fault_of_control(crate, bug, control):
    """What is wrong with the control of a planted bug, or with there being none, or None."""
    its = [path_of(crate, file, pairs[0][0]) for file, pairs, _ in (bug, control or bug) if pairs]
    function = its[0].rpartition("::")[2]
    if control is None:
        at = f"{TOP}/crates/{crate}/proofs/{bug[0].removeprefix('src/').removesuffix('.rt')}"
        if any(os.path.basename(folder).split("+")[-1] == function and files
               for folder, _, files in os.walk(at)):
            return f"{function} has a file in proofs/, so a control is needed in tests/controls"
    elif not fault_of_texts(crate, control) and (bug[0], its[0]) != (control[0], its[1]):
        return f"its control is not of the same function, {function} in {bug[0]}"
    return None


def look_at(crate):
    """Each edit of a crate with what is wrong with it, or None."""
    folders = [form.format(crate) for form in FOLDERS]
    *found, controls = map(edits_in, folders)
    bugs = {}
    for folder, edits in zip(folders, (*found, controls)):
        for name, edit in edits.items():
            place = f"{folder}/{name}.edit"
            fault = None
            if not re.fullmatch(r"file: .+\n(in: .+\n)?(old: .+\nnew:( .*)?(\n|$))+",
                                read(f"{TOP}/{place}")):
                fault = "it is not a line 'file: ' and then pairs of lines 'old: ' and 'new: '"
            fault = fault or fault_of_texts(crate, edit) or fault_of_function(crate, edit)
            if fault:
                pass
            elif edits is controls:
                fault = None if name in bugs else "there is no planted bug of this name"
            elif name in bugs:
                fault = "a planted bug of the gate has this name"
            else:
                fault = fault_of_control(crate, edit, controls.get(name))
            yield place, fault
        bugs.update(edits)


def look_at_folders(crates):
    """Each folder of edits with what is wrong with it, or None. The crates that are listed."""
    for form in FOLDERS:
        for path in sorted(glob.glob(f"{TOP}/{form.format('*')}/")):
            folder = os.path.relpath(path, TOP)
            crate = re.fullmatch(form.format("(.*)"), folder)[1]
            others = [name for name in os.listdir(path) if not name.endswith(".edit")]
            if crate not in crates:
                yield folder, "crates.txt lists no such crate"
            else:
                yield folder, f"{others[0]} is no edit: nobody tries it" if others else None


def texts_with(folder, controls):
    """The texts of the files that these edits change, or None where one cannot be applied."""
    texts = {}
    for file, pairs, _ in controls:
        for old, new in pairs:
            text = texts.get(file) or read(f"{folder}/{file}")
            if text.count(old) != 1:
                return None
            texts[file] = text.replace(old, new)
    return texts


def main(words):
    crates = listed()
    unknown = [it for it in words if it not in crates]
    if unknown:
        print(f"edits: crates.txt lists no crate {unknown[0]}", file=sys.stderr)
        return 2
    found = [] if words else look_at_folders(crates)
    each = (case for crate in words or crates for case in look_at(crate))
    return counted(itertools.chain(found, each), quiet=not words)


if __name__ == "__main__":
    sys.exit(main(sys.argv[1:]))
