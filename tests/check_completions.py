#!/usr/bin/env -S python3 -B
"""Checks the completions of stab and rignolda for bash, zsh and fish, which are by hand.

Those for zsh and fish have a line for each command and option, with what the help of rignolda says
of it, and no other one; those for bash are tried. The man pages have to name all of them. The
program that is asked is that of tests/check_tables.py. The program stab has no help, so its
commands and flags are those of the table in docs/FORMATS.md. The last line is 'N passed, M failed'.
"""
import re
import subprocess
import sys
from collections import namedtuple

from programs import TOP, Cases, run_with

HOME = TOP / "completions"
OPTION = re.compile(r"^ +(?:-\w, |    )?--([a-z-]+)(?: <(\w+)>)?(?:  +(\S.*))?$")
# A command: its name, what it does, its options (name, value, help), and whether it has a file.
Command = namedtuple("Command", "name about options has_file")


def names_of(options):
    return ["--" + name for name, _, _ in options]


def section(text, head):
    """The lines of a section of a help, up to the next empty line."""
    found = re.search(rf"^{head}\n(.*?)(\n\n|\Z)", text, re.M | re.S)
    return found[1].split("\n") if found else []


def options_of(text):
    """The options of a help; a line that names none goes on with the help of the one before."""
    found = []
    for line in section(text, "Options:"):
        match = OPTION.match(line)
        if match:
            found.append([match[1], match[2], match[3] or ""])
        else:
            found[-1][2] = (found[-1][2] + " " + line.strip()).strip()
    return [tuple(option) for option in found]


def rignolda(program):
    """What rignolda has, by its help: its commands, and its own options."""
    def asked(*words):
        return subprocess.run([program, *words, "--help"], capture_output=True, text=True,
                              check=True).stdout

    commands = []
    for line in section(asked(), "Commands:"):
        name, about = re.match(r"^  ([a-z]+) +(\S.*)$", line).groups()
        inner = "" if name == "help" else asked(name)
        has_file = re.search(r"^Usage:.*[\[<](FILE|JOB|REPORT)[\]>]", inner, re.M)
        commands.append(Command(name, about, options_of(inner), bool(has_file)))
    return commands, options_of(asked())


def stab():
    """What stab has, by the table of its command line."""
    commands = []
    for row in (TOP / "docs/FORMATS.md").read_text().split("\n"):
        match = re.match(r"^\| `([a-z]+)` (.*?)\| (reads.*) \|$", row.replace(r"\|", "/"))
        if match:
            flags = [(flag, None, "") for flag in re.findall(r"--([a-z]+)", match[2])]
            about = match[3].split("; ")[0].replace("`", "")
            commands.append(Command(match[1], about, flags, "[FILE]" in match[2]))
    return commands, []


def quoted(text):
    return "'" + text.replace("'", "'\\''") + "'"


def of_zsh(commands, options):
    """By each command what is said of it for zsh; and of no command, of all and the own options."""
    escaped = lambda text: re.sub(r"([\[\]:])", r"\\\1", text)
    own = f"compadd -- {' '.join(names_of(options))}"
    found = {None: {*(quoted(f"{it.name}:" + it.about.replace(":", "\\:")) for it in commands),
                    *[own] * bool(options)}}
    for it in commands:
        specs = [f"--{name}[{escaped(text)}]" + f":{value}:" * bool(value)
                 for name, value, text in it.options] + ["*:file:_files"] * it.has_file
        if it.name == "help":
            specs.append(f"*:command:({' '.join(other.name for other in commands)})")
        if specs:
            found[it.name] = {*map(quoted, specs)}
    return found


def in_zsh(text):
    """The same of a file for zsh."""
    found, command = {None: set()}, None
    for line in text.splitlines():
        if begins := re.fullmatch(r"    ([a-z]+)\)", line):
            command = begins[1]
        for spec in re.findall(r"^ +(?:_arguments )?('.*'|compadd .*?)(?: \\)?$", line):
            found.setdefault(command, set()).add(spec)
    return found


def of_fish(program, commands, options):
    """The lines of a file for fish."""
    first = f"complete -c {program} -n __fish_use_subcommand"
    lines = [f"complete -c {program} -f"]
    lines += [f"{first} -l {name} -d {quoted(text)}" for name, _, text in options]
    for it in commands:
        lines.append(f"{first} -a {it.name} -d {quoted(it.about)}")
        seen = f"complete -c {program} -n '__fish_seen_subcommand_from {it.name}'"
        lines += [f"{seen} -l {name}{' -x' * bool(value)}" + (f" -d {quoted(text)}" if text else "")
                  for name, value, text in it.options] + [f"{seen} -F"] * it.has_file
    return lines


def completed(program, *words):
    """What bash completes these words with, of which the last is being typed."""
    script = ('source "$1"; shift; COMP_WORDS=("$@"); COMP_CWORD=$(($# - 1)); "_$1"; '
              'printf "%s\\n" "${COMPREPLY[@]}"')
    said = subprocess.run(["bash", "-c", script, "-", HOME / f"{program}.bash", program, *words],
                          capture_output=True, text=True, cwd=HOME)
    return said.stderr or sorted(said.stdout.split())


def cases(name, commands, options):
    """Each case of a program, and whether it holds."""
    names, texts = [it.name for it in commands], {
        form: (HOME / form.format(name)).read_text() for form in ("_{}", "{}.fish")}
    yield f"{name} in zsh", in_zsh(texts["_{}"]) == of_zsh(commands, options)
    yield f"{name} in fish", [it for it in texts["{}.fish"].splitlines() if it[0] != "#"] == (
        of_fish(name, commands, options))
    page = (TOP / f"man/{name}.1").read_text().replace("\\-", "-")
    wanted = names + [word for it in commands for word in names_of(it.options)]
    yield f"man/{name}.1", all(re.search(re.escape(word) + r"\b", page) for word in wanted)
    yield f"{name} has commands", len(names) > 2 and (name == "stab" or len(options) > 1)
    yield f"{name} in bash", completed(name, "") == sorted(names + names_of(options))
    yield f"{name} help in bash", name == "stab" or completed(name, "help", "") == sorted(names)
    for it in commands:
        flags = sorted(names_of(it.options))
        yield f"{name} {it.name} in bash", not flags or completed(name, it.name, "--") == flags
        yield f"{name} {it.name} FILE in bash", not it.has_file or (
            completed(name, it.name, "_") == ["_rignolda", "_stab"])
        for word in names_of(option for option in it.options if option[1]):
            yield f"{name} {it.name} {word} in bash", completed(name, it.name, word, "") == []


def main(program):
    found = Cases()
    for of in ("rignolda", *rignolda(program)), ("stab", *stab()):
        for case in cases(*of):
            found.holds(*case)
    return found.sum_up()


if __name__ == "__main__":
    sys.exit(run_with(main, "rignolda"))
