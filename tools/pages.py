#!/usr/bin/env python3
"""Writes the page of claims from the sources, and checks all pages.

    tools/pages.py [FILE]     writes the page of claims, as out/CLAIMS.md or as this file
    tools/pages.py --check    writes nothing, and says what in a page leads nowhere

The page has, crate by crate: the comment of the crate; its public types and functions, with the
comments at them, what they require, and each clause with its text; the first comments of the files
of definitions and of lemmas, and the records of which a page cites a field, with the texts of all;
and the names of the planted bugs. A comment of `//` lines between the clauses of a function speaks
of those after it, up to the next comment or empty line. Where a function has no clause, or none but
`⊤`, which says nothing, the page says that it is tested alone.

The check sees that in every page of the repository each link leads to a file and a heading that
exist. In the pages that speak of these sources each clause that is cited must exist, and so must
each file and each name that is in backticks. The README may have 900 words beside its code, and has
to name the kit that made the release. And docs/PROOF.md must name those public functions of
which no clause says what it says of all others, in sentences that begin a paragraph with the words
of GAPS: these functions and no others, by name or with a star at the end. A symbolic link at the
top, as the one to the examples, must lead somewhere. The last line is 'N passed, M failed'.
"""
import itertools
import re
import sys
from pathlib import Path

# (nothing is to be left beside the sources)
sys.dont_write_bytecode = True
from crates import listed  # noqa: E402

TOP = Path(__file__).resolve().parent.parent
# What the page of claims begins with.
HEAD = (TOP / "tools/claims_head").read_text()
# The endings of the files that a page may name.
ENDINGS = "antt|rt|edit|md|py|sh|c|h|a|rs|toml|json|run|out|txt|html|svg|wasm|gz|bazel"
# A page about the past may name what is no more.
UNCITED = {"CHANGELOG.md"}
# What only a build makes.
MADE = re.compile(r"(out|bench/build)/")
# Names that pages cite of other programs and of the system, or as an example.
OTHERS = {"conflicts_with", "in_room", "F_SETPIPE_SZ", "O_DIRECT", "O_NONBLOCK"}


# The first page, and how many words it may have.
README, MOST_WORDS = "README.md", 900
PROOF = "docs/PROOF.md"


class Function:
    """A function with what it requires and ensures, or a type, which has no clauses."""

    def __init__(self, owner, name, public, doc):
        self.name, self.public = name, public
        self.path, self.owner = f"{owner}::{name}" if owner else name, owner or name
        # each group: what is said of it, and its clauses, each a name, which may be none, and text
        self.groups, self.requires = [(doc, [])], []
        # what is before its clauses; of a type there is none
        self.signature = ""
        # (what C calls is exported, whatever lib.rt names; of a trait that another type has, the
        # clauses are at the trait)
        self.for_c = self.of_trait = False

    def clauses(self):
        """Its clauses, each the name, which may be none, and the text."""
        return [clause for _, clauses in self.groups for clause in clauses]

    def is_silent_on_what_stays(self):
        """Whether no clause says of all that it is lent to change what that is after a refusal, or
        None where it is lent nothing, or nothing is refused."""
        lent, _, answer = self.signature.partition("->")
        if "&mut" not in lent or "Result<" not in answer:
            return None
        return not any(
            re.search(r"\b\w+\.new\b(?!\.)", text) and not re.match(r"(OnOk|IfOk)\b", text)
            for _, text in self.clauses())

    def is_silent_on_why(self):
        """Whether no clause says of every refusal which one it is: what the whole answer is, of
        which refusals a definition holds, or what of that which is given makes the only one. None
        where nothing is refused but memory."""
        refusal = re.search(r"-> Result<.*, (?:\w+::)*(\w+)>$", self.signature)
        if not refusal or refusal[1] == "AllocError":
            return None
        return not any(says_why(text) for _, text in self.clauses())


# What docs/PROOF.md says of every public function but those that it names: the words before these
# names, whether a function is one of them (None where there is nothing to say), and what is wrong
# if it is not named.
GAPS = [
    ("**No clause says what a refusal leaves**", Function.is_silent_on_what_stays,
     "no clause says what a refusal leaves of what it is lent"),
    ("**No clause says why**", Function.is_silent_on_why,
     "no clause says of every refusal which one it is"),
]


def says_why(text):
    """Whether a clause says of each refusal which one it is, and not only what it leaves, or which
    ones there are. Where they are all of memory or of writing, that is enough."""
    if re.search(r"\.new\b|\b(Keeps|IsFaultOf)\b", text):
        return False
    # (also of whatever value the answer is about)
    of = r"(\(\w+ : \w+\) → [^→]+ → )?"
    if re.match(of + r"(MatchResult result|result ≡ (?!Err\b)|IsErrOf result \S+ ↔|OnErr result)",
                text):
        return True
    body = re.match(r"IfErr result \((?:λ fault\.)?(.*)\)$", text)
    if not body or re.fullmatch(r"( ?⊎? ?\(fault ≡ \w+\.(Write|Memory)\))+", body[1]):
        return bool(body)
    # (without the names that it binds, and what it compares the fault with)
    rest = re.sub(r"\([\w ]+ : [^()]*\)|\bfault [≡≢] [\w.]+( \w+)*", "", body[1])
    return bool(re.search(r"\w", rest))


def in_one_line(lines):
    """The text of a comment as a cell of a table has it, without its examples in code."""
    text = " ".join(line for line in without_code("\n".join(lines)) if line)
    return re.sub(r"\[(`[^`]*`)\](?:\([^)]*\))?", r"\1", text).replace("|", "\\|")


def read_head(function, lines, at):
    """Reads the clauses of a function from its first line on."""
    notes, group = [], function.groups[0]
    while True:
        line = lines[at].strip()
        clause = re.match(r"(requires|ensures)(?: (\w+))? \{", line)
        if clause:
            text = line[clause.end():]
            while text.count("{") + 1 > text.count("}"):
                at += 1
                text += " " + lines[at].strip()
            if clause[1] == "requires":
                function.requires.append(text[:text.rindex("}")].strip())
            else:
                # (what comes before `in` gives names alone)
                said = re.sub(r"^(let .*? in )+", "", text[:text.rindex("}")].strip())
                if notes:
                    group = (in_one_line(notes), [])
                    function.groups.append(group)
                    notes = []
                group[1].append((clause[2], said))
            if text.endswith(";"):
                return
        elif line.startswith("// "):
            notes.append(line[3:])
        elif not line:
            group = function.groups[0]
        else:
            function.signature += line.rstrip(" {};") + " "
            if line.endswith(("{", "}", ";")):
                return
        at += 1


def functions(path):
    """The functions and types of a file of code, each function with what it belongs to."""
    found, doc, owner, trait = [], [], None, None
    lines = path.read_text().splitlines()
    for at, line in enumerate(lines):
        said = in_one_line(doc)
        kind = re.match(r"pub (?:struct|enum|trait) (\w+)", line)
        if kind and said:
            found.append(Function(None, kind[1], True, said))
        block = re.match(r"(?:pub )?trait (\w+)|impl(?:<.*?>)? (?:(\w+)(?:<.*>)? for )?(\w+)", line)
        if block:
            # (what a trait declares, and what a type has of it, is as public as they are)
            owner, trait = block[1] or block[3], block[1] or block[2]
        elif line == "}":
            owner, trait = None, None
        fn = re.match(r"(|    )(pub )?(extern \"C\" )?fn (\w+)", line)
        if fn:
            if trait and trait != owner and not said:
                said = f"As `{trait}` says."
            module = path.stem if path.stem in ("laws", "examples") else None
            function = Function(owner or module, fn[4], bool(fn[2] or trait), said)
            function.for_c = bool(fn[3])
            function.of_trait = bool(trait and trait != owner)
            read_head(function, lines, at)
            function.signature = re.split(r" where\b", function.signature)[0].strip(" ,")
            found.append(function)
        if line.strip().startswith("///"):
            doc.append(line.strip()[3:].strip())
        elif not line.strip().startswith(("#", "//")):
            doc = []
    return found


def exported(crate):
    """The names that other crates can use."""
    text = (TOP / "crates" / crate / "src/lib.rt").read_text()
    names = set(re.findall(r"^pub mod (\w+)", text, re.M))
    for use in re.findall(r"^pub use (?!stab_)\w+::(?:\{([^}]*)\}|(\w+))", text, re.M):
        names.update(re.findall(r"\w+", " ".join(use)))
    return names


def first_comment(path, mark="--"):
    """The comment at the beginning of a file, without what it says of its source."""
    lines = [line[len(mark):].strip() for line in itertools.takewhile(
        lambda it: it.startswith(mark), path.read_text().splitlines())]
    text = re.sub(r" \(this project's profile\)", "", in_one_line(lines))
    return re.sub(r" Source: [^.;]*[.;]( \w)?", lambda found: (found[1] or "").upper(), text)


def public_functions(crate):
    """The functions and types of a crate that other crates can use."""
    names = exported(crate)
    for path in sorted((TOP / "crates" / crate / "src").glob("*.rt"), key=lambda p: p.stem):
        for function in functions(path):
            if function.public and (function.owner in names or function.for_c):
                yield function


def claims(crate):
    """The lines of a crate's claims: each function and type, and its clauses."""
    lines = []
    for function in public_functions(crate):
        said = function.groups[0][0]
        if not function.clauses() and (not said or said.startswith("As `")):
            continue
        head = f"**`{function.path}`**"
        if function.signature:
            form = re.sub(r"^.*?\bfn \w+|\s+(?=\))|(?<=\()\s+|,(?=\s*\))", "", function.signature)
            head += f" `{form.strip(' ,')}`"
        lines += ["", f"{head} {said}".strip()]
        if function.signature and not function.of_trait and {
                text for _, text in function.clauses()} <= {"⊤"}:
            lines[-1] += " *No clause, tested.*"
        clauses = [f"- *requires* `{text}`" for text in function.requires]
        for at, (note, group) in enumerate(function.groups):
            clauses += [f"- *{note}*"] if at and group else []
            clauses += [f"- `.{name}` `{text}`" if name else f"- `{text}`" for name, text in group]
        lines += [""] * bool(clauses) + clauses
    return lines[1:]


def files(crate, folder):
    """The rows of the files of definitions, or of lemmas, of a crate."""
    paths = sorted((TOP / "crates" / crate / folder).glob("*.antt"))
    return [f"| `{path.name}` | {first_comment(path)} |" for path in paths if path.stem != "Lib"]


def records_of(path):
    """The records of a file of definitions: of each its name, what it is of, and its fields."""
    for block in re.split(r"\n(?=\S)", path.read_text()):
        record = re.match(r"pub record (\w+) *(.*?) *: Type \S+ where\n(.*)", block, re.S)
        if record:
            text = re.sub(r" *--.*\n", "", record[3] + "\n")
            fields = re.findall(r"  pub (\w+) :\s+(.*?)\n(?!    )", text, re.S)
            yield record[1], " ".join(record[2].split()), {
                name: " ".join(its.split()) for name, its in fields}


def records(crate, names):
    """The lines of those records of a crate's definitions that have these names."""
    lines = []
    for path in sorted((TOP / "crates" / crate / "specs").glob("*.antt")):
        for name, of, fields in records_of(path):
            if name in names:
                lines += ["", f"**`{name}`**" + (f" `{of}`" if of else ""), ""]
                lines += [f"- `.{field}` `{text}`" for field, text in fields.items()]
    return lines[1:]


def libraries():
    """The crates that others use, without those of tests."""
    return [crate for crate in listed(TOP) if not crate.startswith("tests_")
            and (TOP / "crates" / crate / "src/lib.rt").exists()]


def page_of_claims():
    # (the records that are shown are those of which a page cites a field)
    cited = {name for page in pages() for name in re.findall(r"`(\w+)\.\w+`", page.read_text())}
    lines = [HEAD]
    for crate in libraries():
        home = TOP / "crates" / crate
        lines += [f"## `{crate}`", "", first_comment(home / "src/lib.rt", "//!"), ""]
        folders = home / "must-fail", TOP / "tests/edits" / crate
        bugs = sorted(f"`{path.stem}`" for at in folders for path in at.glob("*.edit"))
        for head, shown in (
                (["### Claims", ""], claims(crate)),
                (["| Definitions | What they say |", "|---|---|"], files(crate, "specs")),
                ([], records(crate, cited)),
                (["| Lemmas | What they say |", "|---|---|"], files(crate, "proofs")),
                ([], [f"Planted bugs: {', '.join(bugs)}."] * bool(bugs))):
            lines += [*head, *shown, ""] if shown else []
    return "\n".join(lines)


def pages():
    return [path for path in all_files() if path.suffix == ".md"]


def all_files():
    """The files of the repository, without what was built."""
    built = {"out", "build", "target", ".git", "__pycache__"}
    for path in sorted(TOP.glob("*")) + sorted(TOP.glob("*/**/*")):
        if path.is_file() and path.resolve() == path:
            if not built & set(path.relative_to(TOP).parts):
                yield path


def without_code(text):
    """A text in which blocks of code are empty lines, so that all lines keep their numbers."""
    shown, code = [], False
    for line in text.splitlines():
        fence = line.lstrip("> ").startswith("```")
        shown.append("" if code or fence else line)
        code = code != fence
    return shown


def headings(path):
    """What a link may name in a page, as the forges make it from its headings."""
    found, counts = [], {}
    for line in without_code(path.read_text()):
        heading = re.match(r"#+ (.*)", line)
        if heading:
            text = re.sub(r"\[([^]]*)\]\([^)]*\)", r"\1", heading[1])
            name = re.sub(r"[^\w\- ]", "", text.lower()).replace(" ", "-")
            counts[name] = counts.get(name, -1) + 1
            found.append(f"{name}-{counts[name]}" if counts[name] else name)
    return found


def bad_links(path):
    """The links of a page that lead nowhere."""
    for number, line in enumerate(without_code(path.read_text()), 1):
        for target in re.findall(r"\]\(([^)\s]+)\)", re.sub(r"`[^`]*`", "", line)):
            if re.match(r"\w+:", target):
                continue
            place, _, heading = target.partition("#")
            there = (path.parent / place).resolve() if place else path
            if not there.exists():
                yield number, f"no file {place}"
            elif heading and heading not in headings(there):
                yield number, f"no heading {target}"


def faults_of_readme():
    """What is wrong with the first page as a whole: that it is too long, beside its code, or that
    it names another kit than the one by which the release was made."""
    text = (TOP / README).read_text()
    count = len([it for it in " ".join(without_code(text)).split() if re.search(r"\w", it)])
    if count > MOST_WORDS:
        yield 0, f"it has {count} words, and may have {MOST_WORDS}"
    manifest = TOP / "release/MANIFEST"
    kit = re.match("kit (.*)", manifest.read_text())[1] if manifest.exists() else ""
    if kit not in text:
        yield 0, f"it does not name the kit of release/MANIFEST: {kit}"


def gaps():
    """What is wrong with the sentences of docs/PROOF.md that name functions without a clause."""
    page = TOP / PROOF
    lines = page.read_text().splitlines() if page.exists() else []
    public = [(crate, function) for crate in libraries() for function in public_functions(crate)
              if function.signature and not function.of_trait]
    for words, is_gap, fault in GAPS:
        number = next((at for at, line in enumerate(lines, 1) if line.startswith(words)), 0)
        sentence = re.split(r"\.(?: |$)", lines[number - 1])[0] if number else ""
        named = re.findall(r"`([^`]+)`", sentence)
        met = set()
        for crate, function in public:
            paths = (function.name, function.path, f"{crate}::{function.path}")
            covering = {name for name in named if any(
                path == name or name.endswith("*") and path.startswith(name[:-1])
                for path in paths)}
            gap = is_gap(function)
            # (a star may stand for functions of which there is nothing to say)
            met |= covering if gap is not None else set()
            if gap and not covering:
                yield number, (f"{crate}::{function.path}: {fault}, and the sentence {words} "
                               "does not name it: write the clause, or name it there")
            elif covering and gap is False:
                yield number, (f"{crate}::{function.path} has a clause on it now: take "
                               f"{', '.join(sorted(covering))} out of the sentence {words}")
        for name in sorted(set(named) - met):
            yield number, (f"{name}: take it out of the sentence {words}, since there is no such "
                           "public function, or nothing for a clause to say")


class Sources:
    """What the sources have that a page may cite."""

    def __init__(self):
        self.clauses, self.words, self.files = {}, set(), set()
        found = []
        for path in all_files():
            place = str(path.relative_to(TOP))
            self.files.add("/" + place)
            self.words.update(re.findall(r"\w+", place))
            if path.suffix not in (".md", ".gz"):
                self.words.update(re.findall(r"\w+", path.read_text(errors="replace")))
            if path.suffix == ".rt" and not place.startswith("crates/tests_"):
                found += functions(path)
            if path.suffix == ".antt" and path.parent.name == "specs":
                # (what a record says is as the clauses of its name)
                for name, _, fields in records_of(path):
                    self.clauses.setdefault(name, set()).update(fields)
        # (where a public function has the name, it is the one that is meant)
        known = {*self.clauses, *(it.name for it in found if it.public)}
        for function in found:
            if function.public or function.name not in known:
                for name in {function.name, function.path}:
                    self.clauses.setdefault(name, set()).update(
                        its for its, _ in function.clauses())

    def has_file(self, name):
        """Whether there is such a file or folder, with or without the folders above it."""
        name = "/" + name.removeprefix("./").removeprefix("examples/").rstrip("/")
        return (TOP / name[1:]).exists() or any(
            file.endswith(name) or name + "/" in file or name + "." in file for file in self.files)

    def missing(self, page):
        """What a page cites and the sources do not have."""
        for number, line in enumerate(without_code(page.read_text()), 1):
            tokens = re.findall(r"`([^`]+)`", line)
            cited = {clause for token in tokens
                     for clause in self.clauses.get(self.function(token), ())}
            for token in tokens:
                function, _, clause = token.rpartition(".")
                if re.fullmatch(r"\.\w+", token):
                    if clause not in cited | {"err", "out", "run", "json"}:
                        yield number, f"no clause {token} of what this line names"
                elif clause in self.clauses.get(self.function(function), ()):
                    continue
                elif re.fullmatch(r"[\w./-]+\.(" + ENDINGS + r")|[\w.-]+/[\w./-]*", token):
                    # (a name in capitals is one to be filled in)
                    filled_in = re.search(r"\b[A-Z]{2,}\b|\.\.", token)
                    if not filled_in and not MADE.match(token) and not self.has_file(token):
                        yield number, f"no file {token}"
                elif clause and self.function(function) in self.clauses:
                    yield number, f"no clause {token}"
                elif re.fullmatch(r"(\w+::)*[A-Za-z]*(_|[a-z][A-Z]|::|\.)\w*", token):
                    if not set(re.findall(r"\w+", token)) <= self.words | OTHERS:
                        yield number, f"no such name in the sources: {token}"

    def function(self, token):
        """The function that a token names, without the crate before it."""
        name = re.sub(r"^(?:stab|tests)_\w+::", "", token)
        whole = name if name in self.clauses else name.rpartition(".")[0]
        return whole if whole in self.clauses else name.rpartition("::")[2].partition(".")[0]


def check():
    """Looks at all pages. It prints what is wrong, and the last line."""
    passed, wrong = 0, []
    sources = Sources()
    for path in pages():
        name = str(path.relative_to(TOP))
        found = list(bad_links(path))
        if name not in UNCITED:
            found += sources.missing(path)
        if name == PROOF:
            found += gaps()
        if name == README:
            found += faults_of_readme()
        passed += not found
        wrong += [f"{name}:{number}: {what}" for number, what in sorted(found)]
    links = [path for path in sorted(TOP.glob("*")) if path.is_symlink()]
    broken = [f"{path.name}: it leads nowhere" for path in links if not path.exists()]
    wrong += broken
    print(*wrong, f"{passed + len(links) - len(broken)} passed, {len(wrong)} failed", sep="\n")
    return 1 if wrong else 0


def main():
    if sys.argv[1:] == ["--check"]:
        sys.exit(check())
    if len(sys.argv) > 2 or sys.argv[1:2] and sys.argv[1].startswith("-"):
        sys.exit("tools/pages.py takes --check, or a file, or no words at all")
    page = Path(sys.argv[1]) if sys.argv[1:] else TOP / "out/CLAIMS.md"
    page.parent.mkdir(parents=True, exist_ok=True)
    page.write_text(page_of_claims())


main()
