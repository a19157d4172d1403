#!/usr/bin/env python3
"""Spoils the jobs of the examples and gives them to `stab`: tests/hostile/fuzz.py

    tests/hostile/fuzz.py                          100,000 cases, of seed 1
    tests/hostile/fuzz.py --cases 1000 --seed 7    others
    tests/hostile/fuzz.py --first 4711 --cases 1   one case of these again

A case is a spoilt job and a command, which its seed and its number say on every machine. A job is
spoilt in its tokens, in its bytes, or in its encoding; a part of the trees first gets a version and
openings. `stab` must end within 20 seconds and answer what tests/tables/reader.py finds. And
`rignolda explain` must say of the job of a link or tree what `stab` says: its last line is that
fault, or `accepted`; a fault has a finding with a place; and the status is 0 where there is nothing
to find.

A job that fails is kept in tests/hostile/build/, or where --keep says, as NAME.json, beside
NAME.txt with the words and what was seen; --lanes says how many programs run at a time. The
programs are those of tests/check_tables.py.
"""
import collections
import concurrent.futures
import functools
import json
import random
import re
import subprocess
import sys
import tempfile
from pathlib import Path

HERE = Path(__file__).resolve().parent
TOP = HERE.parent.parent
sys.dont_write_bytecode = True
sys.path[:0] = [str(TOP / "tools"), str(TOP / "tests")]
from examples import DATA, words_of  # noqa: E402
from programs import answered, built, options, sum_up  # noqa: E402
from tables.reader import EVENTS, LETTERS, row  # noqa: E402

# How many bytes a job may have.
MOST_BYTES = 16_777_216

SECONDS = 20
COMMANDS = [["link"], ["link", "--trace"], ["tree"], ["run"], ["run", "--words"],
            ["run", "--mixed"]]

TOKEN = re.compile(r'"(?:[^"\\]|\\.)*"|[][{}:,]|[^][{}:,"\s]+|\s+|"')
LIMITS = [0, 1, 2, 3, 4, 63, 64, 65, 127, 128, 999, 1000, 1001, 9_999, 10_000, 10_001, 99_999,
          100_000, 100_001, 999_999, 1_000_000, 1_000_001, 2**24]
LIMITS += [2**bits + more for bits in (8, 15, 16, 31, 32, 53, 63, 64, 128) for more in (-1, 0, 1)]
NUMBERS = [str(limit) for limit in LIMITS] * 2
NUMBERS += "-1 -0 0.0 1.0 1e0 1E+2 1e2 10e-1 1e999 -1e999 1e-999 0e999 1e308 1.8e308 5e-324".split()
NUMBERS += "00 01 +1 .5 5. 1e 0x10 1_000 NaN Infinity -Infinity - --1 1,0".split()
NUMBERS += ["9" * 308, "1" + "0" * 308, "9" * 400, "0." + "0" * 400 + "1"]
WORDS = 'null true false nul True [] {} "" [[]] [{}] {"a":0} [null] "null" [0,0]'.split()
TEXTS = [json.dumps(word) for word in [
    *sorted(EVENTS), "offer", "lose_frame", "lose_ack", "jump", *LETTERS, *"rabcdex",
    *"version capacity labels links tree items starts scripts turns schedule start events frames "
    "acks send recv name parent seed length loss repeat h openings extra Capacity".split(),
    "", " ", "A", "_", "PDE" * 40, "TK", "x" * 5000, "a" * 32, "a" * 33, "é€𝄞"]]
TEXTS += [f'"{part}"' for part in (
    r"\u0061", r"\u0000", r"\ud800", r"\udc00", r"\ud834\udd1e", r"\udd1e\ud834", r"\/", r"\x",
    "\\", r"\u12", "\t", "\0", "\x7f", r"\u0063apacity")]
SIGNS = [*",:[]{}", "[[", "]]", "//", "#", "'a'", "\0", '"', "/* */"]
PIECES = [b"\xef\xbb\xbf", b"\xff", b"\xc0\xaf", b"\xed\xa0\x80", b"\xf4\x90\x80\x80", b"\xc2\xa0",
          b"\xe2\x80\xa8", b"\x0b", b"\x0c", b"\x1a", b"\0", b"\xc3\xa9", b"\xf0\x9d\x84\x9e"]
CODES = "utf-16 utf-16-le utf-16-be utf-32 utf-8-sig cp037 utf-7".split()


# How a job is spoilt.


def end_of(tokens, first):
    """Where the value that begins at a token ends, or the member whose name it is."""
    depth = 0
    for place in range(first, len(tokens)):
        depth += (tokens[place] in "[{") - (tokens[place] in "]}")
        if depth <= 0 and tokens[place] != ":" and tokens[place + 1:place + 2] != [":"]:
            return place + 1
    return len(tokens)


def spoilt_value(draw, tokens, places, first, last):
    """What stands in the place of a value or member."""
    value, way = tokens[first:last], draw.random()
    if way < 0.4:
        pool = NUMBERS if value[0][0] not in '"[{' else TEXTS if value[0][0] == '"' else WORDS
        other = draw.choice(pool if draw.random() < 0.8 else NUMBERS + WORDS + TEXTS + SIGNS)
        return [other, *value[1:]] if value[1:2] == [":"] else [other]
    if way < 0.6:
        times = draw.choice([1] if last - first > 99 else [1, 1, 2, 19, 64, 1000])
        return [*(value + [","]) * times, *value]
    if way < 0.75:
        other = draw.choice(places)
        return tokens[other:end_of(tokens, other)]
    if way < 0.8:
        before, after = draw.choice(["[]", ('{"a":', "}")])
        levels = draw.choice([1, 2, 100, 124, 125, 126, 127, 128, 1000, 50_000])
        return [before * levels, *value, after * levels]
    cuts = [at for at, token in enumerate(value) if token == ","]
    if way < 0.9 and cuts:
        # (the parts of a list or of an object in another order)
        cut = draw.choice(cuts)
        return [value[0], *value[cut + 1:-1], ",", *value[1:cut], value[-1]]
    return [draw.choice(SIGNS), *value][::draw.choice([1, -1])]


def spoil_tokens(draw, text):
    """A text in which values and members were changed or removed at one to three places."""
    tokens = [token for token in TOKEN.findall(text) if token.strip()]
    for _ in range(draw.choice([1, 1, 1, 2, 3])):
        places = [place for place, token in enumerate(tokens) if token not in ",:]}"]
        if not places or len(tokens) > 100_000:
            break
        first = draw.choice(places)
        last = end_of(tokens, first)
        if draw.random() < 0.85:
            tokens[first:last] = spoilt_value(draw, tokens, places, first, last)
        elif tokens[last:last + 1] == [","]:
            del tokens[first:last + 1]
        else:
            del tokens[first - (tokens[first - 1] == ","):last]
    return "".join(tokens).encode("utf-8", "surrogatepass")


def spoil_bytes(draw, text):
    """Bytes that were flipped, removed, inserted, cut, doubled or moved, at one to four places."""
    text = bytearray(text)
    for _ in range(draw.choice([1, 1, 1, 2, 4])):
        at, to = draw.randrange(len(text) + 1), draw.randrange(len(text) + 1)
        piece = text[at:at + draw.choice([1, 1, 1, 2, 4, 16, 64])]
        way = draw.randrange(7)
        if way == 0 and piece:
            text[at] ^= 1 << draw.randrange(8)
        elif way == 1:
            del text[at:at + len(piece)]
        elif way == 2:
            text[at:at] = draw.choice(PIECES + [sign.encode() for sign in SIGNS])
        elif way == 3:
            text[at:at] = piece * draw.choice([1, 1, 2, 100])
        elif way == 4:
            text[to:to] = piece
        elif way == 5 and piece:
            # (one byte as two or three, which UTF-8 forbids)
            high, low = piece[0] >> 6 & 1, 0x80 | piece[0] & 0x3F
            text[at:at + 1] = draw.choice([bytes([0xC0 | high, low]),
                                           bytes([0xE0, 0x80 | high, low])])
        elif draw.random() < 0.3:
            del text[at:]
    return bytes(text)


def spoil_encoding(draw, text):
    """The text in another encoding, or with marks, spaces or bytes that JSON does not have."""
    way, piece = draw.randrange(4), draw.choice([*PIECES, b"\n", b" \t\r\n", b"\r"])
    if way == 0:
        return text.decode("utf-8", "replace").encode(draw.choice(CODES), "replace")
    if way == 1:
        return text + draw.choice([piece, text])
    if way == 2:
        return piece + text
    return re.sub(rb"([,:\[\]{}])", lambda found: found[1] + piece, text)


def with_openings(draw, text):
    """A job of a tree with a version and with openings. Most are right: those of inner nodes have
    no more items than an opening may have, and those of the root and of the leaves none."""
    try:
        nodes = json.loads(text)["tree"]
        parents = [node.get("parent") for node in nodes]
        is_inner = [parent is not None and node["name"] in parents
                    for node, parent in zip(nodes, parents)]
    except (ValueError, LookupError, TypeError, AttributeError, RecursionError):
        return text
    hold = draw.choice([0, 1, 2, 2, 2, 3, 63, 64, 64, 65, 65_536])
    lists = [[draw.randrange(50, 60) for _ in range(
        draw.randrange(min(hold, 65) + 1) * (inner != (draw.random() < 0.02))
        + (draw.random() < 0.01))] for inner in is_inner]
    more = {"version": draw.choice([2] * 8 + [1, 3, 0, 2.0, "2", True, None]), "h": hold,
            "openings": lists}
    return text.replace("{", json.dumps(more)[:-1] + ",", 1)


@functools.lru_cache
def corpus():
    """The examples: each job's text and its command. Those that end well are there several times,
    since most ways to spoil a job need one that is right elsewhere."""
    found = []
    for path in sorted(DATA.rglob("*.json")):
        known = {word for command in COMMANDS for word in command}
        command = [word for word in words_of(path) if word in known]
        found += [(path.read_bytes().decode("utf-8", "replace"),
                   command if command in COMMANDS else ["link"])] * (
            4 if path.with_suffix(".out").exists() else 1)
    return found


def case(seed, number):
    """The spoilt job of a case, and its command."""
    draw = random.Random(f"{seed}/{number}")
    text, command = draw.choice(corpus())
    if draw.random() < 0.25:
        command = draw.choice(COMMANDS)
    elif command[0] != "link":
        command = draw.choice(COMMANDS[2:])
    elif draw.random() < 0.4:
        command = ["link", "--trace"]
    if command[0] != "link" and draw.random() < 0.3:
        text = with_openings(draw, text)
        if draw.random() < 0.3:
            return command, text.encode()
    way, data = draw.random(), text.encode()
    if way < 0.72:
        data = spoil_tokens(draw, text)
    elif way < 0.91:
        data = spoil_bytes(draw, data)
    else:
        data = spoil_encoding(draw, data)
    data = spoil_bytes(draw, data) if draw.random() < 0.05 else data
    # (of a longer file nothing is read)
    return command, data[:MOST_BYTES]


# How a case is run and judged.


def wrong_with(programs, command, data):
    """What is wrong with what the programs say of a job, or None, and what `stab` said."""
    try:
        status, out, err = answered(programs["stab"], *command, given=data, timeout=SECONDS)
        wrong = row("a spoilt job", command, data).fault(status, out, err)
        if wrong or command[0] == "run":
            return wrong, err
        found, said, more = answered(programs["rignolda"], "explain", given=data, timeout=SECONDS)
    except subprocess.TimeoutExpired as late:
        return f"{late.cmd} had not ended after {SECONDS} seconds", ""
    lines, fault = said.splitlines(), err.removeprefix("stab: ").strip()
    if more or not lines:
        return f"an explanation that failed: {more}", err
    # (it says of which kind the job is, which may be another one than that of the case)
    if lines[-1].startswith(f"stab {command[0]}: "):
        if lines[-1] != f"stab {command[0]}: {fault or 'accepted'}":
            return f"an explanation that ends with {lines[-1]!r}", err
        if "the job: refused" in lines:
            return "an explanation without a place", err
        if found != (0 if not fault and len(lines) == 1 else 1):
            return f"an explanation with the status {found}", err
    return None, err


def tried(programs, keep_in, seed, number):
    """Tries a case: what is wrong with it, or None, and what was said of it."""
    command, data = case(seed, number)
    wrong, said = wrong_with(programs, command, data)
    if wrong:
        keep_in.mkdir(parents=True, exist_ok=True)
        path = keep_in / f"seed_{seed}_case_{number}.json"
        path.write_bytes(data)
        path.with_suffix(".txt").write_text(f"stab {' '.join(command)} < {path}\n{wrong}\n")
    return wrong, said.strip() or f"a text of {' '.join(command)}"


def main():
    given = options(cases=100_000, first=0, seed="1", lanes=4, keep=HERE / "build")
    counts, results = collections.Counter(), []
    numbers = range(given.first, given.first + given.cases)
    with tempfile.TemporaryDirectory(prefix="stab-fuzz-") as folder:
        programs = {name: built(name, folder) for name in ("stab", "rignolda")}
        tries = functools.partial(tried, programs, given.keep, given.seed)
        with concurrent.futures.ProcessPoolExecutor(given.lanes) as lanes:
            for number, (wrong, said) in zip(numbers, lanes.map(tries, numbers, chunksize=500)):
                counts[said] += 1
                results.append(not wrong)
                if wrong:
                    print(f"OTHER  case {number}: {wrong[:1000]}", flush=True)
    for line, count in counts.most_common():
        print(f"{count:7}  {line}")
    return sum_up(results)


if __name__ == "__main__":
    sys.exit(main())
