#!/usr/bin/env -S python3 -B
"""Compares what the daemon reads of connections and stores, and writes, with a plain reader here:
tests/check_wire.py [STREAMS]

`net/wire.rs` of the daemon, over the proved archive for Rust, is compiled apart with
tests/wire/compared.rs. Drawn streams of messages, spoilt and in drawn pieces, have to be read
alike: each message, what is left, each refusal; and each message is written as it came. What the
calls of the archive say is proved; here is tried what lies around them. It needs rustc. The last
line is 'N passed, M failed', in which each kind of answer is a case.
"""
import collections
import platform
import random
import re
import shutil
import subprocess
import sys
import tempfile
from pathlib import Path

from programs import TOP

MACHINE = TOP / "rust/rignolda_machine"
VECTORS = TOP / "docs/schema/wire.txt"
# Those of the daemon's modules that wire.rs needs, and what else of net.rs.
OF_NET = "error", "parents", "proved", "refusal", "wire"
ITEMS = re.compile(r"^(?:#\[derive\([^\n]*\)\]\n)?(?:pub )?"
                   r"(?:const \w+_BYTES[^\n]*;\n|struct Body \{.*?^\}\n|fn is_\w+\(.*?^\}\n)",
                   re.M | re.S)
NAME = re.compile(r"[0-9A-Za-z_][0-9A-Za-z._-]{0,63}")
LETTERS = "abzAZ09._-"


class More(Exception):
    """More has to come."""


class Wrong(Exception):
    """It is no message, for this reason."""


# ---- The plain reader

class Rest:
    """What is still to be read."""

    def __init__(self, data):
        self.data, self.at = data, 0

    def take(self, count):
        self.at += count
        if self.at > len(self.data):
            raise More
        return self.data[self.at - count:self.at]

    def number(self, digits):
        return int.from_bytes(self.take(digits), "big")

    def counted(self, digits, most, why):
        count = self.number(digits)
        if count > most:
            raise Wrong(why)
        return self.take(count)


def hello(rest):
    for letter in b"RGN":
        if rest.number(1) != letter:
            raise Wrong("NoHello")
    kind = {68: "hello", 76: "look"}.get(rest.number(1))
    if not kind:
        raise Wrong("NoHello")
    version = rest.number(1)
    if version < (1 if kind == "hello" else 2):
        raise Wrong("NoVersion")
    life, label, names = rest.number(8), rest.number(2), []
    for _ in range(2):
        names.append(rest.counted(1, 64, "NoName").decode("latin-1"))
        if not NAME.fullmatch(names[-1]) and names[1:] != [""]:
            raise Wrong("NoName")
    has_range = version > 1 and 0 < label >> 8 <= label & 255
    least, most = (label >> 8, label & 255) if has_range else (version, version)
    return f"{kind} {version} {life} {label} {names[0]} [{names[1]}] {least}..={most}"


def way(rest):
    cost = rest.number(2)
    names = rest.counted(2, 128 * 65, "LongWay").decode("latin-1").split("\n")
    if len(names) > 128:
        raise Wrong("LongWay")
    if not all(map(NAME.fullmatch, names)):
        raise Wrong("NoNameOfWay")
    return f"way {cost} {' '.join(names)}"


def frame(rest):
    label, item = rest.number(2), rest.number(4)
    return f"frame {label} {item} [{rest.counted(4, 1 << 24, 'LongBody').hex()}]"


def reference(rest):
    label, item, length = rest.number(2), rest.number(4), rest.number(4)
    if length > 1 << 24:
        raise Wrong("LongBody")
    return f"reference {label} {item} {length} {rest.take(9).hex()} {rest.take(32).hex()}"


KINDS = {
    "Way": {b"W": way},
    "Frames": {b"F": frame, b"D": reference, b"W": way, b"Q": lambda rest: "request"},
    "Acks": {b"A": lambda rest: f"ack {rest.number(2)}",
             b"N": lambda rest: f"lacks {rest.number(2)}",
             b"R": lambda rest: f"report [{rest.counted(4, 1 << 20, 'LongReport').hex()}]",
             b"G": lambda rest: "goodbye"},
}


# ---- Version 5

def numbered_way(rest):
    return f"numbered-way {rest.number(8)} {way(rest)[4:]}"


def signature(rest):
    return f"[{rest.counted(2, 1024, 'LongSignature').hex()}]"


def signed_frame(rest):
    head = f"signed-frame {rest.number(2)} {rest.number(4)} {signature(rest)}"
    return f"{head} [{rest.counted(4, 1 << 24, 'LongBody').hex()}]"


def signed_reference(rest):
    return f"signed-{reference(rest)} {signature(rest)}"


KINDS |= {
    "NumberedWay": {b"V": numbered_way},
    "SignedFrames": {b"S": signed_frame, b"B": signed_reference, b"V": numbered_way,
                     b"E": lambda rest: f"filler {rest.number(2)}", b"Q": lambda rest: "request"},
}
CODES = ["", "1", "NoHello", "NoVersion", "NoName", "NoMessage", "LongBody", "LongWay",
         "NoNameOfWay", "LongReport", "LongSignature"]


def message(rest, expect):
    if expect == "Hello":
        return hello(rest)
    kind = KINDS[expect].get(rest.take(1))
    if not kind:
        raise Wrong("NoMessage")
    return kind(rest)


def refused(expect, data):
    """The byte of the reason for which an end is refused by all that it was told."""
    front = {"Hello": b"RGNL\2", "Frames": b"W"}.get(expect)
    if not front or not data.startswith(front):
        return None
    why = data[len(front):]
    if not why and expect == "Hello":
        return 0
    return (why[1] if why[1] < 8 else 0) if len(why) == 2 and why[0] == 255 else None


def some(it):
    return "None" if it is None else f"Some({it})"


def heard(expect, pieces):
    """The messages of a stream, at last why it has no more, and the bytes that are left."""
    told, left, last = [], b"", ""
    for piece in pieces:
        rest, at = Rest(left + piece), 0
        try:
            while True:
                told.append(message(rest, expect))
                at = rest.at
        except (More, Wrong) as why:
            left, last = rest.data[at:], str(why)
        if last:
            told.append(last)
            break
    return told, left, last


def answer(expect, pieces):
    """What compared.rs is to say of a stream, and the kinds of that."""
    told, left, last = heard(expect, pieces)
    if expect in ("NumberedWay", "SignedFrames"):
        code = CODES.index(last) if last else 1
        words = "".join(f"{it}; " for it in (told[:-1] if last else told))
        return f"{words}{code} {left.hex()}", {f"{it.split()[0]} (5)" for it in told}
    head = [int.from_bytes(left[a:b], "big") for a, b in ((1, 3), (3, 7), (7, 11))]
    head = tuple(head) if left[:1] == b"F" and len(left) > 10 else None
    name = str(bool(NAME.fullmatch(left.decode("latin-1")))).lower()
    why = refused(expect, left)
    kinds = {it.split()[0] for it in told} | ({"waits"} if left and not last else set())
    words = "".join(f"{it}; " for it in told)
    return (f"{words}{left.hex()} {some(why)} {some(head)} {name}",
            kinds | ({"is refused"} if why is not None else set()))


# ---- The streams

EXPECTED = ["Hello", "Way", "Frames", "Acks", "NumberedWay", "SignedFrames"]


def number(draw, digits, most=None):
    return draw.randrange(most or 1 << 8 * digits).to_bytes(digits, "big")


def name(draw):
    length = draw.choice([0, draw.randint(62, 67), draw.randrange(256), *[draw.randint(1, 6)] * 9])
    return "".join(draw.choices(LETTERS, k=length)).encode()


def drawn(draw, expect):
    """A message that may come, if its names are some."""
    kind = draw.choice({"Hello": "HL", "Way": "W", "Frames": "WDQFFF", "Acks": "NRGAA",
                        "NumberedWay": "V", "SignedFrames": "VBEQSSS"}[expect])
    letter = kind.encode()
    if kind in "HL":
        names = [bytes([len(it)]) + it for it in (name(draw), name(draw))]
        numbers = number(draw, 1, 6) + number(draw, 10)
        return (b"RGND" if kind == "H" else b"RGNL") + numbers + b"".join(names)
    if kind in "WV":
        letter += number(draw, 8) if kind == "V" else b""
        count = draw.choice([0, draw.randint(127, 130), *[draw.randint(1, 5)] * 8])
        names = b"\n".join(name(draw) for _ in range(count))[:65535]
        return letter + number(draw, 2) + len(names).to_bytes(2, "big") + names
    vouches = draw.randbytes(draw.choice([0, 72, draw.randint(1_022, 1_026)]))
    vouches = len(vouches).to_bytes(2, "big") + vouches if kind in "BS" else b""
    if kind in "DB":
        length = draw.choice([(1 << 24) - 1 + draw.randrange(3), draw.randrange(99)])
        return letter + number(draw, 6) + length.to_bytes(4, "big") + draw.randbytes(41) + vouches
    if kind in "FRS":
        text = draw.randbytes(draw.randrange(40))
        head = number(draw, 6) if kind in "FS" else b""
        return letter + head + vouches + len(text).to_bytes(4, "big") + text
    return letter + (number(draw, 2) if kind in "NAE" else b"")


def stream(draw, expect):
    """Some messages or what an end is told that is refused, spoilt or cut now and then."""
    told = [draw.choice([b"RGNL\2", b"W", b"V"]) + bytes([255, draw.randrange(9)]), b"RGNL\2"]
    if draw.randrange(6):
        told = [drawn(draw, expect) for _ in range(draw.randint(1, 4))]
    data = bytearray(b"".join(told[:4]) if len(told) != 2 else draw.choice(told))
    for _ in range(draw.choice([0, 0, 1, 2])):
        at = draw.randrange(min(len(data), draw.choice([30, len(data)])))
        data[at] = draw.choice([draw.randrange(256), 0, 255, 10, 97])
    if draw.randrange(2):
        del data[draw.randint(1, len(data)):]
    return bytes(data)


def pieces(draw, data):
    while data:
        most = draw.choice([len(data), *[min(40, len(data))] * 5])
        count = draw.randint(1, most)
        yield data[:count]
        data = data[count:]


# ---- Both

def compiled(room):
    """The daemon's reader and writer, as a program."""
    at = "".join(f'#[path = "{MACHINE}/src/net/{it}.rs"]\npub mod {it};\n' for it in OF_NET)
    items = "".join(ITEMS.findall((MACHINE / "src/net.rs").read_text()))
    Path(room, "net.rs").write_text(
        f"use crate::prelude::*;\n{at}pub use parents::{{ParentError, Way}};\n"
        f"pub use refusal::Refusal;\n{items}"
        f'#[path = "{TOP}/tests/wire/compared.rs"]\npub mod compared;\n')
    Path(room, "main.rs").write_text(f"""#![allow(dead_code, unused_imports)]
extern crate alloc;
extern crate self as rignolda;
#[macro_export]
macro_rules! spoils {{ ($($any:tt)*) => {{}} }}
#[macro_export]
macro_rules! spoils_one_of {{ ($($any:tt)*) => {{}} }}
#[path = "{MACHINE}/src/prelude.rs"]
mod prelude;
mod net;
use net::compared::main;
""")
    archive = MACHINE / f"lib/{platform.machine()}-linux-settings.a"
    subprocess.run(["rustc", "-O", "-C", "overflow-checks", "--edition=2021", "-C",
                    f"link-arg={archive}", "-o", f"{room}/compared", f"{room}/main.rs"], check=True)
    return f"{room}/compared"


def main():
    if not shutil.which("rustc"):
        print("nothing was compared: there is no rustc\n0 passed, 0 failed")
        return
    draw, lines, wanted, counts = random.Random(7), [], [], collections.Counter()
    for line in VECTORS.read_text().splitlines():
        if not line.startswith("#"):
            expect, digits, says = line.split(maxsplit=2)
            data = bytes.fromhex(digits)
            lines.append(f"{expect} {digits}")
            is_right = heard(expect, [data])[0] == [says]
            wanted.append(answer(expect, [data])[0] if is_right else says)
            counts["vector"] += 1
    for _ in range(int(sys.argv[1]) if sys.argv[1:] else 60_000):
        kind = draw.choice(EXPECTED)
        data = stream(draw, kind)
        expect = kind if draw.randrange(8) else draw.choice(EXPECTED)
        came = list(pieces(draw, data))
        lines.append(" ".join([expect, *(it.hex() for it in came)]))
        says, kinds = answer(expect, came)
        wanted.append(says)
        counts.update(kinds)
    with tempfile.TemporaryDirectory() as room:
        said = subprocess.run([compiled(room)], input="\n".join(lines), check=True, text=True,
                              stdout=subprocess.PIPE).stdout.splitlines()
    others = [f"OTHER  {line}\n       {want}\n       {got}"
              for line, want, got in zip(lines, wanted, said) if want != got]
    print(*[f"       {kind}: {count}" for kind, count in sorted(counts.items())], *others[:9],
          sep="\n")
    failed = len(others) + abs(len(lines) - len(said))
    print(f"{len(counts)} passed, {failed} failed")
    sys.exit(failed > 0)


if __name__ == "__main__":
    main()
