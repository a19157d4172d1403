"""What `rignolda explain` says of mistakes that people make when they write a job, beside the rows
of explain.rows: of texts that are cut short, and of many findings."""

from tables.rows import Row, like, made

# A place is told that is there, whatever white space the text ends with: its last byte that is none
# of it, or else its first byte.
CUT = {
    (1, 3): ["[1,", "[1,\n", "[1,\r\n", "[1,\n\n\n", "[1,\n  ", "[1, \t\n\r\n "],
    (2, 9): ['{"capacity":1,\n"labels":', '{"capacity":1,\n"labels":\n\n',
             '{"capacity":1,\n"labels":  \r\n'],
    (3, 1): ["\n\n[", "[\n1,\n2\n", "\r\n\r\n{\r\n"],
    (1, 6): ['["\u00e9",\n', '["\u00e9",\r\n\n'],
    (2, 7): ['{\n"\u20ac":1\n', '{\n"\u20ac":1\r\n\r\n'],
    (1, 1): ["\n", " ", " \r\n\t\n", "[\n", "{ \n"],
}

# What the first bytes show: the bytes, and the first line of the explanation.
BYTES = {
    b"": "the job: not JSON; the file is empty",
    b"\xEF\xBB\xBF{}": "line 1, column 1: not JSON; a byte order mark is before the text, and JSON "
                       "has none",
    b"\xFF\xFE{\x00}\x00": "line 1, column 1: not JSON; the text is UTF-16, and has to be UTF-8",
}

# A link job with this many events that are none, and its last line but one: of what is found a
# hundred are written, and the others are counted, up to a million.
UNKNOWN = {"capacity": 1, "labels": 4, "start": {"send": 0, "recv": 1}}
COUNTED = [
    (100, 'events[99]: "x" is no event', "bad event"),
    (101, "and 1 more", "bad event"),
    (1100, "and 1000 more", "bad event"),
    (1_000_000, "and 999900 more", "bad event"),
    (1_000_200, "and at least 1000000 more", "too many events"),
]


ROWS = [
    *(Row(f"says what the first bytes show: {given}", ["explain"], given, status=1,
          out=f"{said}\nstab link: job: not JSON\n") for given, said in BYTES.items()),
    *(Row(f"says where a text is cut off: {given!r}", ["explain"], given, status=1,
          out=f"line {line}, column {column}: not JSON; the text ends too early\n"
              "stab link: job: not JSON\n")
      for (line, column), texts in CUT.items() for given in texts),
    Row("compares no queue with a number that was cut", ["explain"],
        made(UNKNOWN, capacity=99999, labels=1000, events=[],
             start={"send": 0, "recv": 0, "acks": [0] * 65536}), status=1,
        out="capacity: 99999 is out of range; a capacity is a whole number from 1 to 64\n"
            "stab link: job: capacity out of range\n"),
    *(Row(f"counts what it does not write: {count} events", ["explain"],
          made(UNKNOWN, events=["x"] * count), status=1,
          out=like(ends=f"\n{said}\nstab link: job: {fault}\n", lines=101 + (count > 100)))
      for count, said, fault in COUNTED),
]
