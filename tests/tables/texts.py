"""Texts that tests of readers put in the places of jobs."""


def nested(levels):
    """A list of `levels` levels."""
    return "[" * levels + "]" * levels


# What stands in the place of a whole number.
WHOLE = ["-0", "-1", "1.0", "1e0", "1e2", "0.1e1", "01", "+1", '"1"', "null", "true", "[1]", "{}",
         "1000", "1001", "65535", "65536", "4294967295", "4294967296", "18446744073709551605",
         "18446744073709551606", "18446744073709551615", "18446744073709551616", "1e999", "0", "64",
         "65", "", "NaN"]
# What stands in the place of a value that no reader looks at.
FURTHER = ["0", "-1.5e3", '"x"', "true", "null", "[]", "{}", '[1,{"events":[]}]', '{"capacity":2}',
           "1e999", '"\\ud800"', "01", "[1", '"', "tru", nested(126), nested(127),
           '{"a":' * 126 + "0" + "}" * 126, '{"a":' * 127 + "0" + "}" * 127]


def swapped(text, old, *news):
    """A text, with each of these in place of a part of it."""
    assert text.count(old) == 1, old
    return [text.replace(old, new) for new in news]


def by_value(text):
    """The same job with a member that no reader looks at, which is read by way of a tree."""
    return text.replace("{", '{"more":null,', 1)


def broken(text):
    """A text that is cut short or goes on, has other commas, or is in another encoding."""
    yield from (text[:length].encode() for length in range(0, len(text), 6))
    for other in (text + "}", text + "{}", text + " 7", text + ",", f"[{text}]", text[:-1] + ",}",
                  text[:-1] + "]", text[:-2] + "}}", text.replace("]}", ",]}"),
                  text.replace("{", "{,", 1), text.replace(",", ",,", 1), "\ufeff" + text,
                  text.replace(":", " ", 1), text.replace("close", "\0") + "\0", "",
                  nested(200), "[]", "7", '"x"', "null", "{"):
        yield other.encode()
    yield text.encode() + b"\xff"
    yield text.encode("utf-16")
    yield text.replace("send", "s\u00e4nd").encode("latin-1")
