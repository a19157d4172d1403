#!/usr/bin/env -S python3 -B
"""Writes page/index.html, which is page/page.html with the module of release/ inside. ./release.sh
does so as well, and compares it in the gate.

The module is compressed, and as base64. What the page does not need is left out: empty lines, lines
of comments, and the spaces before other lines; spaces and ends of lines that a style does not need;
and of the script spaces beside a sign, semicolons before a brace, and ends of lines after a sign
that ends no statement or before one that begins none, but not those in texts and patterns.
"""
import base64
import re
import subprocess
from pathlib import Path

TOP = Path(__file__).resolve().parent.parent
MODULE, FROM, TO = (TOP / it for it in (
    "release/rignolda.wasm", "page/page.html", "page/index.html"))
# What follows a quotation mark, or the slash of a pattern, up to the end of the text or pattern, or
# up to code inside it.
REST = {
    '"': re.compile(r'(?:\\.|[^"\\])*"'),
    "'": re.compile(r"(?:\\.|[^'\\])*'"),
    "`": re.compile(r"(?:\\.|\$(?!{)|[^`\\$])*(?:`|\${)", re.S),
    "/": re.compile(r"(?:\\.|\[(?:\\.|[^]\\])*\]|[^/\\[])*/"),
}
# Empty lines and lines of comments, and the spaces before the line after them.
BETWEEN = re.compile(r"(?: *(?:// .*)?\n)* *")


def script(text):
    """A script without what it does not need."""
    made, at, depths = "", BETWEEN.match(text).end(), []
    while at < len(text):
        sign, last = text[at], made[-1:]
        at += 1
        if sign == " ":
            at = re.compile(" *").match(text, at).end()
            made += " " * bool(re.fullmatch(r"[\w$]{2}|\+\+|--", last + text[at:at + 1], re.A))
            continue
        if sign in "}])?:.&|=," and last == "\n" or sign == "}" and last == ";":
            made = made[:-1]
        made += sign
        opens = sign in REST and (
            sign != "/" or last in "\n(,=:[!&|?{};" or made.endswith("return/")) and sign
        if sign == "\n":
            made = made[:-1] if last in "{[(,;?:&|=" else made
            at = BETWEEN.match(text, at).end()
        elif sign == "{" and depths:
            depths[-1] += 1
        elif sign == "}" and depths:
            depths[-1] -= 1
            if depths[-1] < 0:
                depths.pop()
                opens = "`"
        if opens:
            found = REST[opens].match(text, at)
            made, at = made + found[0], found.end()
            if found[0].endswith("${"):
                depths.append(0)
    return made


def style(text):
    """A style without what it does not need."""
    return re.sub(r"([:;,])[ \n]|[ \n]?([{}])[ \n]?", r"\1\2", text).replace(";}", "}")


def page(module):
    """The text of the page with this module."""
    packed = subprocess.run(["gzip", "-9n"], input=module, stdout=subprocess.PIPE, check=True)
    parts = re.split(r"(?<=<script>\n)|(?=</script>)", FROM.read_text())
    head = re.sub(r"(?s)(?<=<style>\n).*(?=</style>)", lambda it: style(it[0]), parts[0])
    head, tail = (re.sub(r"(?m)^ +|^ *\n", "", it) for it in (head, parts[2]))
    code = script(parts[1]).replace("{{MODULE}}", base64.b64encode(packed.stdout).decode())
    return head + code + tail


def write():
    TO.write_text(page(MODULE.read_bytes()))


if __name__ == "__main__":
    write()
