"""Files that `rignolda` cannot read: each command with each of its files."""

from tables.rows import Row
from tables.stab_limits import MOST

# A link job, and the text of its link.
JOB = '{"capacity":1,"labels":4,"start":{"send":0,"recv":1},"events":[]}'
LINK = """\
delivered:
offered:
acked: 0
send label: 0
recv label: 1
frames:
acks:
closed: no
"""
FILES = {"job": JOB, "report": LINK}

# Commands that read a job, in the place of the word FILE.
READERS = ["bounds FILE", "draw FILE", "draw --svg FILE", "explain FILE", "check FILE report",
           "judge FILE", "scenario FILE"]

# A file that is not there, a folder, and a file that is one byte too long.
UNREAD = {"nothing": "cannot be opened", ".": "cannot be read", "long": "too long"}


def unread(line, said, given="", **files):
    """A row in which a file cannot be read."""
    return Row(line, line.split(), given, {**FILES, **files}, status=1, err=f"rignolda: {said}\n")


ROWS = [
    Row("both files can be read", ["check", "job", "report"], files=FILES, out="obeys\n"),
    # (the job is read first)
    unread("check nothing .", "file: cannot be opened"),
    unread("explain", "file: too long", lambda _: " " * (MOST + 1)),
    unread("check job -", "report file: too long", lambda _: " " * (MOST + 1)),
    # (standard input as long as a report may be)
    unread("check job -", "not a report: line 1 is not as the text of a link has it; the job is a "
           "link job: see rignolda explain", lambda _: " " * MOST),
    *(unread(line.replace("FILE", file), f"{what}: {said}",
             **({"long": " " * (MOST + 1)} if file == "long" else {}))
      for what, lines in [("file", READERS), ("report file", ["check job FILE"])]
      for line in lines for file, said in UNREAD.items()),
]
