"""Command lines of `stab`: the task that they name, its links and its file, and how they are
refused.

What is printed shows which task ran. A row that reads a file has an empty standard input, which
would be refused as no JSON, and the others have no file. More command lines that are refused are
examples of crates/gate_checks/data, in the folders refused and runs."""

import re

from tables.rows import Row, WORST_START, WORST_TEXT, like, refusals

LONE_ROOT = '{"capacity":1,"labels":4,"tree":[{"name":"r"}],"items":[7,8]}'

LONE_TEXT = "r depth 0 received 2 acked -\nitems: 7 8\n"

# A link that begins with an acknowledgement of the first item, and loses everything that its ends
# send. The root looks for an acknowledgement before it offers the item, and once more after it.
EARLY_ACKNOWLEDGEMENT = """\
{"capacity":1,"labels":4,"turns":4,"tree":[{"name":"r"},{"name":"a","parent":"r"}],
"items":[7],"starts":[{"acks":[0],"send":0,"recv":1}],"scripts":[{"frames_out":"DDDDDDDD",
"acks_out":"DDDDDDDD"}]}"""

# The report of that job, whatever the threads do, where the first look leaves nothing behind: over
# a link with a lock. Why the child ended is up to them. And the same where the second look finds
# what the first one found: over a link of two words.
TAKEN_AT_ONCE, FOUND_AGAIN = (like(
    begins=f"r depth 0 received 1 acked - ended {ended}\nitems: 7\n"
           f"a depth 1 received 0 acked {acked} ended ", ends="\nitems:\n")
    for ended, acked in [("turns", 0), ("upstream", 1)])

# A link that has no two words, and how the report of its tree begins elsewhere.
WIDE = """\
{"capacity":2,"labels":6,"tree":[{"name":"r"},{"name":"a","parent":"r"}],"items":[7,8]}"""

WIDE_REPORT = like(begins="r depth 0 received 2 acked - ended ",
                   parts=["\na depth 1 received "], lines=4)

# What each task prints, as a job, the standard output and the standard error, and command lines
# that name it, a file in angle brackets. Where there is an error the status is 3.
TAKEN = [
    ([(WORST_START, WORST_TEXT, "")], ["", "--", "link", "link <->", "link -- <--trace>"]),
    ([(WORST_START, WORST_TEXT + "origins: s0 i3\n", "")],
     ["link --trace <job.json>", "link --trace", "link <job.json> --trace"]),
    ([(LONE_ROOT, LONE_TEXT, "")], ["tree", "tree <job.json>"]),
    ([(EARLY_ACKNOWLEDGEMENT, TAKEN_AT_ONCE, "")], ["run", "run <job.json>", "run -- <--words>"]),
    ([(EARLY_ACKNOWLEDGEMENT, FOUND_AGAIN, ""), (WIDE, "", "stab: run: capacity is not one\n")],
     ["run --words", "run <job.json> --words", "run --words -- <--mixed>"]),
    ([(EARLY_ACKNOWLEDGEMENT, FOUND_AGAIN, ""), (WIDE, WIDE_REPORT, "")],
     ["run --mixed", "run <job.json> --mixed"]),
]

# Command lines that name no task.
REFUSED = [
    "run --words --words", "run --words=1", "run --mixed job.json --words", "run --mixed --mixed",
    "run --mixed=1", "--mixed", "tree --mixed", "run --trace", "--words", "link --words",
    "--trace", "job.json", "link --trace=1", "help", "link --help", "--version",
    "link one.json two.json"]

ROWS = [
    *(Row(f"takes a command word, a flag and a file: {line}{', a wide link' * (job == WIDE)}",
          re.sub("[<>]", "", line).split(), "" if "<" in line else job,
          files={file: job for file in re.findall("<(.*)>", line)},
          status=3 if err else 0, out=out, err=err)
      for task, lines in TAKEN for line in lines for job, out, err in task),
    # (an empty name is not the standard input)
    *refusals("looks for a file with an empty name", WORST_START, "file: cannot be opened",
              [["link", ""]]),
    *refusals("refuses a file that is not there", WORST_START, "file: cannot be opened",
              [["link", "there/is/no/such/file.json"]]),
    *(Row(f"refuses other words and help: {line}", line.split(), status=2,
          err="stab: command line refused\n") for line in REFUSED),
]
