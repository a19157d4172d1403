"""What `rignolda check` says of long texts, beside the rows of check.rows, all of which are worked
out by hand."""

import json

from tables.rows import Row

# Many items, as a job, an offer for each and lines have them; the texts have some 70,000 bytes.
MANY = range(1000000, 1003000)
MANY_WORDS = "".join(f" {item}" for item in MANY)
LONG_JOB = json.dumps({"capacity": 1, "labels": 4, "items": [*MANY], "tree": [
    {"name": "r"}, {"name": "a", "parent": "r"}], "starts": [{"send": 0, "recv": 1}]})
LONG_REPORT = (f"r depth 0 received 3000 acked - ended upstream\nitems:{MANY_WORDS}\n"
               f"a depth 1 received 3000 acked 3000 ended upstream\nitems:{MANY_WORDS}\n")
LONG_LINK_JOB = json.dumps({"capacity": 1, "labels": 4, "start": {"send": 0, "recv": 1},
                            "events": [["offer", item] for item in MANY]})
LONG_LINK = (f"delivered:{MANY_WORDS}\noffered:{MANY_WORDS}\nacked: 3000\n"
             "send label: 0\nrecv label: 3\nframes:\nacks:\nclosed: no\n")

ROWS = [
    Row(f"reads a long {what}", ["check", "job", "report"], files={"job": job, "report": report},
        out="obeys\n")
    for what, job, report in [
        ("report", LONG_JOB, LONG_REPORT),
        ("text of a tree", LONG_JOB, LONG_REPORT.replace(" ended upstream", "")),
        ("text of a link", LONG_LINK_JOB, LONG_LINK)]
]
