#!/usr/bin/env -S python3 -B
"""Checks the examples against the schemas of docs/schema.

Each accepted job has to be accepted by its schema. A job that is refused for something that a
schema can say has to be refused by it; a schema knows nothing of what two members say together, as
the number of labels that a capacity needs, and takes 1.0 for a whole number. Of members that only
`rignolda` reads the schema has to accept and refuse what docs/FORMATS.md says.

It needs Debian's package python3-jsonschema. The last line is 'N passed, M failed'.
"""

import json
import sys

from jsonschema import Draft7Validator

from programs import TOP, counted, paragraphs
from examples import DATA
from tables.rows import told

# the faults that a schema finds as well, wherever they are found
FOUND = {
    "job: wrong shape", "job: unknown version", "job: capacity out of range",
    "job: too many labels", "job: bad event", "job: turns out of range", "job: rate out of range",
    "job: h out of range", "tree: wrong shape", "tree: bad name", "tree: too many nodes",
}

# members that a job may have as well, and what is not of their form
TREE = {"capacity": 1, "labels": 4, "tree": [{"name": "r"}, {"name": "a", "parent": "r"}],
        "items": [10]}
OF, = paragraphs(TOP / "tests/schemas.rows")
GOOD, BAD = (list(map(json.loads, OF[it])) for it in ("good", "bad"))
# (a number with a point is a whole one to a schema)
BAD += [{"steps": json.loads(row.given)["steps"]} for row in told("scenario")
        if row.err.endswith("step 2: wrong shape\n") and '["rounds", 1.0]' not in row.given]

# refused jobs that have the form of a job: a number with a point is an integer to a schema
NOT_FOUND = {"number_with_a_point"}


def fault_of(job):
    """The text of the fault that is expected of a job, or nothing where it is accepted."""
    err = job.with_suffix(".err")
    return err.read_text().partition("\n")[0].removeprefix("stab: ") if err.exists() else ""


def cases():
    """Compares the answer of a schema with what is expected, job by job: each with its fault, or
    None."""
    schemas = {}
    for kind in ("link_job", "job"):
        schema = json.loads((TOP / "docs" / "schema" / f"{kind}.json").read_text())
        Draft7Validator.check_schema(schema)
        schemas[kind] = Draft7Validator(schema)
    looked_at = set()
    for job in sorted(DATA.rglob("*.json")):
        fault = fault_of(job)
        if fault == "job: not JSON" or fault and fault not in FOUND or job.stem in NOT_FOUND:
            continue
        # (those that only a run or a tree reads are jobs of a tree)
        kind = "link_job" if job.parent.name in ("data", "links", "refused") else "job"
        is_valid = schemas[kind].is_valid(json.loads(job.read_bytes()))
        looked_at.add(is_valid)
        yield job.relative_to(DATA), None if is_valid == (not fault) else (
            f"{fault or 'accepted'}, the schema differs")
    yield "jobs of both kinds", None if len(looked_at) == 2 else f"all are {looked_at}"
    for is_good, some in ((True, GOOD), (False, BAD)):
        for members in some:
            is_right = schemas["job"].is_valid({**TREE, **members}) == is_good
            yield members, None if is_right else (
                f"it has to be {'accepted' if is_good else 'refused'}")


sys.exit(counted(cases(), quiet=True))
