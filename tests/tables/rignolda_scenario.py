"""What `rignolda scenario` prints of the examples, as tests/faults/scenario.py has it. The rows of
scenario.rows are worked out by hand."""

import json

from examples import DATA
from faults.scenario import text_of
from tables.rows import Row

ROWS = [
    Row(f"tells the example {file.stem}", ["scenario"], file.read_text(),
        out=text_of(json.loads(file.read_text())))
    for file in sorted(DATA.glob("scenarios/*.json"))]
