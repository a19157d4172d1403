"""The version of the release. Texts of help and of mistakes are rows of lines.rows. (What the help
says of each command and option, tests/check_completions.py compares.)"""

import re

from programs import TOP
from tables.rows import Row

# The version of the release, which its archive has in its name.
VERSION = re.search(r"^## ([0-9.]+),", (TOP / "CHANGELOG.md").read_text(), re.M)[1]

ROWS = [Row("the version", ["--version"], out=f"rignolda {VERSION}\n")]
