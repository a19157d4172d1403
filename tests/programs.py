"""What the checks share, which lies beside the tools: whoever imports this has that. (A link to it
would do, but rt takes none.)"""
import sys
from pathlib import Path

sys.path.insert(0, str(Path(__file__).resolve().parent.parent / "tools"))
del sys.modules[__name__]
import programs  # noqa: E402,F401
