"""The program of the crate bench_calls, proved and built where it isn't yet."""

import subprocess
import sys
from pathlib import Path

TOP = Path(__file__).resolve().parent.parent
sys.path.insert(0, str(TOP / "tools"))
from programs import is_current, proved  # noqa: E402

NAME = "bench_calls"


def bench_calls():
    """The program: the one that `make test` or `rt run` left, where it is newer than its sources. Else `rt run` proves it, and the
    crates below it."""
    if not is_current(NAME):
        subprocess.run(["rt", "run"], cwd=TOP / "crates" / NAME, check=True, stdout=sys.stderr)
    return proved(NAME)
