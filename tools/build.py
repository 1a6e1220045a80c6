#!/usr/bin/env python3
"""Proves what the two programs stand on, and builds them: `tools/build.py [JOBS]`, as `make build` does. Tests, benchmarks and wrong
bodies are left out.

`rt all` proves every crate that it finds, so it runs over a copy that has no others, in .git/build (out/build where .git is no
folder). The programs are then put where `make test` leaves them, crates/NAME/out."""

import os
import shutil
import subprocess
import sys

from copies import copy, room
from programs import CRATES, NAMES, NO_KIT, below, uses

ROOM = room("build")
# So many crates are proved at a time at most, where nothing is asked for: a proof takes up to 8 GB of memory.
MOST_JOBS = 4
# What each program does once it is built.
RUNS = {"mqserve": ["rt", "run", "--", "--version"], "mqctl": ["rt", "run"]}


def wanted():
    """The crates that the programs stand on, and these."""
    lines = uses()
    return set().union(*(below(name, lines) for name in NAMES))


def take(name):
    """Puts the built program where programs are looked for."""
    out = CRATES / name / "out"
    out.mkdir(exist_ok=True)
    shutil.copy2(ROOM / "crates" / name / "out" / name, out / f"{name}.new")
    os.replace(out / f"{name}.new", out / name)


def main(words):
    jobs = words[0] if words else str(min(len(os.sched_getaffinity(0)), MOST_JOBS))
    if not shutil.which("rt"):
        print(NO_KIT, file=sys.stderr)
        return 1
    copy(wanted(), ROOM)
    proved = subprocess.run(["rt", "all", "check", "--jobs", jobs], cwd=ROOM, check=False)
    if proved.returncode != 0:
        return proved.returncode
    for name, command in RUNS.items():
        built = subprocess.run(command, cwd=ROOM / "crates" / name, stdin=subprocess.DEVNULL, check=False)
        if built.returncode != 0:
            return built.returncode
        take(name)
    return 0


if __name__ == "__main__":
    sys.exit(main(sys.argv[1:]))
