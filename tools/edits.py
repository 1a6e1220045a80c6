#!/usr/bin/env python3
"""Tries the wrong bodies that the gate leaves out: `tools/edits.py [CRATE..]`, as `make edits` does. Each file of
crates/NAME/more-edits is a wrong body of that crate, and the prover must refuse it.

`rt ci` tries what stands in must-fail, so it runs over a copy in .git/edits (out/edits where .git is no folder) whose must-fail
folders have these files and no others. It starts from the proofs that it kept on this machine. Its last line is 'N passed, M
failed'; an edit that it calls refused only because a proof names what the edit took away is listed after that line, and is a
failure."""

import os
import shutil
import subprocess
import sys

from copies import copy, room
from programs import CRATES, NO_KIT, below, uses

ROOM = room("edits")
# What `rt ci` says of an edit whose refusal shows nothing.
SAYS_LITTLE = "says little"


def lay(names):
    """Puts the edits of these crates where `rt ci` looks for them, and takes away those of others."""
    for crate in (ROOM / "crates").iterdir():
        shutil.rmtree(crate / "must-fail", ignore_errors=True)
    for name in names:
        shutil.copytree(CRATES / name / "more-edits", ROOM / "crates" / name / "must-fail")


def run(names):
    """Runs `rt ci` over the copy; its status, and the lines that it says of edits whose refusal shows nothing."""
    command = subprocess.Popen(
        ["rt", "ci", *names],
        cwd=ROOM,
        env={"RT_JOBS": str(len(os.sched_getaffinity(0))), **os.environ},
        stdin=subprocess.DEVNULL,
        stdout=subprocess.PIPE,
        stderr=subprocess.STDOUT,
        text=True,
        errors="replace",
    )
    little = []
    for line in command.stdout:
        print(line, end="", flush=True)
        if SAYS_LITTLE in line:
            little.append(line)
    return command.wait(), little


def main(asked):
    lines = uses()
    with_edits = [name for name in lines if (CRATES / name / "more-edits").is_dir()]
    unknown = [name for name in asked if name not in with_edits]
    if unknown or not shutil.which("rt"):
        print(f"no more-edits: {', '.join(unknown)}" if unknown else NO_KIT, file=sys.stderr)
        return 1
    names = asked or with_edits
    copy(set().union(*(below(name, lines) for name in names)), ROOM)
    lay(names)
    status, little = run(names)
    for line in little:
        print(f"shows nothing: {line}", end="")
    return 1 if status or little else 0


if __name__ == "__main__":
    sys.exit(main(sys.argv[1:]))
