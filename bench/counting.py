"""The instructions that a program takes, counted by callgrind: they don't depend on what else the machine does."""

import re
import subprocess
import sys


def collected(words, stdin=None):
    """The instructions of a whole run."""
    command = ["valgrind", "--tool=callgrind", "--callgrind-out-file=/dev/null", *map(str, words)]
    run = subprocess.run(command, stdin=stdin, stdout=subprocess.DEVNULL, stderr=subprocess.PIPE, check=True, text=True)
    found = re.search(r"Collected\s*:\s*(\d+)", run.stderr)
    if not found:
        sys.exit("valgrind counts nothing")
    return int(found.group(1))
