#!/usr/bin/env python3
"""Times a script of sends and receives over one queue, run by the program that was built.

Prints the steps a second of each run, and the median of these. An answer that is not the one
that the script must get ends it, with status 1 and without a figure.
"""

import argparse
import statistics
import subprocess
import sys
import tempfile
import time
from pathlib import Path

PROGRAM = Path(__file__).resolve().parent.parent / "crates" / "mqserve" / "out" / "mqserve"

# How often the script is run.
RUNS = 5

# A queue has room for 10 messages where nothing else is said. So many lie in it all the time:
# each send fills it, and each receive finds one message of a greater priority than theirs.
STANDING = 9

USERS = "ann:ka1:1000:1000::\n.\n"


def steps_of(pairs):
    """The steps of the script, each with its answer."""
    steps = [("a hello ka1", "a started 0"), ("a mq-open /bench rw --create", "a opened 0")]
    for number in range(STANDING):
        steps.append((f"a mq-send 0 0 standing-{number}", "a sent"))
    for number in range(pairs):
        priority = number % 32_767 + 1
        steps.append((f"a mq-send 0 {priority} message-{number}", "a sent"))
        steps.append(("a mq-receive 0 8192", f"a received {priority} message-{number}"))
    return steps


def run(script):
    """The answers to a script, and the seconds from the program's start to its end."""
    with tempfile.TemporaryFile("w+") as source, tempfile.TemporaryFile("w+") as output:
        source.write(script)
        source.seek(0)
        start = time.perf_counter()
        subprocess.run([PROGRAM], stdin=source, stdout=output, check=True)
        seconds = time.perf_counter() - start
        output.seek(0)
        return output.read(), seconds


def main():
    parser = argparse.ArgumentParser(description=__doc__)
    parser.add_argument("pairs", nargs="?", type=int, default=20_000, help="20,000 where none are given")
    pairs = parser.parse_args().pairs
    if not PROGRAM.exists():
        sys.exit("no program was built yet: run `make build` first")
    steps = steps_of(pairs)
    script = USERS + "".join(f"{words}\n" for words, _ in steps)
    wanted = "".join(f"{answer}\n" for _, answer in steps)
    rates = []
    for number in range(1, RUNS + 1):
        answers, seconds = run(script)
        if answers != wanted:
            sys.exit("an answer is not the one that the script must get")
        rates.append(len(steps) / seconds)
        print(f"run {number}: {len(steps)} steps in {seconds:.3f} s, {rates[-1]:.0f} steps a second")
    print(f"median: {statistics.median(rates):.0f} steps a second")


if __name__ == "__main__":
    main()
