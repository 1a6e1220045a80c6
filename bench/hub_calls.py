#!/usr/bin/env python3
"""Times calls through a hub: sends and receives of 64-byte messages by one connection and by 64, frame by frame and in
pieces of 64 KiB.

Proves and builds the crate bench_calls, and prints the median calls a second of each kind. A run whose output has another length than the answers ends it, with status 1 and without a figure.
"""

import argparse
import statistics
import subprocess
import sys

from building import bench_calls

RUNS = 7

# Sends and receives in a piece of 64 KiB: a pair takes 98 bytes.
PAIRS = 668

# A pair is answered by a frame of 5 bytes and one of 73.
ANSWERED = 5 + 73

KINDS = [
    ("one connection, frame by frame", 1, 0),
    ("one connection, pieces of 64 KiB", 1, PAIRS),
    ("64 connections, frame by frame", 64, 0),
    ("64 connections, pieces of 64 KiB", 64, PAIRS),
]


def rate(program, connections, piece, calls):
    """The calls a second of one run."""
    pairs = max(piece, 1) * connections
    rounds = max(calls // (2 * pairs), 1)
    words = [program, "hub", "message", str(connections), str(piece), str(rounds)]
    output = subprocess.run(words, check=True, capture_output=True, text=True).stdout
    came, microseconds = map(int, output.split())
    wanted = rounds * pairs * ANSWERED
    if came != wanted:
        sys.exit(f"{came} bytes came in place of {wanted}")
    return 2 * rounds * pairs * 1_000_000 / microseconds


def main():
    parser = argparse.ArgumentParser(description=__doc__)
    parser.add_argument("calls", nargs="?", type=int, default=1_000_000, help="1,000,000 where none are given")
    calls = parser.parse_args().calls
    program = bench_calls()
    for kind, connections, piece in KINDS:
        rates = [rate(program, connections, piece, calls) for _ in range(RUNS)]
        shown = ", ".join(f"{it:.0f}" for it in rates)
        print(f"{kind}: {statistics.median(rates):.0f} calls a second, the median of {shown}")


if __name__ == "__main__":
    main()
