#!/usr/bin/env python3
"""Times the reading of frames: how many sends of 64-byte messages are read in a second, and what a byte of a frame costs, by
the frame's length and by the pieces in which it comes.

Proves and builds the crate bench_calls, or takes the program that is named, and prints medians of five runs. A run whose outcome
is wrong ends it, with status 1 and without a figure. It ends with status 1 too where a byte of a long frame costs over twice what
a byte of a shorter one does in the same pieces. With --instructions it counts by callgrind what a byte costs, and times nothing.
"""

import argparse
import statistics
import subprocess
import sys

from building import bench_calls
from counting import collected

# How often each kind of piece is fed.
RUNS = 5

PIECES = [("in one piece", 0), ("in pieces of 64 KiB", 65_536), ("byte by byte", 1)]

# What a frame of a send has beside its message.
HEAD = 17

# Frames by their lengths, and the pieces in which each length is fed.
LENGTHS = [("81 bytes", 81), ("64 KiB", 65_536), ("1 MiB", 1_048_576), ("16 MiB", 16_777_216)]

PIECES_OF_LONG = [1, 1_460, 65_536]

# A longer frame in single bytes takes long.
MOST_BY_BYTE = 65_536

# A byte of a longer frame may cost so many times that of a shorter one.
MOST_TIMES = 2

# What comes of a stream of so many sends: requests, or the answer to the hello and refusals.
READERS = [("Frames", "frames", lambda count: count + 1), ("a hub", "stream", lambda count: 13 + 7 * count)]


def seconds(program, word, wanted, message, piece, count):
    """The seconds of one run."""
    words = [program, word, str(message), str(piece), str(count)]
    output = subprocess.run(words, check=True, capture_output=True, text=True).stdout
    came, microseconds = map(int, output.split())
    if came != wanted(count):
        sys.exit(f"{came} came of {' '.join(words[1:])} in place of {wanted(count)}")
    return microseconds / 1_000_000


def show_rates(program, count):
    """The frames of 64-byte messages that are read in a second."""
    _, word, wanted = READERS[0]
    for kind, piece in PIECES:
        rates = [count / seconds(program, word, wanted, 64, piece, count) for _ in range(RUNS)]
        shown = ", ".join(f"{it:.0f}" for it in rates)
        print(f"{kind}: {statistics.median(rates):.0f} frames a second, the median of {shown}")


def nanoseconds(program, word, wanted, message, piece, count):
    """Those of so many frames, the median of some runs."""
    return statistics.median(seconds(program, word, wanted, message, piece, count) for _ in range(RUNS)) * 1e9


def instructions(program, word, wanted, message, piece, count):
    """Those of so many frames. What starting takes is taken off by a second run of twice as many."""
    seconds(program, word, wanted, message, piece, count)
    once, twice = (collected([program, word, message, piece, it]) for it in (count, 2 * count))
    return twice - once


def costs_of(cost, program, word, wanted, piece, total):
    """What a byte costs by the length of its frame, where that is fed in such pieces."""
    costs = {}
    for name, length in LENGTHS:
        if piece == 1 and length > MOST_BY_BYTE:
            continue
        count = max(total // length, 1)
        costs[name] = cost(program, word, wanted, length - HEAD, piece, count) / (count * length)
    return costs


def growth(costs):
    """How many times a byte of a longer frame costs what a byte of a shorter one does, at most."""
    found = list(costs.values())
    return max(later / earlier for i, earlier in enumerate(found) for later in found[i:])


def show_costs(cost, program, total):
    """A table of what a byte costs. Gives how much a byte costs more in a longer frame, at most."""
    print("\n| | Pieces of | " + " | ".join(name for name, _ in LENGTHS) + " |")
    print("|---|--:|" + "--:|" * len(LENGTHS))
    most = 0
    for reader, word, wanted in READERS:
        for piece in PIECES_OF_LONG:
            costs = costs_of(cost, program, word, wanted, piece, total)
            shown = " | ".join(f"{costs[name]:.2f}" if name in costs else "" for name, _ in LENGTHS)
            print(f"| {reader} | {piece:,} | {shown} |")
            most = max(most, growth(costs))
    return most


def main():
    parser = argparse.ArgumentParser(description=__doc__)
    parser.add_argument("frames", nargs="?", type=int, default=1_000_000, help="1,000,000 where none are given")
    parser.add_argument("--bytes", type=int, default=16_777_216, help="how many bytes of long frames a run feeds, 16 MiB at least")
    parser.add_argument("--program", help="a program that was built before")
    parser.add_argument("--instructions", action="store_true", help="count, and time nothing")
    words = parser.parse_args()
    program = words.program or bench_calls()
    if not words.instructions:
        show_rates(program, words.frames)
    most = show_costs(instructions if words.instructions else nanoseconds, program, words.bytes)
    if most > MOST_TIMES:
        sys.exit(f"a byte costs up to {most:.1f} times as much in a longer frame")


if __name__ == "__main__":
    main()
