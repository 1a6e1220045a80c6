#!/usr/bin/env python3
"""Counts the instructions of calls through a hub, frames in and answers out, by kind of call and for 1 and 64 sessions.

Proves and builds the crate bench_calls, or takes such programs that are named, and runs it under valgrind with two numbers of
rounds: the difference is that of the calls alone. Prints a table in Markdown, with a column
for each program: by a call, two calls and sixteen calls a piece.
"""

import argparse
from pathlib import Path

from building import bench_calls
from counting import collected

KINDS = {"mask": "umask", "message": "send and receive of 64 bytes", "semaphore": "post and wait", "stat": "stat of a name"}

SESSIONS = [1, 64]

# Pairs of calls in a piece: a frame a piece, a pair, and eight pairs.
PIECES = [0, 1, 8]


def of_a_call(program, kind, sessions, piece):
    """The instructions of one call."""
    rounds = max(2048 // (sessions * max(piece, 1)), 8)
    once, twice = (collected([program, "hub", kind, sessions, piece, it]) for it in (rounds, 2 * rounds))
    return (twice - once) / (2 * rounds * sessions * max(piece, 1))


def show(programs):
    print("| | sessions | " + " | ".join("a call a piece / two / sixteen" for _ in programs) + " |")
    print("|---|---|" + "---|" * len(programs))
    for kind, name in KINDS.items():
        for sessions in SESSIONS:
            counts = [" / ".join(f"{of_a_call(it, kind, sessions, piece):,.0f}" for piece in PIECES) for it in programs]
            print(f"| {name} | {sessions} | {' | '.join(counts)} |", flush=True)


def main():
    parser = argparse.ArgumentParser(description=__doc__)
    parser.add_argument("programs", nargs="*", type=Path, help="built before; this repository's where none is named")
    show(parser.parse_args().programs or [bench_calls()])


if __name__ == "__main__":
    main()
