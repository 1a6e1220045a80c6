#!/usr/bin/env python3
"""What a byte of a message costs in a script: pairs of a send and a receive of 64 bytes, and the same of 4,096.

Runs each program that is named, or the one that `make build` left, and prints a row for each: the instructions of a pair
by callgrind, its processor time as the least of seven runs in turn, and both for each byte more. Starting, and the
hello and the open, are taken off by a second script of twice as many pairs.
"""

import argparse
import subprocess
import sys
import tempfile
from pathlib import Path
from resource import RUSAGE_CHILDREN, getrusage

from counting import collected

PROGRAM = Path(__file__).resolve().parent.parent / "crates" / "mqserve" / "out" / "mqserve"

HEAD = "ann:ka1:1000:1000::1000000000000000\n.\na hello ka1\na mq-open /bench rw --create\n"

LENGTHS = [64, 4_096]

# Pairs of the shorter script, under callgrind and by the clock of the processor.
COUNTED, TIMED = 200, 5_000

RUNS = 7


def script(length, pairs):
    """The script as an open file."""
    pair = f"a mq-send 0 5 {'m' * length}\na mq-receive 0 8192\n"
    file = tempfile.TemporaryFile("w+")
    file.write(HEAD + pair * pairs)
    file.flush()
    return file


def instructions(program, file):
    file.seek(0)
    return collected([program], file)


def nanoseconds(program, file):
    """User and system time of a run."""
    file.seek(0)
    before = getrusage(RUSAGE_CHILDREN)
    subprocess.run([program], stdin=file, stdout=subprocess.DEVNULL, check=True)
    after = getrusage(RUSAGE_CHILDREN)
    return 1e9 * (after.ru_utime + after.ru_stime - before.ru_utime - before.ru_stime)


def main():
    parser = argparse.ArgumentParser(description=__doc__)
    parser.add_argument("programs", nargs="*", type=Path, default=[PROGRAM], help="the one that `make build` left where none is named")
    programs = parser.parse_args().programs
    counted = {(length, pairs): script(length, pairs) for length in LENGTHS for pairs in (COUNTED, 2 * COUNTED)}
    timed = {(length, pairs): script(length, pairs) for length in LENGTHS for pairs in (TIMED, 2 * TIMED)}
    counts = {(program, key): instructions(program, file) for program in programs for key, file in counted.items()}
    times = {(program, key): [] for program in programs for key in timed}
    for _ in range(RUNS):
        for (program, key), runs in times.items():
            runs.append(nanoseconds(program, timed[key]))
    print("| program | instructions of a pair, 64 / 4,096 bytes | a byte more | ns of a pair, 64 / 4,096 bytes | a byte more |")
    print("|---|---|---|---|---|")
    for program in programs:
        short, long = ((counts[program, (it, 2 * COUNTED)] - counts[program, (it, COUNTED)]) / COUNTED for it in LENGTHS)
        quick, slow = ((min(times[program, (it, 2 * TIMED)]) - min(times[program, (it, TIMED)])) / TIMED for it in LENGTHS)
        more = LENGTHS[1] - LENGTHS[0]
        print(f"| {program} | {short:,.0f} / {long:,.0f} | {(long - short) / more:.1f} | {quick:,.0f} / {slow:,.0f} | {(slow - quick) / more:.1f} |")


if __name__ == "__main__":
    main()
