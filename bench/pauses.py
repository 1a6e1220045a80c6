#!/usr/bin/env python3
"""Measures how long a call takes at most while a server on one thread forgets records.

`bench/pauses.py [--calls N]` starts the built server at a Unix socket with `--keep-all`, and then with `--keep-records 1000`, of
which each call forgets one. One session sends and receives messages of 64 bytes and of 64 KiB, a call at a time. And it does so where a
million small records take all the bytes that are kept, so that each message of 64 KiB forgets a thousand of them, until few are left.
Prints the microseconds of a call from its client, and those for which the server itself ran (`/proc/PID/schedstat`), without those in which
it waited for a processor: the median, of one in a thousand, and the most.
"""

import argparse
import pathlib
import struct
import subprocess
import sys
import tempfile
import time

from memory import BOTH, CREATE, MASK, MQ_OPEN, MQ_RECEIVE, MQ_SEND, OPENED, PROGRAM, SENT, UMASK, USERS, Client, frame, text

RECEIVED = 71
SIZES = (64, 65_536)
SETTINGS = (["--keep-all"], ["--keep-records", "1000"])
# So many small records, which count as 128 bytes each, and the calls in which all but a few are forgotten.
SMALL, AT_ONCE = 1_000_000, 1_000
BEHIND_SMALL, FEW_CALLS = ["--keep-bytes", str(128 * SMALL)], 1_900


def ran(server):
    """The nanoseconds for which the server ran so far."""
    return int(server.read_bytes().split()[0])


def timed(client, server, request, opcode):
    """The nanoseconds of a call, and for how many of them the server ran."""
    before = ran(server)
    start = time.perf_counter_ns()
    client.call(request, opcode)
    return time.perf_counter_ns() - start, ran(server) - before


def times(path, server, size, calls, small):
    """The nanoseconds of so many calls and of the server in each, behind so many small records, the least first."""
    client = Client(path)
    for _ in range(small // AT_ONCE):
        client.stream.sendall(frame(UMASK, b"\0\0") * AT_ONCE)
        if any(opcode != MASK for opcode, _ in client.answers(AT_ONCE)):
            sys.exit("a umask was refused")
    client.call(frame(MQ_OPEN, text(b"/q") + struct.pack(">BBHBII", BOTH, CREATE, 0o600, 1, 8, size)), OPENED)
    send = frame(MQ_SEND, struct.pack(">QI", 0, 1) + bytes(size))
    receive = frame(MQ_RECEIVE, struct.pack(">QI", 0, size))
    kinds = ((send, SENT), (receive, RECEIVED))
    found = [timed(client, server, *kind) for _ in range(calls // 2) for kind in kinds]
    return [sorted(side) for side in zip(*found)]


def measured(words, size, calls, small=0):
    with tempfile.TemporaryDirectory() as room:
        users, path = pathlib.Path(room) / "users", f"{room}/socket"
        users.write_text(USERS, encoding="ascii")
        command = [str(PROGRAM), "serve", str(users), f"unix:{path}", "--one-thread", "--msgsize-max", "65536", *words]
        with subprocess.Popen(command, stdout=subprocess.PIPE) as server:
            try:
                server.stdout.readline()
                return times(path, pathlib.Path(f"/proc/{server.pid}/schedstat"), size, calls, small)
            finally:
                server.kill()


def main():
    parser = argparse.ArgumentParser(description=__doc__)
    parser.add_argument("--calls", type=int, default=200_000)
    given = parser.parse_args()
    print("| records | message | a call: median | one in a thousand | the longest | the server: median | one in a thousand | the most |")
    print("|---|--:|--:|--:|--:|--:|--:|--:|")
    rows = [(words, size, given.calls, 0) for size in SIZES for words in SETTINGS]
    for words, size, calls, small in (*rows, (BEHIND_SMALL, SIZES[-1], min(given.calls, FEW_CALLS), SMALL)):
        sides = measured(words, size, calls, small)
        shown = [side[place] / 1000 for side in sides for place in (len(side) // 2, -(len(side) // 1000) - 1, -1)]
        print(f"| `{' '.join(words)}` | {size:,} | {' | '.join(f'{one:,.1f}' for one in shown)} |", flush=True)


if __name__ == "__main__":
    main()
