#!/usr/bin/env python3
"""Measures what a round costs that finds no timed call due, by the number of timed calls that are parked.

Starts `mqserve serve --one-thread` at a Unix socket. So many clients each wait for a semaphore until a moment in an hour, and
another makes calls one by one, each of which is a round. Prints the microseconds of the server's processor time a round, the least
of some runs. It ends with status 1 where a round beside the most costs over twice what it costs beside the fewest,
or where a call is answered otherwise. 100,000 are parked where so many files may be open (`ulimit -Hn`), else as many as may.
"""

import argparse
import contextlib
import resource
import select
import socket
import struct
import subprocess
import sys
import tempfile
import time
from pathlib import Path

from hostile_client import MASK, OPENED, SECONDS, STARTED, USERS, frame, frames_of, hello, opening_semaphore, umask

PROGRAM = Path(__file__).resolve().parent.parent / "crates" / "mqserve" / "out" / "mqserve"

COUNTS = (10, 1_000, 10_000, 100_000)

# Calls of a run.
ROUNDS = 20_000

# A round beside the most may cost so many times what it costs beside the fewest.
MOST_TIMES = 2

# The files that a process has open beside its connections.
BESIDE = 64

# How many clients connect at a time.
BATCH = 64

SEM_TIMED_WAIT = 28
HOUR = 3_600_000


def connect(path):
    stream = socket.socket(socket.AF_UNIX)
    stream.settimeout(SECONDS)
    stream.connect(path)
    return stream


def answers(stream, count):
    """So many answers, of which nothing is left."""
    data = b""
    while len(frames_of(data)[0]) < count:
        piece = stream.recv(65_536)
        if not piece:
            sys.exit("the server hung up")
        data += piece
    frames, rest = frames_of(data)
    if len(frames) > count or rest:
        sys.exit("more was answered than was asked")
    return frames


def park(streams, first):
    """Each waits until a moment of its own in an hour."""
    for stream in streams:
        stream.sendall(hello() + opening_semaphore(b"/parked"))
    for number, stream in enumerate(streams, first):
        (started, _), (opened, description) = answers(stream, 2)
        if (started, opened) != (STARTED, OPENED):
            sys.exit(f"a client is answered {started} and {opened}")
        deadline = time.time_ns() // 1_000_000 + HOUR + number
        stream.sendall(frame(SEM_TIMED_WAIT, description + struct.pack(">Q", deadline)))


def park_all(path, count, stack):
    """So many clients whose calls are parked."""
    streams = []
    while len(streams) < count:
        batch = [stack.enter_context(connect(path)) for _ in range(min(BATCH, count - len(streams)))]
        park(batch, len(streams))
        streams += batch
    return streams


def answered(streams):
    """How many of them were told something."""
    poll = select.poll()
    for stream in streams:
        poll.register(stream, select.POLLIN)
    return len(poll.poll(0))


def processor_seconds(process):
    """Of the process, by the clock that the system keeps of it."""
    return time.clock_gettime((~process.pid << 3) | 2)


def seconds_of_rounds(process, client):
    """The server's processor time of a run of calls, one by one."""
    before = processor_seconds(process)
    for _ in range(ROUNDS):
        client.sendall(umask(0o22))
        if answers(client, 1) != [(MASK, struct.pack(">H", 0o22))]:
            sys.exit("a call is answered otherwise")
    return processor_seconds(process) - before


@contextlib.contextmanager
def serving(program, room, connections):
    users, path = Path(room, "users"), str(Path(room, "socket"))
    users.write_text(USERS)
    words = [program, "serve", users, f"unix:{path}", "--one-thread", "--connections", str(connections)]
    with subprocess.Popen(words, stdin=subprocess.DEVNULL, stdout=subprocess.PIPE) as process:
        try:
            if not process.stdout.readline():
                sys.exit("the server doesn't start")
            yield process, path
        finally:
            process.kill()


def microseconds(program, count, runs):
    """Of a round beside so many parked calls."""
    with tempfile.TemporaryDirectory() as room, contextlib.ExitStack() as stack:
        process, path = stack.enter_context(serving(program, room, count + 1))
        parked = park_all(path, count, stack)
        client = stack.enter_context(connect(path))
        client.sendall(hello() + umask(0o22))
        answers(client, 2)
        best = min(seconds_of_rounds(process, client) for _ in range(runs))
        if answered(parked):
            sys.exit(f"{answered(parked)} parked calls ended before their moment")
    return best / ROUNDS * 1e6


def parked_counts():
    """The numbers of parked calls: at most as many as there may be open files, of which each connection is one here, and one in
    the server."""
    _, most = resource.getrlimit(resource.RLIMIT_NOFILE)
    resource.setrlimit(resource.RLIMIT_NOFILE, (most, most))
    room = most - BESIDE if most != resource.RLIM_INFINITY else max(COUNTS)
    return sorted({min(count, room) for count in COUNTS})


def show_rounds(program, runs):
    """Prints what a round costs by the number of parked calls, and ends the program where it grows."""
    print("\n| parked timed calls | microseconds a round |\n|--:|--:|")
    costs = []
    for count in parked_counts():
        costs.append(microseconds(program, count, runs))
        print(f"| {count:,} | {costs[-1]:.1f} |", flush=True)
    if costs[-1] > MOST_TIMES * costs[0]:
        sys.exit(f"a round costs {costs[-1] / costs[0]:.1f} times as much beside the most parked calls")


def main():
    parser = argparse.ArgumentParser(description=__doc__)
    parser.add_argument("runs", nargs="?", type=int, default=3, help="runs of each number, 3 where nothing is given")
    parser.add_argument("--program", type=Path, default=PROGRAM, help="another mqserve")
    given = parser.parse_args()
    if not given.program.exists():
        sys.exit("no program was built yet: run `make build` first")
    show_rounds(given.program.resolve(), given.runs)


if __name__ == "__main__":
    main()
