#!/usr/bin/env python3
"""Refuses each growth of memory in turn, and disturbs each read and write in turn, in the programs that the gate or a
build left. A run refuses one growth, the first run the first, and so on until a run meets none any more; likewise a read
or a write fails, comes short, or is interrupted. Where a program ends once memory is refused, all growths from one on are
refused too. Each run is judged by itself:

- test_memory makes again what is refused: it prints its `stdout`, with status 0.
- mqserve and mqctl, over NAME.in, print NAME.out; or, where memory is refused or a read or a write fails, they end with
  the status and the words of that, and what they have printed by then are the first lines of NAME.out.
- mqserve compact and mqserve same, over a trail in two files, end so too, and change no file: a new one is whole, or isn't left.
- mqserve serve, with two clients one after the other, ends so too, or with status 0: then each client got the first of
  its answers. It serves by a worker and on one thread, over TCP and at a Unix socket. One thread that is refused memory for good
  may also accept nobody any more, and go on. mqctl ADDRESS KEY has a server that answers at once.
- A short or interrupted read or write changes nothing, and no file is read again of which a read failed.

Of mqserve serve over TCP, growths are also refused so many times one after another that the server's last try of a hello, a step
or a hang-up is the first that is granted, or the last that is refused: `tries`. And of many connections, one after another, no
allocation may be left: `kept`.

Prints a line for each way, one for each run that fails, and the counts; the status is 1 where one failed, or where few
were met. The programs are looked for in crates/NAME/out; `--programs FOLDER` gives another folder.
"""

import argparse
import concurrent.futures
import dataclasses
import itertools
import os
import pathlib
import subprocess
import sys
import tempfile

from programs import Fault, Program
from retelling import retellings
from served import Client, Loopback, Server, UnixSocket, UsersSockets, answers_of, frame, short_talk
from tries import tries_differences

HERE = pathlib.Path(__file__).resolve().parent
TOP = HERE.parent
# A whole run that meets fewer growths, or fewer reads and writes, shows nothing.
LEAST = 1_000
# The most bytes of a read or a write, where these are disturbed: so there are many.
PIECE = 7
# More growths than a run asks for.
ALL = 10**9

ALLOCATION = "allocation"
# How each way is said, and the program's words and exit status where it can't go on. A connection's reads and writes are the
# network's.
MEMORY = Fault(["memory"], 5)
FAILING = {"read-fails": Fault(["read", "net"], 4), "write-fails": Fault(["write", "net"], 4)}
HARMLESS = ["read-short", "read-interrupted", "write-short", "write-interrupted"]

# How servers serve, and at which addresses.
SERVERS = [
    ("mqserve serve", ("--workers", "1"), Loopback),
    ("mqserve serve unix:PATH", ("--workers", "1"), UnixSocket),
    ("mqserve serve --one-thread", ("--one-thread",), Loopback),
    ("mqserve serve unix:PATH --one-thread", ("--one-thread",), UnixSocket),
]
if os.geteuid() == 0:  # who else may not give files away
    SERVERS.append(("mqserve serve unix-users:DIR --one-thread", ("--one-thread",), UsersSockets))

# How many connections a server has whose allocations are counted, and how many allocations more a hundred may leave.
FEW, MANY, LEFT = 10, 110, 20
# How many values there are at once, the least bytes that each takes, and how many bytes may be left when they are gone.
VALUES, EACH, ROOM = 100_000, 16, 8_192


def program_at(folder, name):
    """The program, in `folder` or else where builds leave it."""
    return folder / name if folder else TOP / "crates" / name / "out" / name


def programs(folder):
    """The programs, in `folder` or else where builds leave them."""
    at = lambda name: program_at(folder, name)
    beside = lambda name, ending: (HERE / name).with_suffix(ending).read_bytes()
    tests = TOP / "crates" / "test_memory" / "stdout"
    yield Program("test_memory", at("test_memory"), [], b"", tests.read_bytes(), 0, again=True)
    script = ["script", "--queues-max", "256"]
    yield Program("mqserve", at("mqserve"), script, beside("mqserve", ".in"), beside("mqserve", ".out"), 0)
    yield Program("mqctl", at("mqctl"), [], beside("mqctl", ".in"), beside("mqctl", ".out"), 1)
    yield from retellings(at("mqserve"))
    yield from servers(at("mqserve"))
    refused = frame(b"\x4c\0\x08")
    lines, printed = b"umask 000\nmq-close 7\n-\n", b"mask 022\nrefused 8 EBADF BadDescr\nfault usage\n"
    answers = answers_of(short_talk(0)) + refused
    yield Client("mqctl ADDRESS KEY", at("mqctl"), ["ka1"], lines, printed, 1, answers=answers)


def servers(file):
    """The servers, each way and at each kind of address."""
    out = b"serving ADDRESS\nserved %d\n" % len(Server.talks)
    for name, how, kind in SERVERS:
        yield Server(name, file, [TOP / "demo" / "users"], b"", out, 0, how=how, kind=kind)


def with_talks(server, talks):
    """The same with other clients."""
    return dataclasses.replace(server, talks=talks, out=b"serving ADDRESS\nserved %d\n" % len(talks))


def library_in(room):
    """Builds the library to preload in this folder."""
    made = pathlib.Path(room) / "refuse.so"
    command = ["gcc", "-O2", "-Wall", "-Wextra", "-shared", "-fPIC", "-o", made, HERE / "refuse.c"]
    subprocess.run(command, check=True)
    return made


def run(program, library, what, at, times=1):
    """Runs the program with so many calls disturbed, from this one on. How it ended, and what the library told."""
    reader, writer = os.pipe()
    told = {"DISTURB_WHAT": what, "DISTURB_AT": str(at), "DISTURB_TIMES": str(times), "DISTURB_TOLD": str(writer)}
    if what in FAILING or what in HARMLESS:
        told["DISTURB_PIECE"] = str(PIECE)
    try:
        ended = program.run({**os.environ, **told, "LD_PRELOAD": str(library)}, [writer])
    finally:
        os.close(writer)
        with os.fdopen(reader, "rb") as end:
            said = end.read()
    ended.is_again = b"?" in said
    return ended, said


def judged(program, library, what, fault, at, times):
    """Whether the call was met, and where the run does other than it may, or nothing."""
    try:
        ended, said = run(program, library, what, at, times)
    except subprocess.TimeoutExpired:
        return True, "takes too long"
    return bool(said), program.difference(ended, fault)


def each_in_turn(pool, jobs, judge):
    """Judges a run with the first call disturbed, the second, and so on until none is met; each that was met."""
    numbers = itertools.count(1)
    while True:
        batch = list(itertools.islice(numbers, 16 * jobs))
        for at, (is_met, verdict) in zip(batch, pool.map(judge, batch)):
            if not is_met:
                return
            yield at, verdict


def disturbed(pool, jobs, program, library, way):
    """Disturbs each such call in turn; how many were met, and how many runs failed."""
    what, fault, times = way
    judge = lambda at: judged(program, library, what, fault, at, times)
    said = what if times == 1 else f"{what}s from there on"
    met, failed = 0, 0
    for at, why in each_in_turn(pool, jobs, judge):
        met += 1
        failed += bool(why)
        if why:
            print(f"{program.name}, {said} {at}: {why}", flush=True)
    print(f"{program.name}, {said}: {met} met, {failed} failed", flush=True)
    return met, failed


def ways_of(program):
    """The ways in which calls of the program are disturbed: each with its fault, if it is one, and how many calls."""
    yield ALLOCATION, MEMORY, 1
    if not program.again:
        yield ALLOCATION, MEMORY._replace(lasts=True), ALL
        yield from ((what, fault, 1) for what, fault in FAILING.items())
    yield from ((what, None, 1) for what in HARMLESS)


def kept_difference(server, library):
    """Where connections that are over leave allocations, or nothing."""
    most = []
    for count in (FEW, MANY):
        program = with_talks(server, (short_talk,) * count)
        ended, said = run(program, library, "kept", 1)
        differs = program.whole_difference(ended)
        if differs or not said:
            return differs or "nothing was counted"
        most.append(max(map(int, said.split())))
    print(f"{server.name}, kept: {most[0]} allocations at most with {FEW} connections, {most[1]} with {MANY}", flush=True)
    return "" if most[1] - most[0] <= LEFT else "connections that are over leave allocations"


def room_difference(file, library):
    """Where values that are gone leave room, or nothing."""
    lines = b"new\nfilled\ntaken\ngone on\n"
    program = Program("bench_calls", file, ["numbers", str(VALUES)], b"", lines, 0)
    ended, said = run(program, library, "bytes", 1)
    differs = program.whole_difference(ended)
    counts = list(map(int, said.split()))
    if differs or len(counts) != lines.count(b"\n"):
        return differs or f"{len(counts)} counts of bytes"
    new, filled, taken, gone_on = counts
    print(f"bench_calls numbers: {filled} bytes with {VALUES} values, {taken} with none, {gone_on} when as many came and went", flush=True)
    if filled - new < VALUES * EACH:
        return "the bytes of values aren't counted"
    return "" if max(taken, gone_on) - new <= ROOM else "values that are gone leave room"


def server_differences(pool, jobs, server, library):
    """What else differs of a server."""
    # One thread makes its buffer of answers for the first client; a step of a later one wants no other growth between its tries.
    tried = with_talks(server, (short_talk, *server.talks)) if server.is_one_thread else server

    def outcome(at, times):
        ended, said = run(tried, library, ALLOCATION, at, times)
        return bool(said), ended

    yield from tries_differences(tried, lambda judge: each_in_turn(pool, jobs, judge), outcome)
    yield kept_difference(server, library)


def main():
    parser = argparse.ArgumentParser(description="Refuses each growth in turn, and disturbs each read and write in turn.")
    parser.add_argument("--programs", type=pathlib.Path, help="a folder with the programs")
    parser.add_argument("--jobs", type=int, default=os.cpu_count(), help="how many runs at a time")
    parser.add_argument("names", nargs="*", help="programs alone that are run; else all are")
    asked = parser.parse_args()
    folder = asked.programs and asked.programs.resolve()
    allocations, transfers, failed = 0, 0, 0
    with tempfile.TemporaryDirectory() as room, concurrent.futures.ThreadPoolExecutor(asked.jobs) as pool:
        library = library_in(room)
        for program in programs(folder):
            if asked.names and program.name not in asked.names:
                continue
            for way in ways_of(program):
                met, amiss = disturbed(pool, asked.jobs, program, library, way)
                failed += amiss
                allocations += met if way[0] == ALLOCATION else 0
                transfers += met if way[0] != ALLOCATION else 0
            if isinstance(program, Server) and program.kind is Loopback:
                for why in filter(None, server_differences(pool, asked.jobs, program, library)):
                    print(f"{program.name}: {why}")
                    failed += 1
        if not asked.names or "bench_calls" in asked.names:
            why = room_difference(program_at(folder, "bench_calls"), library)
            if why:
                print(f"bench_calls numbers: {why}")
                failed += 1
    if not asked.names and (allocations < LEAST or transfers < LEAST):
        print(f"fewer than {LEAST} of a kind were met: the library that refuses them has no effect")
        failed += 1
    print(f"{transfers} reads and writes disturbed")
    print(f"{allocations} allocations refused, {failed} failed")
    return 1 if failed else 0


if __name__ == "__main__":
    sys.exit(main())
