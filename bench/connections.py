#!/usr/bin/env python3
"""Measures connections by the `mqserve serve --one-thread` that is built: how many are made in a second, beside Redis; what an
idle one takes; and what many idle ones cost busy ones.

Compiles two clients of peers/ into a temporary folder, and installs nothing. Run it on an idle machine, with a limit of open
files of twice the connections or more. Prints a table in Markdown. An answer that is not the one that must come ends it, with
status 1 and without a figure.
"""

import argparse
import resource
import socket
import statistics
import subprocess
import sys
import tempfile
from pathlib import Path

from peers import PROGRAM, SERVERS, USERS, free_port, load, serving

HERE = Path(__file__).resolve().parent
HELLO = b"\0\0\0\x06\x01\0\x03ka1"
STARTED = 13
# How many connections are made one after another in a turn.
MADE = 10_000
TURNS = 7
SECONDS = 2
BUSY = 8


def compiled(room, name, *sources):
    program = room / name
    words = ["gcc", "-std=gnu17", "-D_GNU_SOURCE", "-O2", "-Wall", "-Wextra", "-pthread", "-o", program, *sources, "sockets.c"]
    subprocess.run(words, cwd=HERE / "peers", check=True)
    return program


def figure(words):
    """The first number that a client prints."""
    ended = subprocess.run([str(word) for word in words], capture_output=True, text=True)
    if ended.returncode:
        sys.exit(f"{words[0]}: status {ended.returncode}: {ended.stderr.strip()}")
    return float(ended.stdout.split()[0])


def mqserve(room, place, program, connections):
    address = f"127.0.0.1:{place}" if isinstance(place, int) else f"unix:{place}"
    return [program, "serve", room / "users", address, "--one-thread", "--connections", connections]


def made_in_a_second(room, connects, program):
    """Of each server the medians, in turn."""
    figures = {"mqserve": [], "mqserve, at a Unix socket": [], "Redis": []}
    for _ in range(TURNS):
        for name, rates in figures.items():
            place = room / "socket" if "Unix" in name else free_port()
            redis = [SERVERS["redis"], "--bind", "127.0.0.1", "--port", place, "--save", "", "--appendonly", "no"]
            command = redis if name == "Redis" else mqserve(room, place, program, 1000)
            with serving(command, place, room):
                rates.append(figure([connects, "redis" if name == "Redis" else "mqserve", place, MADE]))
    return {name: statistics.median(rates) for name, rates in figures.items()}


def resident(server):
    """The bytes of memory that a process holds."""
    pages = int(Path(f"/proc/{server.pid}/statm").read_text().split()[1])
    return pages * resource.getpagesize()


def said_hello(port):
    made = socket.create_connection(("127.0.0.1", port))
    made.sendall(HELLO)
    answer = b""
    while len(answer) < STARTED:
        piece = made.recv(STARTED - len(answer))
        if not piece:
            sys.exit("a hello was not answered")
        answer += piece
    return made


def beside_idle(room, client, program, count):
    """Messages a second of BUSY connections, alone and beside idle ones, and the bytes of an idle one."""
    alone, beside, each = [], [], []
    for _ in range(3):
        port = free_port()
        with serving(mqserve(room, port, program, count + 100), port, room) as server:
            words = [client, "mqserve", port, "batch", BUSY, SECONDS]
            alone.append(figure(words))
        port = free_port()
        with serving(mqserve(room, port, program, count + 100), port, room) as server:
            said_hello(port).close()
            before = resident(server)
            idle = [said_hello(port) for _ in range(count)]
            each.append((resident(server) - before) / count)
            beside.append(figure([client, "mqserve", port, "batch", BUSY, SECONDS]))
            for one in idle:
                one.close()
    return statistics.median(alone), statistics.median(beside), statistics.median(each)


def main():
    parser = argparse.ArgumentParser(description=__doc__)
    parser.add_argument("--idle", type=int, default=10_000, help="idle connections, 10,000 where nothing is given")
    parser.add_argument("--program", type=Path, default=PROGRAM, help="the mqserve that is measured")
    given = parser.parse_args()
    most = resource.getrlimit(resource.RLIMIT_NOFILE)[1]
    if most < 2 * given.idle:
        sys.exit(f"{given.idle} idle connections want a limit of {2 * given.idle} open files: it is {most}")
    resource.setrlimit(resource.RLIMIT_NOFILE, (most, most))
    before = load()
    with tempfile.TemporaryDirectory(prefix="connections-") as folder:
        room = Path(folder)
        (room / "users").write_text(USERS)
        peers = "client.c stream.c peer_mqserve.c peer_redis.c peer_beanstalkd.c peer_echo.c peer_kernel.c".split()
        client, connects = compiled(room, "client", *peers), compiled(room, "connects", "connects.c")
        rates = made_in_a_second(room, connects, given.program.resolve())
        alone, beside, each = beside_idle(room, client, given.program.resolve(), given.idle)
    print(f"Load average of 1, 5 and 15 minutes: before {before}, after {load()}.\n")
    print("| | |\n|---|--:|")
    for name, rate in rates.items():
        print(f"| connections made in a second, {name} | {rate:,.0f} |")
    print(f"| memory of an idle connection, of {given.idle:,} | {each:,.0f} bytes |")
    print(f"| messages a second by {BUSY} busy connections, each by 8 | {alone:,.0f} |")
    print(f"| the same beside {given.idle:,} idle ones | {beside:,.0f} |")


if __name__ == "__main__":
    main()
