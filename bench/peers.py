#!/usr/bin/env python3
"""Measures sends and receives of 64-byte messages by mqserve and by other servers, in turn; run by peers.sh.

Prints a Markdown table of the medians on standard output, and how far it is on standard error. An answer that is not
the one that must come ends it, with status 1 and without a figure.
"""

import argparse
import math
import os
import platform
import random
import shutil
import signal
import socket
import statistics
import subprocess
import sys
import time
from contextlib import contextmanager
from pathlib import Path
from typing import NamedTuple

from peers_plot import plot, shown_count

HERE = Path(__file__).resolve().parent
PROGRAM = HERE.parent / "crates" / "mqserve" / "out" / "mqserve"

# The user may have as many queues as are wanted here.
USERS = "bench:ka1:1000:1000::1000000000000000\n"

# How long each peer is measured in each round, whole and short.
SECONDS, SHORT = 0.5, 0.1

# The client ends itself before.
MOST_SECONDS = 70

# What is printed of each peer, in the order of the table.
PEERS = {
    "kernel": "kernel's queues, no server",
    "echo": "C echo",
    "least": "least C server of the frames",
    "mqserve": "mqserve",
    "unix": "mqserve, at a Unix socket",
    "one-thread": "mqserve --one-thread",
    "one-thread-unix": "mqserve --one-thread, at a Unix socket",
    "redis": "Redis",
    "redis-unix": "Redis, at a Unix socket",
    "beanstalkd": "beanstalkd",
}

# The same with what happens in a file; asked for by --peers or --saving.
SAVING = {
    "trail": "mqserve --one-thread --trail-file",
    "trail-sync": "mqserve --one-thread --trail-file --trail-sync",
    "redis-everysec": "Redis, appendfsync everysec",
    "redis-always": "Redis, appendfsync always",
    "beanstalkd-file": "beanstalkd -b",
    "beanstalkd-always": "beanstalkd -b -f0",
}
SHOWN = {**PEERS, **SAVING}
# Those that save nothing, to compare with.
BESIDE = ["one-thread", "redis", "beanstalkd"]

# mqserve's words; None stands for as many workers as are wanted.
OURS = {
    "mqserve": None,
    "unix": None,
    "one-thread": ["--one-thread"],
    "one-thread-unix": ["--one-thread"],
    "trail": ["--one-thread", "--trail-file", "saved/trail"],
    "trail-sync": ["--one-thread", "--trail-file", "saved/trail", "--trail-sync"],
}

# Those that listen at a file, in place of a port.
AT_FILE = {"unix", "one-thread-unix", "redis-unix"}

# Those that come from elsewhere: Debian's packages have the same names.
SERVERS = {"redis": "redis-server", "beanstalkd": "beanstalkd"}
# What they are told besides, by kind.
NOTHING_SAVED = ["--save", "", "--appendonly", "no"]
KINDS = {
    "redis": ("redis", NOTHING_SAVED),
    "redis-unix": ("redis", NOTHING_SAVED),
    "redis-everysec": ("redis", ["--dir", "saved", "--save", "", "--appendonly", "yes", "--appendfsync", "everysec"]),
    "redis-always": ("redis", ["--dir", "saved", "--save", "", "--appendonly", "yes", "--appendfsync", "always"]),
    "beanstalkd-file": ("beanstalkd", ["-b", "saved"]),
    "beanstalkd-always": ("beanstalkd", ["-b", "saved", "-f0"]),
}

WANTED = """\
{missing}: not found on PATH. They are Debian's packages of these names:
    apt-get install redis-server beanstalkd
Without root, in an empty folder:
    apt-get download redis-server redis-tools beanstalkd libjemalloc2 liblzf1
    for package in *.deb; do dpkg -x "$package" root; done
    export PATH="$PWD/root/usr/bin:$PATH" LD_LIBRARY_PATH="$PWD/root/usr/lib/x86_64-linux-gnu"
Or leave them out by --peers: of {all}."""


class Work(NamedTuple):
    shown: str
    word: str  # of the client
    connections: int
    peers: tuple
    # What mqserve shall reach on an idle machine, by a peer's rate.
    aim: float
    aim_of: str


ALONE = tuple(peer for peer in SHOWN if peer != "echo")
WORKS = (
    Work("One connection, a request at a time", "serial", 1, tuple(SHOWN), 0.9, "echo"),
    Work("One connection, by 8", "batch", 1, tuple(SHOWN), 2.0, "redis"),
    Work("64 connections, each by 8", "batch", 64, tuple(SHOWN), 3.0, "redis"),
    Work("Ping-pong of two processes", "pong", 1, ALONE, 1.5, "redis"),
)


class Figure(NamedTuple):
    rate: float  # messages a second
    cost: float  # the server's processor time a message, in microseconds; NaN without a server


def command_of(peer, room, program, port, connections):
    """How its server is started, None for the kernel."""
    file = room / "socket"
    if peer in OURS:
        address = f"unix:{file}" if peer in AT_FILE else f"127.0.0.1:{port}"
        words = OURS[peer] or ["--workers", max(4, connections)]
        return [program, "serve", room / "users", address, *words]
    kind, told = KINDS.get(peer, (peer, []))
    place = ["--port", "0", "--unixsocket", file] if peer in AT_FILE else ["--bind", "127.0.0.1", "--port", port]
    return {
        "kernel": None,
        "echo": [room / "echo_server", port],
        "least": [room / "least_server", port],
        "redis": [SERVERS["redis"], *place, *told],
        "beanstalkd": [SERVERS["beanstalkd"], "-l", "127.0.0.1", "-p", port, *told],
    }[kind]


def free_port():
    with socket.socket() as probe:
        probe.bind(("127.0.0.1", 0))
        return probe.getsockname()[1]


def wait_until_ready(server, place, log):
    """Returns when the server takes connections, on a port or at a file."""
    end = time.monotonic() + 10
    family, address = (socket.AF_INET, ("127.0.0.1", place)) if isinstance(place, int) else (socket.AF_UNIX, str(place))
    while server.poll() is None and time.monotonic() < end:
        with socket.socket(family) as probe:
            if probe.connect_ex(address) == 0:
                return
        time.sleep(0.01)
    sys.exit(f"{server.args[0]} takes no connections: {log.read_text().strip()}")


@contextmanager
def serving(command, place, room):
    """The server as a process, None without a command. It is ended by its id, by peers.sh where this program can't."""
    if command is None:
        yield None
        return
    log = room / "log"
    with log.open("w") as output:
        words = [str(word) for word in command]
        server = subprocess.Popen(words, cwd=room, stdin=subprocess.DEVNULL, stdout=output, stderr=output)
    note = room / f"{server.pid}.server"
    try:
        note.touch()
        wait_until_ready(server, place, log)
        yield server
    finally:
        server.terminate()
        try:
            server.wait(5)
        except subprocess.TimeoutExpired:
            server.kill()
            server.wait()
        note.unlink()


def processor_seconds(server):
    """What the server has used so far, NaN without one."""
    if server is None:
        return float("nan")
    # The name, in brackets, may have spaces.
    fields = Path(f"/proc/{server.pid}/stat").read_text().rpartition(")")[2].split()
    return (int(fields[11]) + int(fields[12])) / os.sysconf("SC_CLK_TCK")


def measured(peer, work, room, program, seconds):
    """One figure, of a server that is started for it."""
    port = free_port()
    place = room / "socket" if peer in AT_FILE else port
    protocol = "mqserve" if peer == "least" or peer in OURS else KINDS.get(peer, (peer,))[0]
    shutil.rmtree(room / "saved", ignore_errors=True)
    (room / "saved").mkdir()
    words = [room / "client", protocol, str(place), work.word, str(work.connections), str(seconds)]
    with serving(command_of(peer, room, program, port, work.connections), place, room) as server:
        before = processor_seconds(server)
        client = subprocess.run(words, capture_output=True, text=True, timeout=MOST_SECONDS)
        if client.returncode:
            sys.exit(f"{SHOWN[peer]}, {work.shown}: status {client.returncode}: {client.stderr.strip()}")
        spent = processor_seconds(server) - before
    rate, messages = map(float, client.stdout.split())
    return Figure(rate, spent / messages * 1e6)


def measured_rounds(peers, rounds, room, program, seconds):
    """The figures of each work and peer, round by round. In a round works are shuffled, and the peers of each work."""
    figures = {(work, peer): [] for work in WORKS for peer in peers if peer in work.peers}
    for number in range(1, rounds + 1):
        for work in random.sample(WORKS, len(WORKS)):
            print(f"round {number} of {rounds}: {work.shown}", file=sys.stderr, flush=True)
            among = [peer for peer in peers if peer in work.peers]
            for peer in random.sample(among, len(among)):
                figures[work, peer].append(measured(peer, work, room, program, seconds))
    return figures


def ratio(figures, work, peer, other):
    """The median of the rounds' ratios of rates; None where the other wasn't measured."""
    if (work, other) not in figures:
        return None
    pairs = zip(figures[work, peer], figures[work, other])
    return statistics.median(one.rate / by.rate for one, by in pairs)


def shown_ratio(number):
    return "–" if number is None else f"{number:.2f}"


def shown_cost(number):
    return "–" if math.isnan(number) else f"{number:.2f}"


def table(figures):
    """The table in Markdown."""
    lines = [
        "| | Messages a second | Least to greatest | Of the echo | Of Redis | Server's processor time a message, µs |",
        "|---|--:|--:|--:|--:|--:|",
    ]
    for work in WORKS:
        lines.append(f"| **{work.shown}** | | | | | |")
        for peer in (peer for peer in SHOWN if (work, peer) in figures):
            rates = [it.rate for it in figures[work, peer]]
            cells = [
                SHOWN[peer],
                shown_count(statistics.median(rates)),
                f"{shown_count(min(rates))} to {shown_count(max(rates))}",
                shown_ratio(ratio(figures, work, peer, "echo")),
                shown_ratio(ratio(figures, work, peer, "redis")),
                shown_cost(statistics.median(it.cost for it in figures[work, peer])),
            ]
            lines.append(f"| {' | '.join(cells)} |")
    return "\n".join(lines)


def aims(figures):
    """How mqserve stands to each aim, a line each."""
    for work in WORKS:
        if (work, "mqserve") in figures and (work, work.aim_of) in figures:
            reached = ratio(figures, work, "mqserve", work.aim_of)
            verdict = "reached" if reached >= work.aim else "missed"
            yield f"{work.shown}: {reached:.2f} of {PEERS[work.aim_of]}, the aim is {work.aim}: {verdict}"


def load():
    return " ".join(f"{it:.2f}" for it in os.getloadavg())


def processor():
    lines = Path("/proc/cpuinfo").read_text().splitlines()
    names = (line.partition(":")[2].strip() for line in lines if line.startswith("model name"))
    return next(names, platform.machine())


def versions(peers):
    """Of the servers that aren't ours, as they say it."""
    for kind in dict.fromkeys(KINDS.get(peer, (peer,))[0] for peer in peers):
        if kind in SERVERS:
            output = subprocess.run([SERVERS[kind], "-v"], capture_output=True, text=True, check=True).stdout
            yield output.partition(" sha")[0].strip()


def check_programs(peers, program):
    """Ends the program where a server is missing."""
    wanted = {SERVERS[kind] for kind in {KINDS.get(peer, (peer,))[0] for peer in peers} if kind in SERVERS}
    missing = [server for server in sorted(wanted) if not shutil.which(server)]
    if missing:
        sys.exit(WANTED.format(missing=" and ".join(missing), all=",".join(SHOWN)))
    if set(OURS) & set(peers) and not program.exists():
        sys.exit("no program was built yet: run `make build` first")


def arguments():
    parser = argparse.ArgumentParser(prog="peers.sh", description=__doc__)
    parser.add_argument("room", type=Path, help=argparse.SUPPRESS)
    parser.add_argument("--rounds", type=int, default=7, help="7 where nothing is given")
    parser.add_argument("--short", action="store_true", help=f"{SHORT} s each in place of {SECONDS} s, for trying")
    parser.add_argument("--peers", default=",".join(PEERS), help=f"these alone, of %(default)s,{','.join(SAVING)}")
    parser.add_argument("--saving", action="store_true", help="those that keep in a file what happens, beside some that don't")
    parser.add_argument("--program", type=Path, default=PROGRAM, help="the mqserve that is measured")
    parser.add_argument("--plot", type=Path, help="peers.svg beside this file; no plot where --short is given, or other peers")
    given = parser.parse_args()
    given.peers = [*BESIDE, *SAVING] if given.saving else given.peers.split(",")
    unknown = [peer for peer in given.peers if peer not in SHOWN]
    if unknown:
        parser.error(f"no such peer: {', '.join(unknown)}")
    if given.rounds < 1:
        parser.error("at least one round")
    if given.plot is None and not given.short and given.peers == list(PEERS):
        given.plot = HERE / "peers.svg"
    return given


def main():
    given = arguments()
    # So that servers are ended where peers.sh ends this program.
    signal.signal(signal.SIGTERM, lambda *_: sys.exit(143))
    check_programs(given.peers, given.program)
    (given.room / "users").write_text(USERS)
    seconds = SHORT if given.short else SECONDS
    before = load()
    figures = measured_rounds(given.peers, given.rounds, given.room, given.program.resolve(), seconds)
    print(f"{processor()}, {os.cpu_count()} cores, Linux {platform.release()}; {'; '.join(versions(given.peers))}.")
    print(f"Medians of {given.rounds} rounds in random order, {seconds} s each, on {time.strftime('%Y-%m-%d')}.")
    print(f"Load average of 1, 5 and 15 minutes: before {before}, after {load()}.\n")
    print(table(figures))
    for line in aims(figures):
        print(line, file=sys.stderr)
    if given.plot:
        given.plot.write_text(plot(WORKS, PEERS, OURS, figures))


if __name__ == "__main__":
    main()
