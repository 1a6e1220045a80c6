#!/usr/bin/env python3
"""Starts a server on loopback and two clients in Python, and prints what each wrote and got; where proved programs stand, what
`mqctl` then shows too. Ends by itself. The status is bad where README.md has other lines."""

import contextlib
import itertools
import os
import pathlib
import re
import select
import signal
import socket
import subprocess
import sys
import time

TOP = pathlib.Path(__file__).resolve().parent.parent
sys.dont_write_bytecode = True
sys.path.insert(0, str(TOP / "tools"))
import programs  # noqa: E402

KEYS, ROOT_KEY = {"ann": "ka1", "bob": "kb1"}, "kr1"
ADDRESS_IN_README = "127.0.0.1:7000"
WAITS = "      (waits: the queue is empty)"
# Who writes what, and whose outcome comes next. None where the call waits.
STEPS = [
    ("ann", 'jobs = MessageQueue("/jobs", O_CREX, mode=0o644)', ["ann"]),
    ("bob", 'jobs = MessageQueue("/jobs", write=False)', ["bob"]),
    ("bob", "jobs.current_messages", ["bob"]),
    ("bob", "jobs.receive()", None),
    ("ann", 'jobs.send("build-7", priority=5)', ["ann", "bob"]),
    ("bob", "jobs.unlink()", ["bob"]),
]
# What root asks by mqctl. Records 16 to 18 are of the receive, the send and the unlink.
ASKED = [["list"], ["audit", "16", "3"]]
# One looks whether the server serves. Each client in Python has two, of which one is for calls that wait.
CONNECTIONS = 1 + 2 * len(KEYS)

# The longest that the server may take to build and start, a step to be answered, and the server to end.
START_SECONDS, STEP_SECONDS, END_SECONDS = 600, 20, 20
# How long an answer is waited for where none must come.
QUIET_SECONDS = 0.5


class Failed(Exception):
    """The demo didn't go as it must."""


class Client:
    """A client in Python, which runs a line and tells what it gave."""

    def __init__(self, address, key):
        pipes = {"stdin": subprocess.PIPE, "stdout": subprocess.PIPE, "text": True, "bufsize": 1}
        self.process = subprocess.Popen([sys.executable, "demo/client.py", address, key], cwd=TOP, **pipes)

    def write(self, line):
        self.process.stdin.write(line + "\n")

    def is_quiet(self, seconds):
        return not select.select([self.process.stdout], [], [], seconds)[0]

    def outcome(self):
        """The lines that the step gave."""
        if self.is_quiet(STEP_SECONDS):
            raise Failed("a client got no answer")
        lines = []
        for line in self.process.stdout:
            if line == "\n":
                return lines
            lines.append(line.rstrip("\n"))
        raise Failed("a client ended")

    def close(self):
        self.process.stdin.close()
        self.process.wait(STEP_SECONDS)


def free_address():
    with socket.create_server(("127.0.0.1", 0)) as listener:
        return "127.0.0.1:%d" % listener.getsockname()[1]


@contextlib.contextmanager
def serving(address, connections):
    """A server that ends after so many connections; else it is ended as Ctrl-C does."""
    command, folder = programs.server(str(TOP / "demo" / "users"), address, ["--stop-after", str(connections)])
    pipes = {"stdin": subprocess.DEVNULL, "stdout": subprocess.PIPE, "stderr": subprocess.STDOUT, "text": True}
    with subprocess.Popen(command, cwd=folder, start_new_session=True, **pipes) as server:
        try:
            yield server
            said, _ = server.communicate(timeout=END_SECONDS)
            if server.returncode:
                raise Failed(f"the server ended with status {server.returncode}:\n{said}")
        finally:
            if server.poll() is None:
                os.killpg(server.pid, signal.SIGINT)


def await_server(server, address):
    """Returns once the server can be connected to, and leaves again."""
    end = time.monotonic() + START_SECONDS
    while server.poll() is None and time.monotonic() < end:
        try:
            host, port = address.split(":")
            socket.create_connection((host, int(port)), STEP_SECONDS).close()
            return
        except ConnectionRefusedError:
            time.sleep(0.2)
    raise Failed(f"no server serves:\n{server.stdout.read() if server.poll() is not None else ''}")


def told(line):
    print(line, flush=True)
    return line


def play(clients):
    """Has the clients make the steps, and yields each line that is printed."""
    for who, line, answered in STEPS:
        yield told(f"{who} > {line}")
        clients[who].write(line)
        if answered is None:
            if not clients[who].is_quiet(QUIET_SECONDS):
                raise Failed(f"the call doesn't wait: {clients[who].outcome()}")
            yield told(WAITS)
        for other in answered or []:
            for answer in clients[other].outcome():
                yield told(f"{other} < {answer}")


def play_in_python(address):
    clients = {who: Client(address, key) for who, key in KEYS.items()}
    try:
        lines = list(play(clients))
        for client in clients.values():
            client.close()
        return lines
    finally:
        for client in clients.values():
            client.process.kill()


def ask_by_mqctl(address):
    """What root asks, and the answers."""
    for words in ASKED:
        yield told(f"$ mqctl {address} {ROOT_KEY} {' '.join(words)}")
        command = [programs.proved("mqctl"), address, ROOT_KEY, *words]
        ended = subprocess.run(command, stdin=subprocess.DEVNULL, stdout=subprocess.PIPE, text=True, timeout=STEP_SECONDS)
        for line in ended.stdout.splitlines():
            yield told(line)


def wanted_lines():
    """The lines of README.md, of clients in Python and by mqctl: its first two blocks."""
    blocks = re.findall(r"(?m)(?:^    .*\n)+", (TOP / "README.md").read_text(encoding="utf-8"))
    return [[line[4:] for line in block.splitlines()] for block in blocks[:2]]


def differing(address, shown):
    """Where README.md has other lines than were printed."""
    for lines, wanted in zip(shown, wanted_lines()):
        lines = [line.replace(address, ADDRESS_IN_README) for line in lines]
        for line, other in itertools.zip_longest(lines, wanted):
            if line != other:
                return f"README.md has {other!r}, and not {line!r}"
    return None


def main():
    # The server has a session of its own, so nobody else would end it.
    for ending in (signal.SIGTERM, signal.SIGHUP):
        signal.signal(ending, lambda number, _: sys.exit(128 + number))
    address, has_mqctl = free_address(), programs.proved("mqctl") is not None
    shown = []
    if not programs.proved("mqserve"):
        print(programs.NOT_PROVED, flush=True)
    try:
        with serving(address, CONNECTIONS + len(ASKED) * has_mqctl) as server:
            await_server(server, address)
            shown.append(play_in_python(address))
            if has_mqctl:
                shown.append(list(ask_by_mqctl(address)))
    except (Failed, OSError, subprocess.TimeoutExpired) as fault:
        print(fault, file=sys.stderr)
        return 1
    difference = differing(address, shown)
    if difference:
        print(difference, file=sys.stderr)
    return 1 if difference else 0


if __name__ == "__main__":
    sys.exit(main())
