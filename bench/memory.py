#!/usr/bin/env python3
"""Measures how much memory a server on one thread has after many calls.

`bench/memory.py [--millions N ..] [--sessions N] [WORDS]` starts the built server with WORDS, as `--keep-all`, at a Unix socket. One
session makes calls in pieces: it sends and receives 64 bytes, opens, unlinks and closes a queue, and is refused, beside 1,000 messages
that stay, and behind each piece it waits for an empty queue until a moment. Then others come and go, `--sessions` of them for a million
calls: of four one has an unknown key, and three wait so too. Prints the resident memory in MiB after each number of millions of calls.
"""

import argparse
import pathlib
import socket
import struct
import subprocess
import sys
import tempfile
import time

HERE = pathlib.Path(__file__).resolve().parent
PROGRAM = HERE.parent / "crates" / "mqserve" / "out" / "mqserve"
USERS = "ann:ka1:1000:1000::\n"

HELLO, UMASK, MQ_OPEN, MQ_CLOSE, MQ_UNLINK, MQ_SEND, MQ_RECEIVE, MQ_TIMED_RECEIVE = 1, 2, 3, 4, 5, 6, 7, 27
STARTED, DONE, OPENED, MASK, SENT, RECEIVED, REFUSED = 65, 66, 67, 68, 70, 71, 76
ANSWERS = [SENT, RECEIVED, OPENED, DONE, DONE, REFUSED, MASK]
TIMED_OUT = 32
BOTH, CREATE = 3, 1
STANDING, LIVES, CALLS_OF_A_LIFE = 1_000, 2_000, 7


def frame(opcode, fields=b""):
    return struct.pack(">IB", 1 + len(fields), opcode) + fields


def text(data):
    return struct.pack(">H", len(data)) + data


class Client:
    """A session over a Unix socket."""

    def __init__(self, path, key=b"ka1", answer=STARTED):
        self.stream = socket.socket(socket.AF_UNIX)
        self.stream.settimeout(60)
        self.stream.connect(path)
        self.kept = b""
        self.call(frame(HELLO, text(key)), answer)

    def wait(self, desc):
        """Waits for a message of an empty queue until a millisecond from now."""
        moment = time.time_ns() // 1_000_000 + 1
        refused = self.call(frame(MQ_TIMED_RECEIVE, struct.pack(">QIQ", desc, 64, moment)), REFUSED)
        if refused != TIMED_OUT:
            sys.exit(f"refused by rule {refused}")

    def answers(self, count):
        """The opcode of each of so many answers, and the number in its fields."""
        found = []
        while len(found) < count:
            at, data = 0, self.kept
            while len(found) < count and at + 4 <= len(data):
                size = int.from_bytes(data[at : at + 4], "big")
                if at + 4 + size > len(data):
                    break
                found.append((data[at + 4], int.from_bytes(data[at + 5 : at + 4 + min(size, 9)], "big")))
                at += 4 + size
            self.kept = data[at:]
            if len(found) < count:
                more = self.stream.recv(1 << 20)
                if not more:
                    sys.exit("the server hung up")
                self.kept += more
        return found

    def call(self, request, opcode):
        """Makes a call that has this answer, and returns the number in it."""
        self.stream.sendall(request)
        [(found, number)] = self.answers(1)
        if found != opcode:
            sys.exit(f"answer {found}, and not {opcode}")
        return number


def opening(name, room):
    """An open that creates a queue of so many messages of 64 bytes."""
    return frame(MQ_OPEN, text(name) + struct.pack(">BBHBII", BOTH, CREATE, 0o600, 1, room, 64))


def life(desc):
    """Seven calls, of which one is refused. The description is the next."""
    numbers = struct.pack(">Q", desc)
    return (
        frame(MQ_SEND, struct.pack(">QI", 0, 1) + bytes(64))
        + frame(MQ_RECEIVE, struct.pack(">QI", 0, 64))
        + opening(b"/n", 1)
        + frame(MQ_UNLINK, text(b"/n"))
        + frame(MQ_CLOSE, numbers)
        + frame(MQ_CLOSE, numbers)
        + frame(UMASK, b"\0\0")
    )


def expected(answers, desc):
    """Each life was answered as it must be: sent, received, opened, unlinked, closed, refused, and told its mask."""
    opcodes = [opcode for opcode, _ in answers]
    opened = [number for opcode, number in answers if opcode == OPENED]
    if opcodes != ANSWERS * LIVES or opened != list(range(desc, desc + LIVES)):
        sys.exit("a life was answered otherwise")


def resident(process):
    """Its resident memory in MiB."""
    with open(f"/proc/{process.pid}/statm", encoding="ascii") as file:
        return int(file.read().split()[1]) * 4096 / (1 << 20)


def visit(path, number):
    """A session that comes and goes. Returns how many descriptions it opened."""
    is_known = number % 4 != 0
    if is_known:
        client = Client(path)
        client.wait(client.call(opening(b"/empty", 1), OPENED))
    else:
        client = Client(path, b"unknown", REFUSED)
    client.stream.close()
    return int(is_known)


def measured(path, server, millions, sessions):
    """Lives, and prints after each of these numbers of millions of calls."""
    client, calls, come = Client(path), 0, 0
    client.call(opening(b"/q", STANDING + 1), OPENED)
    client.call(opening(b"/empty", 1), OPENED)
    for _ in range(STANDING):
        client.call(frame(MQ_SEND, struct.pack(">QI", 0, 0) + bytes(64)), SENT)
    desc = 2
    for goal in millions:
        while calls < goal * 1_000_000:
            client.stream.sendall(b"".join(life(desc + number) for number in range(LIVES)))
            expected(client.answers(LIVES * CALLS_OF_A_LIFE), desc)
            desc, calls = desc + LIVES, calls + LIVES * CALLS_OF_A_LIFE
            client.wait(1)
            while come < calls * sessions // 1_000_000:
                desc += visit(path, come)
                come += 1
        print(f"{goal} million calls, {come} sessions: {resident(server):.1f} MiB", flush=True)


def main():
    parser = argparse.ArgumentParser(description=__doc__)
    parser.add_argument("--millions", type=int, nargs="+", default=[1, 10, 100])
    parser.add_argument("--sessions", type=int, default=0)
    given, words = parser.parse_known_args()
    with tempfile.TemporaryDirectory() as room:
        users, path = pathlib.Path(room) / "users", f"{room}/socket"
        users.write_text(USERS, encoding="ascii")
        command = [str(PROGRAM), "serve", str(users), f"unix:{path}", "--one-thread", "--msg-max", "2000", *words]
        with subprocess.Popen(command, stdout=subprocess.PIPE) as server:
            try:
                server.stdout.readline()
                measured(path, server, given.millions, given.sessions)
            finally:
                server.kill()


if __name__ == "__main__":
    main()
