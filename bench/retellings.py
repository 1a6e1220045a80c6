#!/usr/bin/env python3
"""Measures how long a retelling takes, and how much memory: of queues that have messages of 64 bytes each, and, where `redis-server` is installed, how long
Redis rewrites its append-only file of as many lists with as many entries.

`bench/retellings.py [--queues N] [--messages N]` has a built server make the trail, at a Unix socket and on one thread, and then
runs `mqserve compact`, `mqserve same` and `mqserve replay` of what came of it. It prints the seconds and the most memory of each, and the sizes of the files."""

import argparse
import os
import pathlib
import resource
import socket
import struct
import subprocess
import sys
import tempfile
import time

from memory import CREATE, DONE, MQ_CLOSE, MQ_OPEN, MQ_SEND, OPENED, PROGRAM, SENT, Client, frame, text

WRITE, SIZE = 2, 64
USERS = "root:r00t:0:0::1000000000000\n"
REDIS = "redis-server"


def made(path, queues, each):
    """Makes the queues, and sends to each so many messages."""
    client = Client(path, b"r00t")
    send = lambda desc: frame(MQ_SEND, struct.pack(">QI", desc, 0) + bytes(SIZE))
    for desc in range(queues):
        name = text(b"/queue-%06d" % desc)
        opens = frame(MQ_OPEN, name + struct.pack(">BBHBII", WRITE, CREATE, 0o600, 1, each, SIZE))
        client.stream.sendall(opens + send(desc) * each + frame(MQ_CLOSE, struct.pack(">Q", desc)))
        answers = [opcode for opcode, _ in client.answers(each + 2)]
        if answers != [OPENED] + [SENT] * each + [DONE]:
            sys.exit(f"a call was refused: {answers}")


def served(room, queues, each):
    """A trail in which so many queues have so many messages each."""
    users, trail, path = room / "users", room / "trail", f"{room}/socket"
    users.write_text(USERS, encoding="ascii")
    limits = ["--queues-max", str(queues), "--msg-max", str(each)]
    command = [PROGRAM, "serve", users, f"unix:{path}", "--one-thread", "--stop-after", "1", "--trail-file", trail, *limits]
    with subprocess.Popen(command, stdout=subprocess.PIPE) as server:
        server.stdout.readline()
        made(path, queues, each)
        server.communicate()
    return users, trail


def timed(*command):
    """The seconds, and the most MiB, of a program."""
    start = time.perf_counter()
    process = subprocess.Popen([PROGRAM, *command], stdout=subprocess.PIPE)
    said = process.stdout.read().decode().split("\n")
    _, status, used = os.wait4(process.pid, 0)
    if status:
        sys.exit(f"{command[0]} ended by {status}")
    return time.perf_counter() - start, used.ru_maxrss / 1024, said


def tell(what, seconds, mib):
    print(f"{what}: {seconds:.2f} s, {mib:.0f} MiB", flush=True)


def redis_command(stream, *words):
    stream.sendall(b"*%d\r\n" % len(words) + b"".join(b"$%d\r\n%s\r\n" % (len(word), word) for word in words))


def redis_rewrites(room, queues, each):
    """The seconds for which Redis rewrites its file, from the request to the end, by looks 5 ms apart."""
    path = f"{room}/redis.sock"
    command = [REDIS, "--port", "0", "--unixsocket", path, "--dir", str(room), "--save", "", "--appendonly", "yes", "--appendfsync", "no"]
    server = subprocess.Popen(command, stdout=subprocess.DEVNULL)
    try:
        while not pathlib.Path(path).exists():
            time.sleep(0.01)
        stream = socket.socket(socket.AF_UNIX)
        stream.connect(path)
        entry = bytes(SIZE)
        for queue in range(queues):
            redis_command(stream, b"RPUSH", b"queue-%06d" % queue, *[entry] * each)
            stream.recv(64)
        info = lambda: (redis_command(stream, b"INFO", b"persistence"), stream.recv(65_536).decode())[1]
        redis_command(stream, b"BGREWRITEAOF")
        start = time.perf_counter()
        stream.recv(256)
        while "aof_rewrite_in_progress:1" in info() or "aof_rewrite_scheduled:1" in info():
            time.sleep(0.005)
        return time.perf_counter() - start
    finally:
        server.terminate()
        server.wait()


def main():
    parser = argparse.ArgumentParser(description=__doc__, formatter_class=argparse.RawDescriptionHelpFormatter)
    parser.add_argument("--queues", type=int, default=65_536)
    parser.add_argument("--messages", type=int, default=1_000_000)
    given = parser.parse_args()
    each = -(-given.messages // given.queues)
    with tempfile.TemporaryDirectory() as folder:
        room = pathlib.Path(folder)
        users, trail = served(room, given.queues, each)
        print(f"{given.queues} queues, {given.queues * each} messages of {SIZE} bytes; the trail has {trail.stat().st_size / 2**20:.0f} MiB")
        new = room / "new"
        for task, words in (("replay", [users, trail]), ("compact", [users, new, trail]), ("same", [users, new, trail]), ("replay", [users, new])):
            seconds, mib, _ = timed(task, *words)
            tell(f"{task} {words[-1].name}", seconds, mib)
        print(f"the retelling has {new.stat().st_size / 2**20:.0f} MiB")
        try:
            print(f"Redis rewrites as many entries: {redis_rewrites(room, given.queues, each):.2f} s")
        except FileNotFoundError:
            print("Redis isn't installed")


if __name__ == "__main__":
    main()
