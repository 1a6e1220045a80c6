#!/usr/bin/env python3
"""Runs the built servers, over TCP and at a file, and speaks to them by `mqctl` and by sockets. Prints a line for each case
and a last line with the counts; the status is 1 where one is not as it must be.

`--programs FOLDER` takes `mqserve` and `mqctl` from there, and `--calls COMMAND` puts words in front of each."""

import argparse
import contextlib
import fcntl
import os
import pathlib
import re
import resource
import shlex
import signal
import socket
import stat
import struct
import subprocess
import sys
import tempfile
import time

sys.dont_write_bytecode = True
from calls import MQ_OPEN, MQ_SEND, MQ_TIMED_RECEIVE, SEM_OPEN, UMASK, frame  # noqa: E402

TOP = pathlib.Path(__file__).resolve().parent.parent
USERS = TOP / "rows" / "mqserve" / "two.users"
SECONDS = 60
SECONDS_OF_AN_ANSWER = 4
MANY = 200
AT_ONCE, ROUNDS = 8, 5
MUCH, MANY_REFUSED = 300_000, 40
# 16 connections that were refused, and what a server has open besides.
FEW_FILES = 32
# As /proc/net/tcp has them.
KEEPALIVE, MINUTE = 2, 6_000

HELLO, STARTED, MASK = 1, 65, 68
OPENED, SENT, RECEIVED, REFUSED = 67, 70, 71, 76
BAD_KEY, TIMED_OUT = 31, 32
ONE_THREAD = ["--one-thread"]


class Wrong(Exception):
    """A server does other than it must."""


class HungUp(Wrong):
    """The stream ends where an answer must come."""


class Programs:
    """The command of each program."""

    def __init__(self, folder, front):
        self.front = front
        self.files = {
            name: (folder / name if folder else TOP / "crates" / name / "out" / name) for name in ("mqserve", "mqctl")
        }

    def command(self, name, words):
        return [*self.front, str(self.files[name]), *words]


def is_same(what, found, wanted):
    if found != wanted:
        raise Wrong(f"{what}: {found!r}, and not {wanted!r}")


# ---- servers and clients


@contextlib.contextmanager
def started(programs, address, *words, prepare=None, users=USERS):
    """A server, which may serve already. `prepare` is called in its process before. It is ended if it hasn't ended by itself."""
    command = programs.command("mqserve", ["serve", str(users), address, *words])
    # Without a buffer: what is read ahead here, `communicate` would lose, as the last line of a server that ends at once.
    with subprocess.Popen(command, bufsize=0, stdout=subprocess.PIPE, stderr=subprocess.PIPE, preexec_fn=prepare) as server:
        try:
            yield server
        finally:
            server.kill()


@contextlib.contextmanager
def serving(programs, address, *words, memory=None, files=None, mask=None, users=USERS):
    """A server that says that it serves, within so many bytes of memory and so many open files, and with this mask for files."""

    def prepare():
        if memory:
            resource.setrlimit(resource.RLIMIT_AS, (memory, memory))
        if files:
            resource.setrlimit(resource.RLIMIT_NOFILE, (files, files))
        if mask is not None:
            os.umask(mask)

    with started(programs, address, *words, prepare=prepare, users=users) as server:
        says_so(server, address)
        yield server


def says_so(server, address):
    """The server says that it serves."""
    is_same("the first line", server.stdout.readline(), f"serving {address}\n".encode())


def ends(server, served):
    """The server ends by itself, after so many connections."""
    out, err = server.communicate(timeout=SECONDS)
    is_same("the last line, faults and status", (out, err, server.returncode), (f"served {served}\n".encode(), b"", 0))


def fails(programs, address, *words):
    """A server that can't have the address."""
    command = programs.command("mqserve", ["serve", str(USERS), address, "--stop-after", "0", *words])
    ended = subprocess.run(command, stdout=subprocess.PIPE, stderr=subprocess.PIPE, timeout=SECONDS)
    is_same("fault and status", (ended.stderr, ended.returncode), (b"mqserve: net\n", 4))


def told(programs, address, *words):
    """What a client prints."""
    command = programs.command("mqctl", [address, *words])
    return subprocess.run(command, stdin=subprocess.DEVNULL, stdout=subprocess.PIPE, timeout=SECONDS).stdout


def free_port():
    with socket.create_server(("127.0.0.1", 0)) as probe:
        return probe.getsockname()[1]


def connect(address):
    """A connection to `HOST:PORT` or `unix:PATH`."""
    if address.startswith("unix:"):
        stream = socket.socket(socket.AF_UNIX)
        stream.settimeout(SECONDS)
        stream.connect(address[len("unix:") :])
        return stream
    host, port = address.rsplit(":", 1)
    return socket.create_connection((host, int(port)), SECONDS)


def answer(stream):
    """The next answer's opcode and fields."""
    return frame_body(stream, int.from_bytes(exactly(stream, 4), "big"))


def frame_body(stream, size):
    body = exactly(stream, size)
    return body[0], body[1:]


def exactly(stream, size):
    data = b""
    while len(data) < size:
        piece = stream.recv(size - len(data))
        if not piece:
            raise HungUp("the server hung up")
        data += piece
    return data


# ---- cases


def two_clients(programs, address, *words):
    """A client makes a queue, and another may not use its description."""
    with serving(programs, address, "--stop-after", "2", *words) as server:
        is_same("opened", told(programs, address, "ka1", "mq-open", "/jobs", "rw", "--create"), b"opened 0\n")
        is_same("refused", told(programs, address, "r00t", "mq-getattr", "0"), b"refused 8 EBADF BadDescr\n")
        ends(server, 2)


def many_at_once(programs, address, *words):
    """Many clients at once, each with a call that is answered while all others stay."""
    with serving(programs, address, "--stop-after", str(MANY), *words) as server, contextlib.ExitStack() as stack:
        streams = [stack.enter_context(connect(address)) for _ in range(MANY)]
        for stream in streams:
            stream.sendall(frame(HELLO, b"\0\3ka1"))
        sessions = {int.from_bytes(is_answer(stream, STARTED), "big") for stream in streams}
        is_same("how many sessions", len(sessions), MANY)
        for mask, stream in enumerate(streams):
            stream.sendall(frame(UMASK, struct.pack(">H", mask)) + frame(UMASK, b"\0\0"))
        for mask, stream in enumerate(streams):
            is_same("mask", is_answer(stream, MASK), b"\0\x12")
            is_same("mask", is_answer(stream, MASK), struct.pack(">H", mask))
        stack.pop_all().close()
        ends(server, MANY)


def is_answer(stream, opcode):
    """The fields of the next answer, which has this opcode."""
    found, fields = answer(stream)
    is_same("opcode", found, opcode)
    return fields


def is_silent(who, stream):
    """Nothing comes for 300 ms."""
    stream.settimeout(0.3)
    try:
        raise Wrong(f"{who} is answered {answer(stream)}")
    except socket.timeout:
        stream.settimeout(SECONDS)


def third_waits(programs, address, *words):
    """Who connects while there are as many as there may be is served once one has ended."""
    with serving(programs, address, "--stop-after", "3", *words) as server, contextlib.ExitStack() as stack:
        first, second = [stack.enter_context(connect(address)) for _ in range(2)]
        for stream in (first, second):
            stream.sendall(frame(HELLO, b"\0\3ka1"))
            is_answer(stream, STARTED)
        with connect(address) as third:
            third.sendall(frame(HELLO, b"\0\3ka1"))
            is_silent("a third", third)
            first.close()
            is_answer(third, STARTED)
        second.close()
        ends(server, 3)


def leaves(programs, address, *words):
    """What a client sent is stepped, though it left without reading an answer."""
    with serving(programs, address, "--stop-after", "2", *words) as server:
        with connect(address) as stream:
            stream.sendall(frame(HELLO, b"\0\3ka1") + frame(SEM_OPEN, b"\0\5/left\1\1\x80" + bytes(4)))
        is_same("opened", told(programs, address, "ka1", "sem-open", "/left"), b"opened 1\n")
        ends(server, 2)


def moment():
    """Milliseconds since 1970, as servers and clients have them."""
    return time.time_ns() // 1_000_000


def timed_receive(deadline):
    return frame(MQ_TIMED_RECEIVE, struct.pack(">QIQ", 0, 8192, deadline))


def timed(programs, address, *words):
    """A receive ends at its deadline, which is 200 ms away, and not before. Another, which a later deadline leaves waiting, is
    served by a send."""
    with serving(programs, address, "--stop-after", "2", *words) as server, contextlib.ExitStack() as stack:
        receiver, sender = [stack.enter_context(connect(address)) for _ in range(2)]
        for stream in (receiver, sender):
            stream.sendall(frame(HELLO, b"\0\3ka1") + frame(MQ_OPEN, b"\0\2/t\3\1\1\x80\0"))
            is_answer(stream, STARTED)
            is_answer(stream, OPENED)
        deadline = moment() + 200
        receiver.sendall(timed_receive(deadline))
        is_same("rule", is_answer(receiver, REFUSED), struct.pack(">H", TIMED_OUT))
        is_same("milliseconds too early", max(0, deadline - moment()), 0)
        receiver.sendall(timed_receive(moment() + 1000 * SECONDS))
        is_silent("a receive before its deadline", receiver)
        sender.sendall(frame(MQ_SEND, struct.pack(">QI", 1, 5) + b"hi"))
        is_answer(sender, SENT)
        is_same("message", is_answer(receiver, RECEIVED), struct.pack(">I", 5) + b"hi")
        stack.pop_all().close()
        ends(server, 2)


def in_two_parts(programs, address, *words):
    """All that came is read, though a read ends where a file was sent along, or before urgent bytes: a hello's first bytes
    came so, and its last bytes with a whole request behind them."""
    hello = frame(HELLO, b"\0\3ka1")
    with serving(programs, address, "--stop-after", "2", *words) as server, contextlib.ExitStack() as stack:
        with connect(address) as first:
            # So that the server knows of both parts of the second at once, it is stopped while these are sent.
            first.sendall(hello)
            is_answer(first, STARTED)
            server.send_signal(signal.SIGSTOP)
            stream = stack.enter_context(connect(address))
            send_apart(stream, hello[:3])
            stream.sendall(hello[3:] + frame(UMASK, b"\0\0"))
            server.send_signal(signal.SIGCONT)
            stream.settimeout(SECONDS_OF_AN_ANSWER)
            is_answer(stream, STARTED)
            is_answer(stream, MASK)
        stack.close()
        ends(server, 2)


def send_apart(stream, data):
    """Sends bytes so that a read ends behind them: with a file sent along, or with an urgent byte, which isn't read, behind
    them."""
    if stream.family == socket.AF_UNIX:
        with open(os.devnull, "rb") as file:
            rights = (socket.SOL_SOCKET, socket.SCM_RIGHTS, struct.pack("i", file.fileno()))
            stream.sendmsg([data], [rights])
    else:
        stream.sendall(data)
        stream.send(b"!", socket.MSG_OOB)


def log(programs, address, *words):
    """What is told of each connection stands at the end of the log, by both servers alike."""
    with tempfile.TemporaryDirectory() as room:
        file = pathlib.Path(room, "log")
        file.write_text("kept\n")
        with serving(programs, address, "--stop-after", "3", "--log", str(file), *words) as server:
            is_same("refused", told(programs, address, "none", "umask", "022"), b"refused 31 EACCES BadKey\n")
            is_same("not open", told(programs, address, "ka1", "mq-getattr", "0"), b"refused 8 EBADF BadDescr\n")
            with connect(address) as stream:
                stream.sendall(frame(HELLO, b"\0\3ka1") + frame(UMASK, b"\0\0") * 2 + bytes(4))
                while stream.recv(MUCH):
                    pass
            ends(server, 3)
        lines = re.sub(r"time=\d{13} ", "", file.read_text())
    peer = "" if address.startswith("unix:") else " peer=127.0.0.1:PORT"
    wanted = ["kept", *(f"event=begun connection={number}{peer}" for number in range(3))]
    wanted += [f"event=hello connection={number} user=1000" for number in (1, 2)]
    wanted.append("event=ended connection=0 requests=1 ending=BadKey rule=31")
    wanted.append("event=ended connection=1 requests=2 ending=Closed")
    wanted.append("event=ended connection=2 requests=3 ending=Wire fault=Empty")
    found = re.sub(r"127\.0\.0\.1:\d+", "127.0.0.1:PORT", lines).splitlines()
    # Of workers the next connection may begin before the last is said to have ended.
    is_same("the log", sorted(found), sorted(wanted))


def log_in_a_fifo(programs, address, *words):
    """A log that nobody reads yet holds the start up, and nobody can connect before."""
    with tempfile.TemporaryDirectory() as room:
        file = os.path.join(room, "log")
        os.mkfifo(file)
        with started(programs, address, "--stop-after", "1", "--log", file, *words) as server:
            is_nobody_there(address)
            with open(file) as lines:
                says_so(server, address)
                connect(address).close()
                ends(server, 1)
                is_same("lines", len(lines.readlines()), 2)


def is_nobody_there(address):
    """Nobody listens at the address for a second."""
    late = time.monotonic() + 1
    while time.monotonic() < late:
        with contextlib.suppress(ConnectionRefusedError, FileNotFoundError):
            connect(address).close()
            raise Wrong("somebody listens")
        time.sleep(0.05)


def much_behind(programs, address, *words):
    """Who sends much behind a bad key reads the refusal, and then the end of the stream. Where it doesn't end its own, the
    server does so after a second."""
    with serving(programs, address, "--stop-after", "2", *words) as server:
        for size in (MUCH, 0):
            with connect(address) as stream:
                stream.sendall(frame(HELLO, b"\0\4none") + bytes(size))
                is_same("rule", is_answer(stream, REFUSED), struct.pack(">H", BAD_KEY))
                is_same("the end", stream.recv(1), b"")
                if size == 0:
                    asked = time.monotonic()
                    ends(server, 2)
                    is_same("too late", time.monotonic() - asked > SECONDS_OF_AN_ANSWER, False)


def refused_who_stay(programs, address, *words):
    """Many who are refused and stay read the refusal and the end of the stream at once, few of them are open files of the server, and others
    are served."""
    with serving(programs, address, "--stop-after", str(MANY_REFUSED + 1), *words) as server, contextlib.ExitStack() as stack:
        streams = [stack.enter_context(connect(address)) for _ in range(MANY_REFUSED)]
        for stream in streams:
            stream.sendall(frame(HELLO, b"\0\4none"))
        for stream in streams:
            is_same("rule", is_answer(stream, REFUSED), struct.pack(">H", BAD_KEY))
            is_same("the end", stream.recv(1), b"")
        files = len(os.listdir(f"/proc/{server.pid}/fd"))
        is_same(f"{files} open files are few", files < FEW_FILES, True)
        is_same("refused", told(programs, address, "ka1", "mq-getattr", "0"), b"refused 8 EBADF BadDescr\n")
        ends(server, MANY_REFUSED + 1)


def probed(programs, address, *words):
    """The system probes a client that is silent for a minute."""
    with serving(programs, address, "--stop-after", "1", *words) as server:
        with connect(address) as stream:
            kind, ticks = timer_of(server_end=stream.getpeername(), client_end=stream.getsockname())
            is_same("timer", (kind, ticks <= MINUTE), (KEEPALIVE, True))
        ends(server, 1)


def timer_of(server_end, client_end):
    """The kind of the timer of the server's end of a connection, and after how many hundredths of a second it goes off."""
    for line in pathlib.Path("/proc/net/tcp").read_text().splitlines()[1:]:
        _, local, remote, _, _, timer, *_ = line.split()
        if [int(end.split(":")[1], 16) for end in (local, remote)] == [server_end[1], client_end[1]]:
            kind, ticks = timer.split(":")
            return int(kind, 16), int(ticks, 16)
    raise Wrong("the connection has no line in /proc/net/tcp")


# With words it puts each into a queue as a letter; without it is a worker, which posts the letters that it gets.
LETTERS = """
import mqserve, sys

queue = mqserve.MessageQueue("/mail", mqserve.O_CREAT)
for letter in sys.argv[1:]:
    queue.send(letter)
while not sys.argv[1:]:
    letter, priority = queue.receive()
    print("posted", letter.decode(), flush=True)
"""


def letters(programs, address, *words):
    """A program in Python: each letter goes to one of three workers."""
    env = {**os.environ, "MQSERVE": address, "MQSERVE_KEY": "ka1", "PYTHONPATH": str(TOP / "clients" / "python")}
    env.pop("PYTHONUNBUFFERED", None)  # it would part lines
    command, sent = [sys.executable, "-B", "-c", LETTERS], [f"letter-{number}" for number in range(30)]
    reading, writing = os.pipe()
    with serving(programs, address, *words), open(reading) as told:
        workers = [subprocess.Popen(command, env=env, stdout=writing) for _ in range(3)]
        os.close(writing)
        try:
            subprocess.run([*command, *sent], env=env, check=True, timeout=SECONDS)
            is_same("letters posted", sorted(told.readline() for _ in sent), sorted(f"posted {letter}\n" for letter in sent))
        finally:
            for worker in workers:
                worker.kill()
                worker.wait()


def mode_of(path):
    return stat.S_IMODE(os.stat(path).st_mode)


def path_of(address):
    return address[len("unix:") :]


def files_beside(address):
    """The names in the folder of the socket's file."""
    return sorted(os.listdir(os.path.dirname(path_of(address))))


def mode_and_end(programs, address, *words):
    """The file's mode is 0600 or what is asked for, whatever the process's mask, and nothing is left once the server ended."""
    for mask in (0o022, 0o077, 0):
        for options, mode in (((), 0o600), (("--socket-mode", "0666"), 0o666), (("--socket-mode", "0060"), 0o060)):
            with serving(programs, address, "--stop-after", "1", *options, *words, mask=mask) as server:
                is_same("mode", mode_of(path_of(address)), mode)
                is_same("mode of the lock", mode_of(path_of(address) + ".lock"), 0o600)
                connect(address).close()
                ends(server, 1)
            is_same("files", files_beside(address), [])


def left_over(programs, address, *words):
    """A socket that nobody listens at is replaced: one of another program, and one of a server that was killed, with its lock."""
    leave_behind(address)
    two_clients(programs, address, *words)
    with serving(programs, address, *words):
        pass
    is_same("files of a server that was killed", files_beside(address), ["socket", "socket.lock"])
    two_clients(programs, address, *words)
    is_same("files", files_beside(address), [])


def leave_behind(address):
    """Leaves a socket that nobody listens at."""
    with socket.socket(socket.AF_UNIX) as gone:
        gone.bind(path_of(address))


def taken(programs, address, *words):
    """A server's socket stays, whoever else is to start there, and it isn't told of them: its one connection is a client's."""
    with tempfile.TemporaryDirectory() as room:
        file = pathlib.Path(room, "log")
        with serving(programs, address, "--stop-after", "1", "--log", str(file), *words) as server:
            for others in ([], ONE_THREAD):
                fails(programs, address, *others)
            is_same("lines before a client", file.read_text(), "")
            is_same("refused", told(programs, address, "ka1", "mq-getattr", "0"), b"refused 8 EBADF BadDescr\n")
            ends(server, 1)


def taken_by_another(programs, address, *words):
    """A socket that another program listens at stays, also where the process that has the lock is no server."""
    with socket.socket(socket.AF_UNIX) as other:
        other.bind(path_of(address))
        other.listen()
        fails(programs, address, *words)
        connect(address).close()
    is_same("files", files_beside(address), ["socket"])


def no_lock(programs, address, *words):
    """Without its lock a server doesn't start, and waits for nothing: where somebody has it, and where it is no plain file."""
    lock = pathlib.Path(path_of(address) + ".lock")
    with lock.open("w") as file:
        fcntl.flock(file, fcntl.LOCK_EX)
        fails(programs, address, *words)
    lock.unlink()
    os.mkfifo(lock)
    fails(programs, address, *words)
    lock.unlink()
    lock.symlink_to(USERS)
    fails(programs, address, *words)
    is_same("files", files_beside(address), [lock.name])


def exchanged(programs, address, *words):
    """A socket that was put in the place of the server's own stays when the server ends, and so does its lock."""
    path = path_of(address)
    with serving(programs, address, "--stop-after", "1", *words) as server, socket.socket(socket.AF_UNIX) as other:
        with connect(address):
            for file in (path, path + ".lock"):
                os.unlink(file)
            pathlib.Path(path + ".lock").touch()
            other.bind(path)
            other.listen()
        ends(server, 1)
        connect(address).close()
    is_same("files", files_beside(address), ["socket", "socket.lock"])


def at_once(programs, address, *words):
    """Of servers that start at once over a socket that was left over one serves, and clients reach it."""
    for _ in range(ROUNDS):
        leave_behind(address)
        with contextlib.ExitStack() as stack:
            begin = lambda: stack.enter_context(started(programs, address, "--stop-after", "1", *words))
            servers = [begin() for _ in range(AT_ONCE)]
            server = one_left(servers)
            says_so(server, address)
            is_same("refused", told(programs, address, "ka1", "mq-getattr", "0"), b"refused 8 EBADF BadDescr\n")
            ends(server, 1)
        is_same("files", files_beside(address), [])


def one_left(servers):
    """The one that hasn't ended once all others have."""
    late = time.monotonic() + SECONDS
    while True:
        left = [server for server in servers if server.poll() is None]
        if len(left) == 1 or time.monotonic() > late:
            is_same("how many serve", len(left), 1)
            faults = {(server.stderr.read(), server.returncode) for server in servers if server not in left}
            is_same("faults and status of the others", faults, {(b"mqserve: net\n", 4)})
            return left[0]
        time.sleep(0.01)


def no_socket(programs, address, *words):
    """A file that is no socket stays, and a link to one."""
    path = pathlib.Path(path_of(address))
    path.write_text("kept")
    fails(programs, address, *words)
    link = path.with_suffix(".link")
    link.symlink_to(path)
    fails(programs, f"unix:{link}", *words)
    is_same("the file", path.read_text(), "kept")


KINDS = {"workers": [], "one thread": ONE_THREAD}
ONE_AT_A_TIME = {"workers": ["--workers", "1"], "one thread": [*ONE_THREAD, "--connections", "1"]}
ANYWHERE = {
    "two clients": (two_clients, KINDS),
    f"{MANY} clients at once": (many_at_once, {"one thread": ONE_THREAD}),
    "a third client waits": (third_waits, {"workers": ["--workers", "2"], "one thread": [*ONE_THREAD, "--connections", "2"]}),
    "a client that leaves at once": (leaves, ONE_AT_A_TIME),
    "a receive until a moment": (timed, KINDS),
    "a stream in two parts": (in_two_parts, {"workers": ["--workers", "2"], "one thread": ONE_THREAD}),
    "a log at the end of a file": (log, KINDS),
    "a log in a FIFO": (log_in_a_fifo, KINDS),
    "much behind a bad key": (much_behind, {"one thread": ONE_THREAD}),
    "refused clients that stay": (refused_who_stay, {"one thread": ONE_THREAD}),
    "workers in Python": (letters, {"one thread": ONE_THREAD}),
}
OVER_TCP = {
    "a client that is silent": (probed, KINDS),
}
AT_A_FILE = {
    "the file's mode and its end": (mode_and_end, KINDS),
    "a socket that is left over": (left_over, KINDS),
    "a socket that is in use": (taken, KINDS),
    "a socket of another program": (taken_by_another, KINDS),
    "a lock that can't be had": (no_lock, KINDS),
    "a socket that is exchanged": (exchanged, KINDS),
    "servers that start at once": (at_once, KINDS),
    "a file that is no socket": (no_socket, KINDS),
}


def all_cases():
    """The name of each case, what it does, the place, and the words of its server."""
    for what, (case, kinds) in ANYWHERE.items():
        for kind, words in kinds.items():
            for place in ("TCP", "a file"):
                yield f"{what}, {kind}, over {place}", case, place, words
    for place, cases in (("TCP", OVER_TCP), ("a file", AT_A_FILE)):
        for what, (case, kinds) in cases.items():
            for kind, words in kinds.items():
                yield f"{what}, {kind}", case, place, words


def judged(programs, case, place, words):
    """Returns what is other than it must be, or nothing."""
    with tempfile.TemporaryDirectory() as room:
        address = f"unix:{room}/socket" if place == "a file" else f"127.0.0.1:{free_port()}"
        try:
            case(programs, address, *words)
        except (Wrong, OSError, subprocess.TimeoutExpired) as fault:
            return f"{type(fault).__name__}: {fault}"
    return ""


def programs_given(about):
    """The programs that the arguments name."""
    parser = argparse.ArgumentParser(description=about)
    parser.add_argument("--programs", type=pathlib.Path, help="where mqserve and mqctl are")
    parser.add_argument("--calls", default="", help="words in front of each command")
    given = parser.parse_args()
    return Programs(given.programs and given.programs.resolve(), shlex.split(given.calls))


def told_of(programs, cases):
    """Prints what comes of each case, and the counts. The status."""
    counts = [0, 0]
    for name, case, place, words in cases:
        difference = judged(programs, case, place, words)
        counts[bool(difference)] += 1
        print(f"server: {name}: {difference or 'as it must be'}", flush=True)
    print(f"{counts[0]} as they must be, {counts[1]} not")
    return 1 if counts[1] else 0


if __name__ == "__main__":
    sys.exit(told_of(programs_given(__doc__), all_cases()))
