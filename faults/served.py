"""Servers, over loopback or at a Unix socket, and their clients, as programs that run with calls disturbed."""

import contextlib
import dataclasses
import itertools
import os
import pathlib
import shutil
import socket
import subprocess
import tempfile
import threading

from programs import SECONDS, Ended, Program

# How long a client of one thread waits where growths are refused for good: nobody is accepted then for whom there is no memory. A
# server that can't record a hang-up for a second ends before.
PATIENCE = 5

# Each run has an address of its own, so that none waits for another's port or file.
_numbers = itertools.count(1)
_room = tempfile.TemporaryDirectory(prefix="faults-")


def own_address():
    number = next(_numbers)
    return f"127.1.{number >> 8 & 255}.{number & 255}"


def free_port():
    with socket.create_server(("", 0)) as probe:
        return probe.getsockname()[1]


PORT = free_port()


class Loopback:
    """An address over TCP."""

    # How many of a client's requests the server says itself.
    said = 0

    def __init__(self):
        self.host = own_address()
        self.told = f"{self.host}:{PORT}".encode()

    def connect(self, seconds):
        return socket.create_connection((self.host, PORT), timeout=seconds)

    def is_left(self):
        return False

    def remove(self):
        pass


def connect_to(path, seconds):
    stream = socket.socket(socket.AF_UNIX)
    stream.settimeout(seconds)
    try:
        stream.connect(str(path))
    except BaseException:
        stream.close()
        raise
    return stream


class UnixSocket:
    """A socket that is a file."""

    said = 0

    def __init__(self):
        self.path = pathlib.Path(_room.name, f"{next(_numbers)}.socket")
        self.told = b"unix:%s" % os.fsencode(self.path)

    def connect(self, seconds):
        return connect_to(self.path, seconds)

    def is_left(self):
        return self.path.exists()

    def remove(self):
        """Takes away what a server left that was stopped, and what stands beside its socket."""
        for left in self.path.parent.glob(f"{self.path.name}*"):
            left.unlink()


class UsersSockets:
    """A folder with a socket for each user. Clients are ann, whose hello the server says."""

    said = 1

    def __init__(self):
        self.path = pathlib.Path(_room.name, f"{next(_numbers)}.sockets")
        self.path.mkdir()
        self.told = b"unix-users:%s" % os.fsencode(self.path)

    def connect(self, seconds):
        return connect_to(self.path / "ann", seconds)

    def is_left(self):
        return any(self.path.iterdir())

    def remove(self):
        shutil.rmtree(self.path)


def frame(body):
    return len(body).to_bytes(4, "big") + body


def u64(value):
    return value.to_bytes(8, "big")


def talk(session):
    """Requests, each with its answer: eight events, so that lists grow at the last and the hang-up."""
    return [
        (frame(b"\1\0\3ka1"), frame(b"\x41" + u64(session))),
        (frame(b"\3\0\2/a\3\1\1\xb6\0"), frame(b"\x43" + u64(0))),
        (frame(b"\6" + u64(0) + b"\0\0\0\5hi"), frame(b"\x46")),
        (frame(b"\7" + u64(0) + b"\0\0\x20\0"), frame(b"\x47\0\0\0\5hi")),
        (frame(b"\2\0\0"), frame(b"\x44\0\x12")),
        *[(frame(b"\2\0\0"), frame(b"\x44\0\0"))] * 3,
    ]


def short_talk(session):
    return [(frame(b"\1\0\3ka1"), frame(b"\x41" + u64(session))), (frame(b"\2\0\0"), frame(b"\x44\0\x12"))]


def requests_of(frames):
    return b"".join(request for request, _ in frames)


def answers_of(frames):
    return b"".join(answer for _, answer in frames)


def is_beginning(got, frames, is_cut):
    """Whether this is what the frames are answered, up to one of them; or up to any byte, where a write fails."""
    if is_cut:
        return answers_of(frames).startswith(got)
    return any(got == answers_of(frames[:count]) for count in range(len(frames) + 1))


def exchange(address, requests, seconds):
    """Sends the requests, and gives what comes until the server ends the connection, or nothing comes for so long."""
    got = b""
    with contextlib.suppress(OSError), address.connect(seconds) as connection:
        # The server may hang up before it has read all.
        with contextlib.suppress(OSError):
            connection.sendall(requests)
            connection.shutdown(socket.SHUT_WR)
        while piece := connection.recv(65_536):
            got += piece
    return got


def files_of(process):
    """How many files it has open; none where it has ended."""
    with contextlib.suppress(OSError):
        return len(os.listdir(f"/proc/{process.pid}/fd"))
    return 0


@dataclasses.dataclass
class Server(Program):
    """mqserve serve, and clients one after the other."""

    talks: tuple = (talk, short_talk)
    how: tuple = ("--workers", "1")
    kind: type = Loopback

    @property
    def is_one_thread(self):
        return "--one-thread" in self.how

    def run(self, environment, pass_fds):
        address = self.kind()
        is_patient = not self.is_one_thread or int(environment["DISTURB_TIMES"]) == 1
        command = [self.file, "serve", *self.arguments, address.told, *self.how, "--stop-after", str(len(self.talks))]
        pipes = {"stdin": subprocess.DEVNULL, "stdout": subprocess.PIPE, "stderr": subprocess.PIPE}
        with subprocess.Popen(command, pass_fds=pass_fds, env=environment, **pipes) as server:
            timer = threading.Timer(SECONDS, server.kill)
            timer.start()
            try:
                first, got, is_idle = server.stdout.readline(), [], False
                files = files_of(server)
                for one in self.talks if first else ():
                    # What the session's number is doesn't stand in a request.
                    requests = requests_of(one(0)[address.said :])
                    got.append(exchange(address, requests, SECONDS if is_patient else PATIENCE))
                    is_idle = not is_patient and not got[-1] and server.poll() is None and files_of(server) == files
                    if is_idle:
                        server.kill()
                        break
                more, err = server.communicate()
            finally:
                timer.cancel()
                server.kill()
        is_left = not server.returncode and address.is_left()
        address.remove()
        out = (first + more).replace(address.told, b"ADDRESS")
        return Ended(out, err, server.returncode, tuple(got), is_idle, is_left)

    def whole_difference(self, ended):
        wanted = tuple(answers_of(one(session)) for session, one in enumerate(self.talks))
        differs = "" if ended.got == wanted else f"clients got {ended.got!r}"
        return super().whole_difference(ended) or differs or ("its socket is left" if ended.is_left else "")

    def stopped_difference(self, ended, fault):
        """It stops by the fault; or a connection ends early, and the next is served. One thread may also accept nobody any more,
        where memory is refused for good, and go on."""
        is_cut = "write" in fault.words
        if ended.is_idle and fault.lasts:
            is_well = self.out.startswith(ended.out) and not ended.err
            return self.early_difference(ended, is_cut) if is_well else f"it printed {ended.out!r} and {ended.err!r}"
        if ended.status:
            # A line whose write fails may have been written in part.
            lines = ended.out[: ended.out.rfind(b"\n") + 1]
            return super().stopped_difference(dataclasses.replace(ended, out=lines) if is_cut else ended, fault)
        if ended.out != self.out or ended.err:
            return f"status 0, and it printed {ended.out!r} and {ended.err!r}"
        return self.early_difference(ended, is_cut)

    def early_difference(self, ended, is_cut):
        """Where a client got what is not the first of its answers, or nothing."""
        for session, (one, got) in enumerate(zip(self.talks, ended.got)):
            # A hello that was refused memory started no session, so the next has its number.
            if not any(is_beginning(got, one(number), is_cut) for number in range(session + 1)):
                return f"clients got {ended.got!r}"
        return ""


@dataclasses.dataclass
class Client(Program):
    """mqctl ADDRESS KEY beside a server that has sent all its answers before it is asked."""

    answers: bytes = b""

    def run(self, environment, pass_fds):
        with socket.create_server((own_address(), PORT)) as listener:
            host, port = listener.getsockname()
            server = threading.Thread(target=self.serve, args=(listener,))
            server.start()
            try:
                command = [self.file, f"{host}:{port}", *self.arguments]
                ended = subprocess.run(
                    command, input=self.given, capture_output=True, timeout=SECONDS, pass_fds=pass_fds, env=environment
                )
            finally:
                # A client that ended before it connected leaves nobody to accept.
                listener.shutdown(socket.SHUT_RDWR)
                server.join()
        return Ended(ended.stdout, ended.stderr, ended.returncode)

    def serve(self, listener):
        try:
            with listener.accept()[0] as connection:
                connection.sendall(self.answers)
                while connection.recv(65_536):
                    pass
        except OSError:
            pass
