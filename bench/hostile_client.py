"""What hostile.py sends: frames, clients, the pair that passes messages, and malformed streams.

How a stream must be read is written anew here from docs/ref/protocol.md, and not taken from the server.
"""

import collections
import contextlib
import multiprocessing
import random
import select
import socket
import statistics
import struct
import time
from typing import NamedTuple

HOST = "127.0.0.1"

# Who waits longer for an answer, or for a hang-up, wasn't served.
SECONDS = 20

FORK = multiprocessing.get_context("fork")

# The hostile user's key.
EVE = b"hostile"

HELLO, UMASK, MQ_OPEN, MQ_SEND, MQ_RECEIVE, MQ_GETATTR = 1, 2, 3, 6, 7, 8
SEM_OPEN, SEM_POST, SEM_WAIT, LIST_NAMES, INTERRUPT = 11, 14, 15, 18, 23
MQ_TIMED_RECEIVE, MQ_GIVE = 27, 30
STARTED, DONE, OPENED, MASK, ATTRS, SENT, RECEIVED = range(65, 72)
VALUE, NAMES, STAT, RECORDS, REFUSED, INTERRUPTED = range(72, 78)
TAKEN = 79

READ, BOTH = 1, 3
CREATE, NONBLOCK = 1, 4
DESCR_LIMIT, BAD_KEY, TIMED_OUT, NO_TAKER = (struct.pack(">H", rule) for rule in (24, 31, 32, 33))

# A frame's body.
LONGEST = 16_777_300


class Wrong(Exception):
    """The server does other than it must."""


# ---- frames


def frame(opcode, fields=b""):
    return struct.pack(">IB", 1 + len(fields), opcode) + fields


def text(name):
    return struct.pack(">H", len(name)) + name


def hello(key=EVE):
    return frame(HELLO, text(key))


def umask(mask=0):
    return frame(UMASK, struct.pack(">H", mask))


def opening(name, access=BOTH, flags=CREATE):
    return frame(MQ_OPEN, text(name) + struct.pack(">BBHB", access, flags, 0o666, 0))


def opening_semaphore(name):
    return frame(SEM_OPEN, text(name) + struct.pack(">BHI", CREATE, 0o666, 0))


def sending(queue, message):
    return frame(MQ_SEND, queue + bytes(4) + message)


def receiving(queue):
    return frame(MQ_RECEIVE, queue + struct.pack(">I", 8_192))


def receiving_until(queue, deadline):
    """A receive that waits until the moment, in milliseconds since 1970."""
    return frame(MQ_TIMED_RECEIVE, queue + struct.pack(">IQ", 8_192, deadline))


def giving(queue, taker):
    return frame(MQ_GIVE, queue + taker)


def listing(count):
    """A page of the first names of semaphores."""
    return frame(LIST_NAMES, struct.pack(">BIH", 2, 0, count))


def received(message):
    """The answer, as it is read."""
    return (RECEIVED, bytes(4) + message)


def frames_of(data):
    """The whole frames in front, each as its opcode and its fields, and the bytes behind them."""
    frames, at = [], 0
    while len(data) - at >= 4:
        end = at + 4 + int.from_bytes(data[at : at + 4], "big")
        if len(data) < end:
            break
        frames.append((data[at + 4], data[at + 5 : end]))
        at = end
    return frames, data[at:]


# ---- clients


class Client:
    """A connection, and with a key a session. It reads only when it is asked for an answer."""

    def __init__(self, port, key=None, room=None):
        self.stream = socket.socket()
        self.come, self.kept = collections.deque(), b""
        self.stream.settimeout(SECONDS)
        if room:
            self.stream.setsockopt(socket.SOL_SOCKET, socket.SO_RCVBUF, room)
        try:
            self.stream.connect((HOST, port))
            self.stream.setsockopt(socket.IPPROTO_TCP, socket.TCP_NODELAY, 1)
            if key is not None:
                self.call(hello(key), STARTED)
        except BaseException:
            self.stream.close()
            raise

    def __enter__(self):
        return self

    def __exit__(self, *_):
        self.stream.close()

    def send(self, data):
        self.stream.sendall(data)

    def answer(self):
        """The next answer, as its opcode and its fields."""
        while not self.come:
            piece = self.stream.recv(65_536)
            if not piece:
                raise Wrong("the server hung up on a client that it must answer")
            frames, self.kept = frames_of(self.kept + piece)
            self.come.extend(frames)
        return self.come.popleft()

    def answers(self, count):
        return [self.answer() for _ in range(count)]

    def call(self, request, opcode):
        """The fields of the answer, which must have the opcode."""
        self.send(request)
        found, fields = self.answer()
        if found != opcode:
            raise Wrong(f"answer {found} {fields.hex()}, and not {opcode}")
        return fields

    def break_off(self):
        """The server gets a reset."""
        self.stream.setsockopt(socket.SOL_SOCKET, socket.SO_LINGER, struct.pack("ii", 1, 0))
        self.stream.close()


def fresh(port):
    """A client that comes, is answered and leaves."""
    with Client(port, EVE) as client:
        client.call(umask(), MASK)


def all_free(port, count):
    """How many seconds it takes until so many workers serve fresh clients at once."""
    start = time.monotonic()
    with contextlib.ExitStack() as stack:
        clients = [stack.enter_context(Client(port)) for _ in range(count)]
        for client in clients:
            client.send(hello())
        for client in clients:
            client.answer()
    return time.monotonic() - start


def connect_all(port, count, stack):
    """So many connections that say nothing; none is waited for."""
    streams = [stack.enter_context(socket.socket()) for _ in range(count)]
    for stream in streams:
        stream.setblocking(False)
        stream.connect_ex((HOST, port))
    return streams


def connected(streams):
    """How many of them the kernel has connected."""
    poll = select.poll()
    for stream in streams:
        poll.register(stream, select.POLLOUT)
    return sum(event == select.POLLOUT for _, event in poll.poll(0))


def push(stream, data, seconds=0.5):
    """Sends until nothing was taken for so long. How many bytes were taken."""
    at = 0
    stream.setblocking(False)
    while at < len(data) and select.select([], [stream], [], seconds)[1]:
        at += stream.send(data[at : at + 65_536])
    stream.settimeout(SECONDS)
    return at


def hung_up(port, stream, is_ended):
    """All that the server answers to the stream until it hangs up."""
    come = []
    with Client(port) as client:
        try:
            # The server may hang up before it has read all, and what it answered can be read all the same.
            with contextlib.suppress(ConnectionError):
                client.send(stream)
                if is_ended:
                    client.stream.shutdown(socket.SHUT_WR)
            with contextlib.suppress(ConnectionError):
                while piece := client.stream.recv(65_536):
                    come.append(piece)
        except socket.timeout:
            raise Wrong(f"not hung up: {stream.hex()[:400]}") from None
        client.break_off()
    return b"".join(come)


# ---- the pair

ANN, BOB = b"pairsender", b"pairreceiver"
USERS = "ann:pairsender:1000:1000::\nbob:pairreceiver:1001:1001::\neve:hostile:1002:1002::\n"

# It rests so long after each round, since the trail keeps all its messages.
REST = 0.002


class Passed(NamedTuple):
    """What the pair passed, and the seconds of a round: up to 8 messages are sent, answered and received."""

    messages: int
    median: float
    longest: float


class Pair:
    def __init__(self, port):
        self.sender, self.receiver = Client(port, ANN), Client(port, BOB)
        self.sender.call(umask(), MASK)
        self.to = self.sender.call(opening(b"/pair"), OPENED)
        self.of = self.receiver.call(opening(b"/pair", READ, 0), OPENED)
        self.number, self.rounds = 0, 0

    def pass_round(self):
        """Each second round begins with a receive that parks."""
        count, first = random.randint(1, 8), self.rounds % 2
        messages = [struct.pack(">Q56x", self.number + one) for one in range(count)]
        self.receiver.send(receiving(self.of) * first)
        self.sender.send(b"".join(sending(self.to, message) for message in messages))
        sent = self.sender.answers(count)
        self.receiver.send(receiving(self.of) * (count - first))
        arrived = self.receiver.answers(count)
        if sent != [(SENT, b"")] * count or arrived != [received(message) for message in messages]:
            raise Wrong(f"messages {self.number} to {self.number + count - 1} were answered {sent} and {arrived}")
        self.number += count
        self.rounds += 1

    def pass_until(self, is_over):
        times, before = [], self.number
        while not times or not is_over():
            start = time.monotonic()
            self.pass_round()
            times.append(time.monotonic() - start)
            time.sleep(REST)
        return Passed(self.number - before, statistics.median(times), max(times))

    def end(self):
        """Nothing may be left."""
        left = struct.unpack(">BIII", self.sender.call(frame(MQ_GETATTR, self.to), ATTRS))[3]
        if left:
            raise Wrong(f"{left} messages are left")


# ---- helpers: processes beside this one


class Helper:
    """A function in a process of its own. What it sends is told here."""

    def __init__(self, work, *arguments):
        self.pipe, theirs = FORK.Pipe()
        self.process = FORK.Process(target=help_by, args=(work, theirs, arguments), daemon=True)
        self.process.start()
        theirs.close()

    def __enter__(self):
        return self

    def __exit__(self, *_):
        self.process.kill()
        self.process.join()

    def told(self):
        """What it sends next."""
        try:
            said = self.pipe.recv()
        except EOFError:
            raise Wrong("a helper ended") from None
        if isinstance(said, Wrong):
            raise said
        return said


def help_by(work, pipe, arguments):
    try:
        work(pipe, *arguments)
    except (Wrong, OSError) as fault:
        pipe.send(Wrong(f"{work.__name__}: {type(fault).__name__}: {fault}"))


def pass_messages(pipe, port):
    """Passes messages from a word 'pass' to the next word, and ends at any other."""
    pair = Pair(port)
    pipe.send("ready")
    while pipe.recv() == "pass":
        passed = pair.pass_until(pipe.poll)
        pipe.recv()
        pipe.send(passed)
    pair.end()
    pipe.send("ended")


@contextlib.contextmanager
def pair_at(port):
    with Helper(pass_messages, port) as pair:
        pair.told()
        yield pair
        pair.pipe.send("end")
        pair.told()


# ---- how a stream must be read

FIELDS = {
    1: "text",
    2: "u16",
    3: "text access flags u16 opt-attributes",
    4: "u64",
    5: "text",
    6: "u64 u32 rest",
    7: "u64 u32",
    8: "u64",
    9: "u64 bool",
    10: "u64 bool",
    11: "text semaphore-flags u16 u32",
    12: "u64",
    13: "text",
    14: "u64",
    15: "u64",
    16: "u64",
    17: "u64",
    18: "family u32 u16",
    19: "family opt-text",
    20: "u16 family opt-text",
    21: "opt-u32 opt-u32 family opt-text",
    22: "u32 u64",
    23: "",
    24: "u64 u16",
    26: "u64 u32 u64 rest",
    27: "u64 u32 u64",
    28: "u64 u64",
    30: "u64 u64",
}
SIZES = {"u16": 2, "u32": 4, "u64": 8, "attributes": 8}
ALLOWED = {"access": (1, 2, 3), "flags": range(8), "semaphore-flags": range(4), "bool": (0, 1), "family": (1, 2)}

# The answer to each request that is accepted and doesn't block; DONE to the others.
ANSWERS = {
    1: STARTED,
    2: MASK,
    3: OPENED,
    6: SENT,
    7: RECEIVED,
    8: ATTRS,
    9: ATTRS,
    11: OPENED,
    17: VALUE,
    18: NAMES,
    19: STAT,
    24: RECORDS,
    26: SENT,
    27: RECEIVED,
}

UNKNOWN_KEY, NO_FAULT = "none, but an unknown key", "none; the client ends it"


def end_of(field, body, at):
    """Where the field that begins there ends; None where it is at fault."""
    if field == "rest":
        return len(body)
    if field in ALLOWED:
        return at + 1 if at < len(body) and body[at] in ALLOWED[field] else None
    if field.startswith("opt-"):
        if body[at : at + 1] == b"\1":
            return end_of(field[4:], body, at + 1)
        return at + 1 if body[at : at + 1] == b"\0" else None
    if field == "text":
        end = at + 2 + int.from_bytes(body[at : at + 2], "big")
    else:
        end = at + SIZES[field]
    return end if end <= len(body) else None


def fault_of(body, is_first):
    if body[0] not in FIELDS or (body[0] == HELLO) != is_first:
        return "BadOpcode"
    at = 1
    for field in FIELDS[body[0]].split():
        at = end_of(field, body, at)
        if at is None:
            return "BadField"
    return "Trailing" if at < len(body) else None


def expected(stream):
    """The opcodes of the requests that must be answered, and why the connection must be hung up."""
    opcodes, at = [], 0
    while len(stream) - at >= 4:
        length = int.from_bytes(stream[at : at + 4], "big")
        if length == 0 or length > LONGEST:
            return opcodes, "TooLong" if length else "Empty"
        body = stream[at + 4 : at + 4 + length]
        if len(body) < length:
            break
        fault = fault_of(body, not opcodes)
        if fault:
            return opcodes, fault
        if body[0] == HELLO and body != hello()[4:]:
            return [HELLO], UNKNOWN_KEY
        opcodes.append(body[0])
        at += 4 + length
    return opcodes, NO_FAULT


def are_answers(frames, opcodes, fault):
    """Whether each request has one answer, in order, that may be its own."""
    if fault == UNKNOWN_KEY:
        return frames == [(REFUSED, BAD_KEY)]
    fits = [answer in (REFUSED, ANSWERS.get(asked, DONE)) for (answer, _), asked in zip(frames, opcodes)]
    return len(frames) == len(opcodes) and all(fits)


# ---- malformed streams

# Fields of each opcode that are right. Nobody has the descriptions, so no call parks.
NOBODYS = b"\xff" * 8
RIGHT = {
    1: text(EVE),
    2: b"\0\x12",
    3: text(b"/x") + b"\3\0\1\x80\1" + struct.pack(">II", 5, 64),
    6: NOBODYS + bytes(4) + b"message",
    7: NOBODYS + bytes(4),
    9: NOBODYS + b"\1",
    10: NOBODYS + b"\0",
    11: text(b"/s") + b"\0\1\x80" + bytes(4),
    18: b"\1" + bytes(4) + b"\0\5",
    19: b"\1\1" + text(b"/x"),
    20: b"\1\xa4\2\1" + text(b"/s"),
    21: b"\1" + bytes(4) + b"\0\1\1" + text(b"/x"),
    22: bytes(12),
    23: b"",
    24: bytes(10),
    26: NOBODYS + bytes(12) + b"message",
    27: NOBODYS + bytes(12),
    28: NOBODYS + bytes(8),
    30: NOBODYS * 2,
    **dict.fromkeys((5, 13), text(b"/x")),
    **dict.fromkeys((4, 8, 12, 14, 15, 16, 17), NOBODYS),
}
CALLS = [(opcode, fields) for opcode, fields in RIGHT.items() if opcode != HELLO]


def systematic():
    """Each fault wherever it can stand, right streams cut off anywhere, and unknown keys."""
    begins = (b"", hello(), hello() + umask())
    for length in (0, LONGEST + 1, 2**31 - 1, 2**31, 2**32 - 1):
        yield from (begin + struct.pack(">I", length) for begin in begins)
    for opcode in range(256):
        yield from (begin + frame(opcode, RIGHT.get(opcode, b"")) for begin in begins)
    for opcode, fields in RIGHT.items():
        begin = b"" if opcode == HELLO else hello()
        for at in range(len(fields)):
            yield begin + frame(opcode, fields[:at])
            for value in (0, 2, 4, 8, 255):
                yield begin + frame(opcode, fields[:at] + bytes((value,)) + fields[at + 1 :])
        yield from (begin + frame(opcode, fields + bytes(more)) for more in (1, 2, 100))
        stream = begin + frame(opcode, fields)
        yield from (stream[:at] for at in range(len(stream)))
    for key in (b"", EVE[:-1], EVE + b"\0", EVE.upper(), b"x" * 65_535):
        yield hello(key) + umask() * 3


def noise(dice, size):
    return dice.getrandbits(8 * size).to_bytes(size, "big")


def faulty(dice):
    """A frame that has, mostly, one of the five faults."""
    opcode, fields = dice.choice(CALLS)
    frames = (
        bytes(4),
        struct.pack(">I", dice.randint(LONGEST + 1, 2**32 - 1)),
        frame(dice.randrange(256), fields),
        frame(opcode, fields[: dice.randrange(len(fields) + 1)]),
        frame(opcode, fields + noise(dice, 3)),
    )
    return dice.choice(frames)


def chance(dice):
    """A stream of some requests in which, anywhere, one thing is wrong."""
    requests = [hello()] + [frame(*dice.choice(CALLS)) for _ in range(dice.randrange(6))]
    stream = bytearray(b"".join(requests))
    kind, at = dice.randrange(10), dice.randrange(len(stream))
    if kind == 0:
        return dice.choice((b"", hello())) + noise(dice, dice.randint(1, 300))
    if kind == 1:
        return hello(noise(dice, dice.randint(1, 70))) + bytes(stream)
    if kind == 2:
        return bytes(stream[:at])
    if kind == 3:
        stream[at] ^= dice.randint(1, 255)
    elif kind == 4:
        del stream[at]
    else:
        requests.insert(dice.randint(0, len(requests)), faulty(dice))
        return b"".join(requests)
    return bytes(stream)


def malformed_streams(dice, count):
    """The systematic ones, or so many of them that they are half, and others by chance."""
    streams = list(systematic())
    streams = dice.sample(streams, min(len(streams), count // 2))
    streams += [chance(dice) for _ in range(count - len(streams))]
    dice.shuffle(streams)
    return streams
