#!/usr/bin/env python3
"""Runs the built server on one thread where there is little memory, or few files may be open, over TCP and at a file: what ends it, what
goes on, and that what clients make it keep stays within its bounds. Prints a line for each case and a last line with the counts; the
status is 1 where one is not as it must be.

`--programs FOLDER` takes `mqserve` and `mqctl` from there, and `--calls COMMAND` puts words in front of each."""

import contextlib
import re
import resource
import struct
import sys

sys.dont_write_bytecode = True
from calls import INTERRUPT, MQ_OPEN, MQ_RECEIVE, MQ_SEND, MQ_UNLINK, SEM_CLOSE, SEM_OPEN, UMASK, frame  # noqa: E402
from servers import (HELLO, MASK, ONE_THREAD, OPENED, RECEIVED, REFUSED, SECONDS, SENT, STARTED, HungUp, Wrong, connect, ends,  # noqa: E402
                     exactly, is_answer, is_same, is_silent, programs_given, serving, told, told_of)

LITTLE_MEMORY, FEW_CALLS = 64 << 20, 100_000
# Less memory than as many semaphores take as may have names, and more.
FULL_MEMORY, ENOUGH_MEMORY, MOST_SEMAPHORES = 32 << 20, 256 << 20, 65_536
KEPT_MESSAGES, FEW_SEMAPHORES, AT_A_TIME = 8, 10_000, 64
# More than little memory has room for, if all are kept.
MANY_CALLS, FEW_RECORDS = 2_000_000, 1_000
FEW_BYTES, MANY_SMALL, MANY_LARGE, LARGE = 1 << 20, 8_000, 2_000, 60_000
LONG_FRAMES, LONGEST, SOME_MEMORY = 16, 16_777_000, 192 << 20
MANY_CLIENTS, MANY_AHEAD, SOME_AHEAD = 1_200, 13_000, 2_000
DONE = 66


def without_memory(programs, address, *words):
    """A server that finds no memory for a hang-up ends after a second, and says why; an idle client doesn't change that."""
    with serving(programs, address, *words, memory=LITTLE_MEMORY) as server, contextlib.ExitStack() as stack:
        idle = stack.enter_context(connect(address))
        idle.sendall(frame(HELLO, b"\0\3ka1"))
        is_answer(idle, STARTED)
        calls = call_without_end(address)
        err = server.communicate(timeout=SECONDS)[1]
        is_same("faults and status", (err, server.returncode), (b"mqserve: memory\n", 5))
        if calls < FEW_CALLS:
            raise Wrong(f"{calls} calls were answered in {LITTLE_MEMORY} bytes of memory")


def keeps_the_newest(programs, address, *words):
    """A server that keeps few records answers more calls than there is room for; an audit begins at the oldest that is kept."""
    with serving(programs, address, "--stop-after", "2", *words, memory=LITTLE_MEMORY) as server:
        with connect(address) as stream:
            stream.sendall(frame(HELLO, b"\0\3ka1"))
            is_answer(stream, STARTED)
            for _ in range(0, MANY_CALLS, FEW_RECORDS):
                stream.sendall(frame(UMASK, b"\0\0") * FEW_RECORDS)
                exactly(stream, len(frame(MASK, b"\0\0")) * FEW_RECORDS)
        shown = told(programs, address, "r00t", "audit", "0", "1")
        found = re.match(rb"records 1 (\d+):0:umask:0:", shown)
        # Beside the calls two hellos and a hang-up are recorded.
        if not found or not 0 <= int(found[1]) - (MANY_CALLS - FEW_RECORDS) <= 3:
            raise Wrong(f"the audit begins at {shown!r}")
        ends(server, 2)


def keeps_few_bytes(programs, address, *words):
    """Records with large messages, or with long names, displace as many small ones as take their room."""
    for call in (frame(MQ_SEND, struct.pack(">QI", 0, 0) + bytes(LARGE)), frame(MQ_UNLINK, struct.pack(">H", LARGE) + b"/" * LARGE)):
        displaces(programs, address, call, *words)


def displaces(programs, address, call, *words):
    with serving(programs, address, "--stop-after", "2", *words, memory=LITTLE_MEMORY) as server:
        with connect(address) as stream:
            stream.sendall(frame(HELLO, b"\0\3ka1"))
            is_answer(stream, STARTED)
            for _ in range(0, MANY_SMALL, FEW_RECORDS):
                stream.sendall(frame(UMASK, b"\0\0") * FEW_RECORDS)
                exactly(stream, len(frame(MASK, b"\0\0")) * FEW_RECORDS)
            for _ in range(MANY_LARGE):
                stream.sendall(call)
                is_answer(stream, REFUSED)
        shown = told(programs, address, "r00t", "audit", "0", "1")
        found = re.match(rb"records 1 (\d+):", shown)
        if not found or int(found[1]) < MANY_SMALL:
            raise Wrong(f"the audit begins at {shown[:40]!r}")
        ends(server, 2)


def a_byte_behind(programs, address, *words):
    """A byte behind a long frame keeps no long buffer, however many clients leave one there."""
    call = frame(MQ_SEND, struct.pack(">QI", 0, 0) + bytes(LONGEST)) + b"\0"
    with serving(programs, address, "--stop-after", str(LONG_FRAMES), *words, memory=SOME_MEMORY) as server, contextlib.ExitStack() as stack:
        for _ in range(LONG_FRAMES):
            stream = stack.enter_context(connect(address))
            stream.sendall(frame(HELLO, b"\0\3ka1") + call)
            is_answer(stream, STARTED)
            is_answer(stream, REFUSED)
        stack.close()
        ends(server, LONG_FRAMES)


@contextlib.contextmanager
def files_at_once(count):
    """This process may have so many files open."""
    before = resource.getrlimit(resource.RLIMIT_NOFILE)
    resource.setrlimit(resource.RLIMIT_NOFILE, (max(count, before[0]), before[1]))
    try:
        yield
    finally:
        resource.setrlimit(resource.RLIMIT_NOFILE, before)


def many_ahead(programs, address, *words):
    """Requests that are sent ahead wait for their turn, and aren't unfinished frames, however many clients send some."""
    most = resource.getrlimit(resource.RLIMIT_NOFILE)[1]
    if 0 <= most < 2 * MANY_CLIENTS:
        raise Wrong(f"it wants {2 * MANY_CLIENTS} open files, and the limit is {most} (ulimit -Hn)")
    ahead = frame(INTERRUPT, b"") * MANY_AHEAD
    some_answers = len(frame(REFUSED, b"\0\3")) * SOME_AHEAD
    with serving(programs, address, "--stop-after", str(MANY_CLIENTS), *words, files=2 * MANY_CLIENTS) as server:
        with contextlib.ExitStack() as stack:
            stack.enter_context(files_at_once(2 * MANY_CLIENTS))
            streams = [stack.enter_context(connect(address)) for _ in range(MANY_CLIENTS)]
            for stream in streams:
                stream.sendall(frame(HELLO, b"\0\3ka1"))
                is_answer(stream, STARTED)
            for stream in streams:
                stream.sendall(ahead)
            for stream in streams:
                exactly(stream, some_answers)
        ends(server, MANY_CLIENTS)


def goes_on_when_full(programs, address, *words):
    """Who creates semaphores until there is no memory for more is hung up, and so is the next who does. What others have stays,
    and they are served. So too where there is memory, and as many semaphores have names as may."""
    for memory in (FULL_MEMORY, ENOUGH_MEMORY):
        goes_on(programs, address, memory, *words)


def goes_on(programs, address, memory, *words):
    with serving(programs, address, *words, memory=memory) as server, contextlib.ExitStack() as stack:
        keeper, waiting = [stack.enter_context(connect(address)) for _ in range(2)]
        for stream in (keeper, waiting):
            stream.sendall(frame(HELLO, b"\0\4r00t") + frame(MQ_OPEN, b"\0\5/kept\3\1\1\x80\0"))
            is_answer(stream, STARTED)
            is_answer(stream, OPENED)
        for number in range(KEPT_MESSAGES):
            keeper.sendall(frame(MQ_SEND, struct.pack(">QI", 0, 0) + b"%d" % number))
            is_answer(keeper, SENT)
        first, second = [create_without_end(address, letter) for letter in (b"a", b"b")]
        is_bound = first == MOST_SEMAPHORES and second == 0
        if not is_bound and (memory == ENOUGH_MEMORY or first < FEW_SEMAPHORES or second >= FEW_SEMAPHORES):
            raise Wrong(f"{first} and {second} semaphores were created in {memory} bytes of memory")
        for number in range(KEPT_MESSAGES):
            keeper.sendall(frame(MQ_RECEIVE, struct.pack(">QI", 0, 8192)))
            is_same("message", is_answer(keeper, RECEIVED), bytes(4) + b"%d" % number)
        waiting.sendall(frame(MQ_RECEIVE, struct.pack(">QI", 1, 8192)))
        is_silent("a receive from an empty queue", waiting)
        keeper.sendall(frame(MQ_SEND, struct.pack(">QI", 0, 7) + b"on"))
        is_answer(keeper, SENT)
        is_same("message", is_answer(waiting, RECEIVED), struct.pack(">I", 7) + b"on")
        is_same("unlinked", told(programs, address, "r00t", "sem-unlink", name_of(b"a", 0).decode()), b"done\n")
        is_same("whether it has ended", server.poll(), None)


def name_of(letter, number):
    return b"/%s%0199d" % (letter, number)


def create_without_end(address, letter):
    """Creates semaphores, and closes each, until the server hangs up. Returns how many it created."""
    created = 0
    with connect(address) as stream:
        stream.sendall(frame(HELLO, b"\0\3ka1"))
        is_answer(stream, STARTED)
        with contextlib.suppress(ConnectionError, HungUp):
            while True:
                names = [name_of(letter, number) for number in range(created, created + AT_A_TIME)]
                fields = [struct.pack(">H", len(name)) + name + b"\1\1\x80" + bytes(4) for name in names]
                stream.sendall(b"".join(frame(SEM_OPEN, field) for field in fields))
                descs = [is_answer(stream, OPENED) for _ in names]
                created += AT_A_TIME
                stream.sendall(b"".join(frame(SEM_CLOSE, desc) for desc in descs))
                for _ in descs:
                    is_answer(stream, DONE)
    return created


def call_without_end(address):
    """Makes calls until the server answers no more. Returns how many it answered."""
    many, answered = 1_000, 0
    with connect(address) as stream:
        stream.sendall(frame(HELLO, b"\0\3ka1"))
        is_answer(stream, STARTED)
        with contextlib.suppress(ConnectionError, HungUp):
            while True:
                stream.sendall(frame(UMASK, b"\0\0") * many)
                exactly(stream, len(frame(MASK, b"\0\0")) * many)
                answered += many
    return answered


# A record of a umask counts as 128 bytes.
FEW_KEPT = {
    "by number": [*ONE_THREAD, "--keep-records", str(FEW_RECORDS)],
    "by bytes": [*ONE_THREAD, "--keep-bytes", str(128 * FEW_RECORDS)],
}
CASES = {
    "no memory": (without_memory, {"one thread": ONE_THREAD}),
    "few records are kept": (keeps_the_newest, FEW_KEPT),
    "few bytes are kept": (keeps_few_bytes, {"one thread": [*ONE_THREAD, "--keep-bytes", str(FEW_BYTES)]}),
    "a byte behind a long frame": (a_byte_behind, {"one thread": [*ONE_THREAD, "--keep-bytes", str(FEW_BYTES)]}),
    "requests ahead of many": (many_ahead, {"one thread": [*ONE_THREAD, "--connections", str(2000)]}),
    "semaphores without end": (goes_on_when_full, {"one thread": [*ONE_THREAD, "--keep-records", str(FEW_RECORDS)]}),
}


def all_cases():
    """The name of each case, what it does, the place, and the words of its server."""
    for what, (case, kinds) in CASES.items():
        for kind, words in kinds.items():
            for place in ("TCP", "a file"):
                yield f"{what}, {kind}, over {place}", case, place, words


if __name__ == "__main__":
    sys.exit(told_of(programs_given(__doc__), all_cases()))
