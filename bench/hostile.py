#!/usr/bin/env python3
"""Sets clients on mqserve that lie, stall, flood, break off or never read, over loopback.

Beside them a pair of clients passes numbered messages, each of which must arrive, once and in order. Prints figures of
each part, and at the end tables in Markdown. The status is 1 where anything was lost or wrong; other parts still run.
"""

import argparse
import collections
import contextlib
import os
import platform
import random
import resource
import select
import signal
import struct
import subprocess
import sys
import tempfile
import time
from pathlib import Path

from hostile_client import (
    BOTH,
    CREATE,
    DONE,
    EVE,
    LONGEST,
    MASK,
    MQ_GETATTR,
    MQ_SEND,
    NAMES,
    NONBLOCK,
    NO_FAULT,
    OPENED,
    RECEIVED,
    REFUSED,
    SECONDS,
    SEM_POST,
    SEM_WAIT,
    SENT,
    UNKNOWN_KEY,
    Client,
    Helper,
    Wrong,
    all_free,
    are_answers,
    connect_all,
    connected,
    expected,
    frame,
    frames_of,
    fresh,
    hello,
    hung_up,
    listing,
    malformed_streams,
    opening,
    opening_semaphore,
    pair_at,
    push,
    received,
    receiving,
    sending,
    umask,
)

from hostile_one_thread import ONE_THREAD_PARTS
from hostile_parts import flood_of_gives, gives_to_the_ended, timed_calls
from hostile_server import (
    FREE,
    MOST_UNFINISHED,
    SPARE,
    WORKERS,
    Row,
    Setup,
    measured,
    serve_to_the_end,
    serving,
    wait_until,
)

PROGRAM = Path(__file__).resolve().parent.parent / "crates" / "mqserve" / "out" / "mqserve"

# Of the whole run, and of the malformed streams.
MOST_SECONDS, MOST_STREAMING = 290, 120

LITTLE_ROOM = 4_096  # the room in the kernel that a client asks for which reads nothing


# ---- silence

# What silent clients have said: nothing, a part of a hello, a hello, and a part of a frame behind it.
SAID = (b"", hello()[:5], hello(), hello() + sending(bytes(8), bytes(64))[:20])


def silent_client(port, number, stack):
    client = stack.enter_context(Client(port))
    client.send(SAID[number % len(SAID)])
    return client


def silence(setup):
    """Connections that say nothing more: as many as workers but two, and then many more."""
    many = setup.count(1_000)
    with serving(setup, 2 + FREE + 1 + many + FREE + SPARE) as server:
        with pair_at(server.port) as pair, contextlib.ExitStack() as stack:
            yield measured(server, pair, "none", setup.pause)
            before = server.memory()
            few = [silent_client(server.port, number, stack) for number in range(FREE)]
            time.sleep(0.2)
            cost = server.cost(before)
            clients = f"{FREE} silent, as many as workers but two"
            yield measured(server, pair, clients, lambda: setup.pause() or cost)
            before, waiting = server.memory(), silent_client(server.port, 2, stack)
            streams = connect_all(server.port, many, stack)
            time.sleep(0.2)
            served = "all served" if setup.is_one_thread else "none served"
            cost = f"{connected(streams) + 1:,} connected by the kernel, {served}; {server.cost(before)}"
            yield measured(server, pair, f"{many + 1:,} more", lambda: setup.pause() or cost)
            if bool(select.select([waiting.stream], [], [], 0)[0]) != setup.is_one_thread:
                raise Wrong("more connections than workers were served, or on one thread not all")
            yield Row("then all leave", let_go(server, few, waiting, streams))
        serve_to_the_end(server, "silence")


def let_go(server, few, waiting, streams):
    """Those that have workers leave, and then all."""
    start = time.monotonic()
    for client in few:
        client.stream.close()
    waiting.answer()
    seconds = time.monotonic() - start
    for stream in (waiting.stream, *streams):
        stream.close()
    fresh_ones = all_free(server.port, FREE)
    return f"the next was answered in {seconds:.3f} s, and then {FREE} fresh ones at once in {fresh_ones:.3f} s"


def comes_back(after, unit):
    """What is taken in the last turns was there since the second. `after` is in MiB."""
    shown = ", ".join(f"{size:.0f}" for size in after)
    if after[-1] - after[1] > unit:
        raise Wrong(f"memory is lost: {shown} MiB after each turn")
    return f"{shown} MiB after each turn"


def unfinished(setup):
    """Clients that announce the longest frame, send all of it but the last byte, and break off.

    On one thread some are hung up, where their unfinished frames are more together than it keeps."""
    body, turns = setup.count(LONGEST - 1), 6
    with serving(setup, 2 + 2 * turns * FREE + SPARE) as server:

        def work():
            after, ended = [], 0
            for _ in range(turns):
                with contextlib.ExitStack() as stack:
                    clients = [stack.enter_context(Client(server.port, EVE)) for _ in range(FREE)]
                    for client in clients:
                        client.send(struct.pack(">IB", LONGEST, MQ_SEND) + bytes(body - 1))
                    setup.pause()
                    ended += len(select.select([client.stream for client in clients], [], [], 0)[0])
                    for client in clients:
                        client.break_off()
                all_free(server.port, FREE)
                after.append(server.memory())
            if bool(ended) != (setup.is_one_thread and FREE * body > MOST_UNFINISHED):
                raise Wrong(f"{ended} were hung up")
            # The C library may keep what a turn took and give it to the next.
            taken = comes_back(after, 16 + 2 * FREE * body / 2**20)
            return f"{taken}; {ended} were hung up" if ended else taken

        with pair_at(server.port) as pair:
            yield measured(server, pair, f"{FREE} send {body:,} bytes of a frame of {LONGEST:,}, {turns} times", work)
        serve_to_the_end(server, "unfinished")


# ---- a byte at a time

REQUESTS = (umask(7), frame(MQ_GETATTR, bytes(8)), sending(bytes(8), bytes(range(256))))


def send_by_bytes(clients, stream):
    """Sends it to each, a byte to each in turn. How many bytes a second."""
    start = time.monotonic()
    for at in range(len(stream)):
        for client in clients:
            client.send(stream[at : at + 1])
    return len(clients) * len(stream) / (time.monotonic() - start)


def byte_by_byte(setup):
    """Requests that come a byte at a time, on as many connections as workers but two, in turn."""
    times = max(1, setup.count(200_000) // FREE // len(b"".join(REQUESTS)))
    stream = hello() + b"".join(REQUESTS) * times
    refused = (REFUSED, struct.pack(">H", 8))
    wanted = [(MASK, struct.pack(">H", 0o22)), refused, refused] + [(MASK, b"\0\7"), refused, refused] * (times - 1)
    with serving(setup, 2 + FREE + SPARE) as server:
        with pair_at(server.port) as pair, contextlib.ExitStack() as stack:
            clients = [stack.enter_context(Client(server.port)) for _ in range(FREE)]

            def work():
                used = server.processor_seconds()
                rate = send_by_bytes(clients, stream)
                for client in clients:
                    if client.answers(1 + len(wanted))[1:] != wanted:
                        raise Wrong("requests that came by bytes were answered otherwise")
                used = (server.processor_seconds() - used) / len(clients) / len(stream) * 1e6
                return f"all answered, as whole frames; {rate:,.0f} bytes a second, {used:.0f} µs of the server each"

            yield measured(server, pair, f"{FREE} send {len(stream):,} bytes each, one at a time", work)
        serve_to_the_end(server, "bytes")


# ---- malformed streams


def send_malformed(pipe, port, streams):
    """Sends each over a connection of its own. How many of each fault there were, and how many answers."""
    faults, answers = collections.Counter(), collections.Counter()
    end = time.monotonic() + MOST_STREAMING
    for stream in streams:
        opcodes, fault = expected(stream)
        frames, rest = frames_of(hung_up(port, stream, fault == NO_FAULT))
        if rest or not are_answers(frames, opcodes, fault):
            raise Wrong(f"{fault}: answers {frames} to {stream.hex()[:400]}")
        faults[fault] += 1
        answers[fault] += len(frames)
        if time.monotonic() > end:
            break
    pipe.send((faults, answers))


def send_by_three(port, streams):
    """Three helpers send them. The faults, the answers, and how many were sent a second."""
    start = time.monotonic()
    faults, answers = collections.Counter(), collections.Counter()
    with contextlib.ExitStack() as stack:
        helpers = [stack.enter_context(Helper(send_malformed, port, streams[one::3])) for one in range(3)]
        for helper in helpers:
            for total, part in zip((faults, answers), helper.told()):
                total.update(part)
    return faults, answers, sum(faults.values()) / (time.monotonic() - start)


def unknown_keys(server, count):
    """How much memory a hello costs that is refused."""
    before = server.memory()
    faults, _, rate = send_by_three(server.port, [hello(b"%020d" % number) for number in range(count)])
    cost = (server.memory() - before) * 2**20 / faults[UNKNOWN_KEY]
    outcome = f"all refused, {rate:,.0f} a second; each costs {cost:.0f} bytes"
    return Row(f"{count:,} unknown keys", outcome, None, before, server.peak())


def malformed(setup):
    count, keys = setup.count(100_000), setup.count(20_000)
    streams = malformed_streams(setup.dice, count)
    with serving(setup, 2 + count + keys + SPARE) as server:

        def work():
            faults, answers, rate = send_by_three(server.port, streams)
            setup.faults.extend((fault, number, answers[fault]) for fault, number in faults.most_common())
            return f"{sum(faults.values()):,} hung up, each once it was at fault or ended; {rate:,.0f} a second"

        with pair_at(server.port) as pair:
            yield measured(server, pair, f"{count:,} malformed streams", work)
        yield unknown_keys(server, keys)
        serve_to_the_end(server, "malformed")


# ---- floods


def flood_and_read(pipe, port, seconds):
    """One session sends and receives, 200 calls a piece, and reads and compares all answers. How many a second."""
    count, start = 0, time.monotonic()
    with Client(port, EVE) as client:
        queue = client.call(opening(b"/flood", BOTH, CREATE | NONBLOCK), OPENED)
        piece = (sending(queue, b"flood") * 10 + receiving(queue) * 10) * 10
        wanted = ([(SENT, b"")] * 10 + [received(b"flood")] * 10) * 10
        while count == 0 or time.monotonic() - start < seconds:
            client.send(piece)
            if client.answers(200) != wanted:
                raise Wrong("a flood that reads was answered otherwise")
            count += 200
    pipe.send(count / (time.monotonic() - start))


def flood_and_read_beside(setup, server):
    with Helper(flood_and_read, server.port, 0.2 if setup.is_short else 3) as helper:
        return f"{helper.told():,.0f} calls a second, all answered"


def flood_unread(client):
    """One session sends and receives, and reads no answer. The kernel keeps some megabytes for it."""
    queue = client.call(opening(b"/unread", BOTH, CREATE | NONBLOCK), OPENED)
    request, count = sending(queue, bytes(8_000)) + receiving(queue), 4_000
    taken = push(client.stream, request * count) // len(request)
    return f"{taken:,} of {count:,} messages of 8,000 bytes were taken" + (", then no more" if taken < count else "")


def stays_as_it_is(server, client):
    """Memory doesn't grow while no more is taken of a client that reads nothing."""
    before = server.memory()
    if push(client.stream, umask(), 1) == 0 and server.memory() - before > 1:
        raise Wrong(f"memory grows from {before:.1f} to {server.memory():.1f} MiB while a client reads nothing")


def floods(setup):
    with serving(setup, 2 + 2 + SPARE) as server:
        with pair_at(server.port) as pair, Client(server.port, EVE, LITTLE_ROOM) as client:
            yield measured(server, pair, "one floods, and reads", lambda: flood_and_read_beside(setup, server))
            yield measured(server, pair, "one floods, and doesn't read", lambda: flood_unread(client))
            stays_as_it_is(server, client)
            client.break_off()
        serve_to_the_end(server, "floods")


# So many names of the greatest length fill a page; so many pages are asked for, by so many clients in turn.
FULL_PAGE, PAGES, TURNS = 1_000, 600, 5


def pages_unread(server):
    """Clients in turn, each of which asks for long answers, reads none and breaks off."""
    after = []
    for _ in range(TURNS):
        client = Client(server.port, EVE, LITTLE_ROOM)
        push(client.stream, listing(FULL_PAGE) * PAGES)
        time.sleep(0.2)
        client.break_off()
        all_free(server.port, 1)
        after.append(server.memory())
    # The answers of one turn, of which 256 may be untaken, are as large as that.
    return comes_back(after, 256 * FULL_PAGE * 254 / 2**20)


def pages(setup):
    """One worker serves all these clients, so that what one leaves is there for the next."""
    with serving(setup, 2 + 1 + 2 * TURNS + SPARE, 3) as server:
        with pair_at(server.port) as pair:
            with Client(server.port, EVE) as client:
                names = (b"/%0251d" % number for number in range(FULL_PAGE))
                client.send(b"".join(map(opening_semaphore, names)))
                client.answers(FULL_PAGE)
            clients = f"one asks for {PAGES} pages of {FULL_PAGE:,} names, reads nothing and breaks off, {TURNS} times"
            yield measured(server, pair, clients, lambda: pages_unread(server))
        serve_to_the_end(server, "pages")


# ---- resets

PART = sending(bytes(8), bytes(64))[:30]
BROKEN = (*SAID, hello() + PART, hello() + umask() * 100, hello() + opening(b"/gone") + umask() * 100 + PART)


def reset_one(port, number):
    """A client breaks off: in mid-frame or with unread answers, while it waits for a message, or for a post."""
    with Client(port, EVE if number % 3 else None) as client:
        if number % 3 == 0:
            client.send(BROKEN[number // 3 % len(BROKEN)])
        elif number % 3 == 1:
            client.send(receiving(client.call(opening(b"/gone"), OPENED)) + PART)
        else:
            client.send(frame(SEM_WAIT, client.call(opening_semaphore(b"/gone"), OPENED)) + PART)
        client.break_off()


def resets(setup):
    count = setup.count(3_000)
    with serving(setup, 3 + count + FREE + SPARE) as server:
        with pair_at(server.port) as pair, Client(server.port, EVE) as keeper:
            keeper.call(umask(), MASK)
            queue = keeper.call(opening(b"/gone"), OPENED)
            semaphore = keeper.call(opening_semaphore(b"/gone"), OPENED)

            def work():
                for number in range(count):
                    reset_one(server.port, number)
                return f"the {FREE - 1} workers were free again in {all_free(server.port, FREE - 1):.3f} s"

            yield measured(server, pair, f"{count:,} are reset, two of three while their call is parked", work)
            keeper.call(sending(queue, b"kept"), SENT)
            keeper.call(frame(SEM_POST, semaphore), DONE)
            if keeper.call(receiving(queue), RECEIVED) != received(b"kept")[1]:
                raise Wrong("a message went to a session that is gone")
            keeper.call(frame(SEM_WAIT, semaphore), DONE)
        serve_to_the_end(server, "resets")


# ---- file descriptors

MOST_FILES = 64


def is_unanswered(port, stack):
    """Whether a client that comes now gets no answer within a second."""
    client = stack.enter_context(Client(port))
    client.send(hello())
    return not select.select([client.stream], [], [], 1)[0]


def files_used_up(setup):
    if setup.is_one_thread:
        yield from files_used_on_one_thread(setup)
        return
    yield from files_used_by_workers(setup)
    yield from files_enough(setup)


def files_used_on_one_thread(setup):
    """More clients than the server may open files: those that wait are served once others have left."""
    with serving(setup, None, files=MOST_FILES) as server:
        with pair_at(server.port) as pair, contextlib.ExitStack() as stack:
            clients = [stack.enter_context(Client(server.port)) for _ in range(MOST_FILES + 6)]
            for client in clients:
                client.send(hello())

            def work():
                wait_until(lambda: server.files() == MOST_FILES, "the files are not used up")
                used = server.processor_seconds()
                setup.pause()
                used = server.processor_seconds() - used
                answered = [client for client in clients if select.select([client.stream], [], [], 0)[0]]
                for client in answered[:20]:
                    client.stream.close()
                for client in clients:
                    if client not in answered[:20]:
                        client.answer()
                return f"{len(answered)} were served, the others once files were free; {used:.2f} s of processor time meanwhile"

            yield measured(server, pair, f"{len(clients)} with {MOST_FILES} files", work)
        fresh(server.port)


def files_used_by_workers(setup):
    """As many workers as the server may open files, and more clients than that."""
    with serving(setup, None, MOST_FILES, MOST_FILES) as server:
        with pair_at(server.port) as pair, contextlib.ExitStack() as stack:
            streams = connect_all(server.port, MOST_FILES + 6, stack)

            def work():
                wait_until(lambda: server.files() == MOST_FILES, "the files are not used up")
                setup.pause()
                for stream in streams[:20]:
                    stream.close()
                wait_until(lambda: server.files() <= MOST_FILES - 20, "connections that ended keep their files")
                if not is_unanswered(server.port, stack) or server.process.poll() is not None:
                    raise Wrong("the server accepts again, or has ended")
                return "it accepts no more, serves those it has to their ends, and ends with status 4"

            yield measured(server, pair, f"{MOST_FILES + 6} with {MOST_FILES} workers and {MOST_FILES} files", work)
        status = server.process.wait(SECONDS)
        if status != 4 or server.faults.read_text() != "mqserve: net\n":
            raise Wrong(f"status {status}, {server.faults.read_text()!r}")


def files_enough(setup):
    """Few workers: connections wait in the kernel's queue, and take no file of the server."""
    many = setup.count(1_000)
    with serving(setup, None, WORKERS, MOST_FILES) as server:
        with pair_at(server.port) as pair:

            def work():
                with contextlib.ExitStack() as stack:
                    connect_all(server.port, many, stack)
                    setup.pause()
                    used = server.files()
                return f"it opens {used} files; {FREE} fresh clients were served in {all_free(server.port, FREE):.3f} s"

            yield measured(server, pair, f"{many:,} with {WORKERS} workers and {MOST_FILES} files", work)
        fresh(server.port)


# ---- readers that stop


def send_rest(pipe, stream, rest):
    stream.sendall(rest)
    pipe.send("sent")


def read_late(client, rest, count):
    """Sends the rest and reads all: the answers to so many pairs of a mask and a page, in order."""
    with Helper(send_rest, client.stream, rest) as helper:
        for number in range(count):
            (opcode, mask), (page, _) = client.answers(2)
            if (opcode, page) != (MASK, NAMES) or mask != struct.pack(">H", (number - 1) % 512 if number else 0o22):
                raise Wrong(f"answer {number} to a reader that stopped is {opcode} {mask.hex()}, {page}")
        helper.told()


def post_beside(others, semaphores):
    """Two waits block, and are served by another's posts. How many seconds that takes."""
    for waiting, semaphore in zip(others[:2], semaphores):
        waiting.send(frame(SEM_WAIT, semaphore))
    time.sleep(0.1)
    start = time.monotonic()
    others[2].send(frame(SEM_POST, semaphores[2]) * 2)
    answers = others[0].answers(1) + others[1].answers(1) + others[2].answers(2)
    if answers != [(DONE, b"")] * 4:
        raise Wrong(f"posts and waits beside a reader that stopped are answered {answers}")
    return time.monotonic() - start


def readers_stop(setup):
    """A client that floods and one whose call is parked stop reading, while others wait for messages and posts."""
    seconds, count = (0.5, 4_000) if setup.is_short else (10, 20_000)
    with serving(setup, 2 + 4 + SPARE) as server:
        with pair_at(server.port) as pair, contextlib.ExitStack() as stack:
            flooding = stack.enter_context(Client(server.port, EVE, LITTLE_ROOM))
            others = [stack.enter_context(Client(server.port, EVE)) for _ in range(3)]
            others[0].call(opening_semaphore(b"/%0251d" % 0), OPENED)
            semaphores = [other.call(opening_semaphore(b"/post"), OPENED) for other in others]
            queues = [other.call(opening(b"/late"), OPENED) for other in others]
            flood = b"".join(umask(number % 512) + listing(1) for number in range(count))

            def work():
                taken = push(flooding.stream, flood)
                posted = post_beside(others, semaphores)
                others[0].send(receiving(queues[0]))
                others[2].call(sending(queues[2], b"late"), SENT)
                time.sleep(seconds)
                if others[0].answer() != received(b"late"):
                    raise Wrong("a message that was read late is another")
                read_late(flooding, flood[taken:], count)
                waits = f"two parked waits of others were served in {posted * 1e3:.0f} ms"
                return f"{waits}; later all {2 * count:,} answers came"

            clients = f"one floods and stops reading for {seconds} s, another while its call is parked"
            yield measured(server, pair, clients, work)
        serve_to_the_end(server, "stopped")


# ---- timed calls and gives


def deadlines(setup):
    count = setup.count(1_000)
    with serving(setup, 2 + 1 + SPARE) as server:
        with pair_at(server.port) as pair:

            def work():
                seconds, longest = timed_calls(server.port, count)
                return f"all timed out, {seconds / count * 1e3:.1f} ms each, {longest * 1e3:.0f} at most"

            yield measured(server, pair, f"one makes {count:,} timed calls of a millisecond", work)
        serve_to_the_end(server, "deadlines")


def gives(setup):
    count = setup.count(1_000)
    with serving(setup, 2 + 3 + count + SPARE) as server:
        with pair_at(server.port) as pair:
            yield measured(server, pair, "one is given all that it can hold", lambda: flood_of_gives(server.port))
            clients = f"{count:,} are given to and break off"
            yield measured(server, pair, clients, lambda: gives_to_the_ended(server.port, count))
        serve_to_the_end(server, "gives")


# ---- the run

PARTS = {
    "silence": silence,
    "unfinished": unfinished,
    "bytes": byte_by_byte,
    "malformed": malformed,
    "floods": floods,
    "pages": pages,
    "resets": resets,
    "files": files_used_up,
    "stopped": readers_stop,
    "deadlines": deadlines,
    "gives": gives,
}
ALL_PARTS = {**PARTS, **ONE_THREAD_PARTS}


def shown(row):
    messages, times, memory = "", "", ""
    if row.passed:
        messages = f"{row.passed.messages:,}"
        times = f"{row.passed.median * 1e3:.2f}, {row.passed.longest * 1e3:.0f}"
    if row.peak:
        memory = f"{row.before:.0f}, {row.peak:.0f}"
    return f"| {row.clients} | {row.outcome} | {messages} | {times} | {memory} |"


def print_tables(rows, faults):
    heads = "Clients", "What came of it", "Messages beside", "Round, median, longest, ms", "Memory before, peak, MiB"
    print(f"\n| {' | '.join(heads)} |\n|---|---|--:|--:|--:|")
    for row in rows:
        print(shown(row))
    if faults:
        print("\n| Fault of the stream | Streams | Answers before the hang-up |\n|---|--:|--:|")
    for fault, count, answers in faults:
        print(f"| {fault} | {count:,} | {answers:,} |")


def run(setup, names):
    """The rows of all parts, and how many parts were wrong."""
    rows, wrong = [], 0
    for name in names:
        start = time.monotonic()
        try:
            for row in ALL_PARTS[name](setup):
                rows.append(row)
                print(shown(row), flush=True)
        except (Wrong, OSError, subprocess.TimeoutExpired) as fault:
            wrong += 1
            rows.append(Row(name, f"**wrong**: {type(fault).__name__}: {fault}"))
            print(shown(rows[-1]), flush=True)
        print(f"{name}: {time.monotonic() - start:.1f} s", flush=True)
    return rows, wrong


def end_at_once(number, _):
    sys.exit(f"ended by signal {number}")


def prepare():
    """So many connections want as many files, and whatever ends this program ends its processes."""
    _, most = resource.getrlimit(resource.RLIMIT_NOFILE)
    resource.setrlimit(resource.RLIMIT_NOFILE, (min(most, 4_096), most))
    for number in (signal.SIGTERM, signal.SIGALRM, signal.SIGHUP):
        signal.signal(number, end_at_once)
    signal.alarm(MOST_SECONDS)


def main():
    parser = argparse.ArgumentParser(description=__doc__)
    parser.add_argument("--program", type=Path, default=PROGRAM, help="another mqserve")
    parser.add_argument("--one-thread", action="store_true", help="mqserve serve --one-thread; with parts that it alone has")
    parser.add_argument("--short", action="store_true", help="a hundredth of the counts")
    parser.add_argument("--seed", type=int, default=1, help="of the malformed streams; 1 where none is given")
    parser.add_argument("--parts", help="some parts, of " + ",".join(ALL_PARTS))
    given = parser.parse_args()
    parts = ALL_PARTS if given.one_thread else PARTS
    names = given.parts.split(",") if given.parts else list(parts)
    if not set(names) <= set(parts):
        parser.error("no such part")
    if not given.program.exists():
        sys.exit("no program was built yet: run `make build` first")
    prepare()
    with tempfile.TemporaryDirectory() as room:
        dice = random.Random(given.seed)
        setup = Setup(given.program.resolve(), Path(room), given.short, given.one_thread, dice, [])
        rows, wrong = run(setup, names)
    print_tables(rows, setup.faults)
    passed = sum(row.passed.messages for row in rows if row.passed)
    print(f"\n{os.cpu_count()} cores, {platform.release()}, load {os.getloadavg()[0]:.1f} at the end")
    print(f"{passed:,} messages passed beside; {wrong} of {len(names)} parts wrong")
    return 1 if wrong else 0


if __name__ == "__main__":
    sys.exit(main())
