"""Parts of hostile.py for one thread: strangers that leave frames unfinished, pages of long names that are asked for at once, and
long frames that come in small pieces."""

import contextlib
import select
import struct
import time

from hostile_client import (
    EVE,
    HELLO,
    LONGEST,
    MQ_SEND,
    NAMES,
    REFUSED,
    Client,
    Wrong,
    frame,
    listing,
    opening_semaphore,
    pair_at,
)
from hostile_server import FREE, MOST_UNFINISHED, SPARE, measured, serve_to_the_end, serving, wait_until

# The frame of the longest key. Of who hasn't said hello the server keeps no more.
KEY_FRAME = 65_542

# So much more than the server keeps of all is sent by strangers.
BEYOND = 2**22

# A full page of the longest names, how many are asked for at once, and how often.
FULL_PAGE, PAGES, TURNS = 1_000, 256, 5
LONG_PAGE = 2 + FULL_PAGE * 254

# A round of the pair beside them may take so many seconds.
MOST_LATE = 0.25

# A byte of a longer frame may cost so many times that of a shorter one, in pieces of so many bytes.
MOST_TIMES, PIECE = 3, 1_460
SHORTER, LONGER = 2**16, 2**22


# ---- strangers


def stranger(port, stack, size):
    """A client that announces the longest hello, and sends so many bytes of it."""
    client = stack.enter_context(Client(port))
    with contextlib.suppress(ConnectionError):
        client.send(struct.pack(">IB", LONGEST, HELLO) + bytes(size - 5))
    return client


def ended(clients, seconds=0):
    """Those that were hung up: nothing else can be read of a stranger."""
    poll = select.poll()
    for client in clients:
        poll.register(client.stream, select.POLLIN)
    found = {file for file, _ in poll.poll(seconds * 1e3)}
    return [client for client in clients if client.stream.fileno() in found]


def told_so(server):
    """How many connections ended so, by the log."""
    return server.log.read_text().count(" ending=TooMuchUnfinished")


def too_much(setup, server):
    """Some send as much as a key's frame has, of a longer one, and then a byte more."""
    with contextlib.ExitStack() as stack:
        clients = [stranger(server.port, stack, KEY_FRAME) for _ in range(FREE)]
        setup.pause()
        if ended(clients):
            raise Wrong("a stranger is hung up that sent no more than a key's frame has")
        for client in clients:
            client.send(b"\0")
        wait_until(lambda: len(ended(clients)) == FREE, "a stranger may leave more unfinished than a key's frame has")
        if told_so(server) != FREE:
            raise Wrong(f"the log tells of {told_so(server)} that left too much unfinished, and not {FREE}")
    return "all hung up at that byte"


def too_many(setup, server, count, size):
    """So many strangers leave so much unfinished each. As many are hung up as it takes."""
    needed, before = max(0, count - MOST_UNFINISHED // size), told_so(server)
    with contextlib.ExitStack() as stack:
        clients = [stranger(server.port, stack, size) for _ in range(count)]
        wait_until(lambda: len(ended(clients)) >= needed, f"fewer than {needed} strangers were hung up")
        setup.pause()
        gone = len(ended(clients))
        # One that is hung up before it has sent all makes less room.
        if gone > 2 * needed or told_so(server) - before != gone:
            raise Wrong(f"{gone} were hung up where {needed} are enough; the log tells of {told_so(server) - before}")
        for client in clients:
            client.break_off()
    return f"{gone} were hung up, {needed} at least"


def strangers(setup):
    """Who hasn't said hello, and leaves frames unfinished."""
    size = KEY_FRAME - 542
    count = setup.count((MOST_UNFINISHED + BEYOND) // size)
    with serving(setup, 2 + FREE + count + SPARE, is_logged=True) as server:
        with pair_at(server.port) as pair:
            clients = f"{FREE} strangers send {KEY_FRAME:,} bytes of a longer frame, and then one more"
            yield measured(server, pair, clients, lambda: too_much(setup, server))
            clients = f"{count:,} strangers send {size:,} bytes of a longer frame"
            yield measured(server, pair, clients, lambda: too_many(setup, server, count, size))
        serve_to_the_end(server, "strangers")


# ---- long pages


def ask_for_pages(client):
    """Asks for all pages at once, and reads them. How many seconds the slowest turn took."""
    longest = 0
    for _ in range(TURNS):
        start = time.monotonic()
        client.send(listing(FULL_PAGE) * PAGES)
        for opcode, fields in client.answers(PAGES):
            if (opcode, len(fields)) != (NAMES, LONG_PAGE):
                raise Wrong(f"a page of {len(fields):,} bytes under {opcode}")
        longest = max(longest, time.monotonic() - start)
    return f"all came, in {longest:.1f} s at most"


def long_pages(setup):
    """One client asks for many pages of long names at once, and reads them. No round beside it may be late."""
    with serving(setup, 2 + 1 + SPARE) as server:
        with pair_at(server.port) as pair, Client(server.port, EVE) as client:
            client.send(b"".join(opening_semaphore(b"/%0251d" % number) for number in range(FULL_PAGE)))
            client.answers(FULL_PAGE)
            clients = f"one asks for {PAGES} pages of {FULL_PAGE:,} names at once, {TURNS} times"
            row = measured(server, pair, clients, lambda: ask_for_pages(client))
            yield row
            if row.passed.longest > MOST_LATE:
                raise Wrong(f"a round beside long pages took {row.passed.longest:.3f} s, and may take {MOST_LATE}")
        serve_to_the_end(server, "long pages")


# ---- frames in small pieces


def send_in_pieces(server, clients, size, total):
    """Each client sends frames of this size, so many bytes in all, a piece each in turn. The server's nanoseconds a byte."""
    stream = frame(MQ_SEND, b"\xff" * 8 + bytes(size - 13)) * (total // size)
    before = server.processor_seconds()
    for at in range(0, len(stream), PIECE):
        for client in clients:
            client.send(stream[at : at + PIECE])
    for client in clients:
        if client.answers(total // size) != [(REFUSED, struct.pack(">H", 8))] * (total // size):
            raise Wrong("frames that came in pieces were answered otherwise")
    return (server.processor_seconds() - before) / len(clients) / len(stream) * 1e9


def pieces(setup):
    """Long frames that come in small pieces: a byte costs what a byte of a shorter frame does."""
    shorter, longer = setup.count(SHORTER), setup.count(LONGER)
    with serving(setup, 2 + FREE + SPARE) as server:
        with pair_at(server.port) as pair, contextlib.ExitStack() as stack:
            clients = [stack.enter_context(Client(server.port, EVE)) for _ in range(FREE)]
            costs = []

            def work(size):
                costs.append(send_in_pieces(server, clients, size, longer))
                return f"all answered, {costs[-1]:.1f} ns of the server a byte"

            for size in (shorter, longer):
                said = f"{FREE} send frames of {size:,} bytes in pieces of {PIECE:,}"
                yield measured(server, pair, said, lambda size=size: work(size))
            # So few bytes cost less than the kernel's clock of processors shows.
            if not setup.is_short and costs[1] > MOST_TIMES * costs[0]:
                raise Wrong(f"a byte costs {costs[1]:.1f} ns in a longer frame, and {costs[0]:.1f} in a shorter one")
        serve_to_the_end(server, "pieces")


ONE_THREAD_PARTS = {"strangers": strangers, "long-pages": long_pages, "pieces": pieces}
