"""Parts of hostile.py: timed calls without end, and descriptions that nobody asked for.

Each takes a client of its own beside the pair, and says what came of it.
"""

import contextlib
import struct
import time

from hostile_client import (
    BOTH,
    CREATE,
    DESCR_LIMIT,
    DONE,
    EVE,
    INTERRUPT,
    INTERRUPTED,
    NO_TAKER,
    OPENED,
    REFUSED,
    STARTED,
    TAKEN,
    TIMED_OUT,
    Client,
    Wrong,
    frame,
    giving,
    hello,
    opening,
    receiving_until,
)

# The most descriptions that a session holds.
MOST_HELD = 1_024

LATEST = 2**64 - 1


def now():
    """The moment of the server's clock, in milliseconds."""
    return time.time_ns() // 1_000_000


def refused_by(client, request, rule):
    fields = client.call(request, REFUSED)
    if fields != rule:
        raise Wrong(f"refused by {fields.hex()}, and not {rule.hex()}")


def timed_calls(port, count):
    """One session waits a millisecond so many times, and then never and without end. The seconds of the first, and the longest."""
    longest, start = 0, time.monotonic()
    with Client(port, EVE) as client:
        queue = client.call(opening(b"/until"), OPENED)
        for _ in range(count):
            before = time.monotonic()
            refused_by(client, receiving_until(queue, now() + 1), TIMED_OUT)
            longest = max(longest, time.monotonic() - before)
        seconds = time.monotonic() - start
        refused_by(client, receiving_until(queue, 0), TIMED_OUT)
        client.send(receiving_until(queue, LATEST) + frame(INTERRUPT))
        if client.answers(2) != [(INTERRUPTED, b""), (DONE, b"")]:
            raise Wrong("a call that waits without end was not interrupted")
    return seconds, longest


def started(port, stack):
    """A client, and the number of its session."""
    client = stack.enter_context(Client(port))
    return client, client.call(hello(), STARTED)


def flood_of_gives(port):
    """A session is given as many descriptions as it can hold; one more is refused, and it closes none that it has not."""
    with contextlib.ExitStack() as stack:
        (giver, _), (taker, sid) = started(port, stack), started(port, stack)
        for _ in range(MOST_HELD):
            queue = giver.call(opening(b"/given", BOTH, CREATE), OPENED)
            giver.call(giving(queue, sid), DONE)
        queue = giver.call(opening(b"/given", BOTH, CREATE), OPENED)
        refused_by(giver, giving(queue, sid), DESCR_LIMIT)
        if [opcode for opcode, _ in taker.answers(MOST_HELD)] != [TAKEN] * MOST_HELD:
            raise Wrong("not each description that was given came")
        refused_by(taker, opening(b"/given", BOTH, 0), DESCR_LIMIT)
    return f"{MOST_HELD:,} came; the next was refused, and so was an open of the session that had them"


def gives_to_the_ended(port, count):
    """Descriptions are given to sessions that break off. Each is given, or refused since there is no such session."""
    given = 0
    with contextlib.ExitStack() as stack:
        giver, _ = started(port, stack)
        for _ in range(count):
            with Client(port) as taker:
                sid = taker.call(hello(), STARTED)
                queue = giver.call(opening(b"/given", BOTH, CREATE), OPENED)
                taker.break_off()
            giver.send(giving(queue, sid))
            opcode, fields = giver.answer()
            if opcode not in (DONE, REFUSED) or opcode == REFUSED and fields != NO_TAKER:
                raise Wrong(f"a give to a session that breaks off is answered {opcode} {fields.hex()}")
            given += opcode == DONE
            if opcode == REFUSED:
                giver.call(frame(4, queue), DONE)
        refused_by(giver, giving(giver.call(opening(b"/given", BOTH, CREATE), OPENED), struct.pack(">Q", LATEST)), NO_TAKER)
    return f"{given:,} of {count:,} were given before the taker was hung up, the others refused"
