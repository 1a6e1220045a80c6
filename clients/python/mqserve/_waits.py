"""How long calls wait."""
from __future__ import annotations

import math
import struct
import threading
import time
from typing import Any, Optional

from ._errors import BusyError

HELLO_S, SIDE_S, ANSWER_S = 5.0, 1.0, 10.0
LATE_S = 1.0                # by how much a server may be late with the end of a call
LAST_S = 2.0                # after its moment a call ends, whatever the server does
LONGEST_S = 3600.0          # of one wait; further ones follow
LAST_DEADLINE_S = 1e10      # what is further away has the last deadline
FIRST_PAUSE_S, LAST_PAUSE_S = 0.001, 0.064


class Limit(threading.local):
    """When this thread's call ends at the latest, by time.monotonic(). None: each of its waits has its own bound alone."""
    end: Optional[float] = None


limit = Limit()


class Ending:
    """Ends the waits of its block at a moment. Each call has one, since a signal's handler may make it amid another."""

    def __init__(self, end: Optional[float]) -> None:
        self.end = end

    def __enter__(self) -> None:
        self.before, limit.end = limit.end, self.end

    def __exit__(self, *_: object) -> None:
        limit.end = self.before


def earlier(end: Optional[float], other: float) -> float:
    """The earlier one of two moments, of which the first may be none."""
    return other if end is None else min(end, other)


def within(seconds: float) -> float:
    """So many seconds, or those that the call has left."""
    return seconds if limit.end is None else max(0.0, min(seconds, limit.end - time.monotonic()))


class TimedLock:
    """Waits for a lock no longer than the call may take."""

    def __init__(self, lock: Any) -> None:
        self.lock = lock

    def __enter__(self) -> None:
        if not self.lock.acquire(timeout=within(threading.TIMEOUT_MAX)):
            raise BusyError("a call of another thread isn't answered")

    def __exit__(self, *_: object) -> None:
        self.lock.release()


def deadline(until: float) -> bytes:
    """A moment of time.monotonic() as a deadline: by the system's clock, in milliseconds, rounded up. One that has come is 0, since what
    is past may be to come for the server, which knows the time by its last tick."""
    left = until - time.monotonic()   # before the other clock: time that passes in between makes the wait longer
    if left <= 0:
        return bytes(8)
    if left > LAST_DEADLINE_S:
        return b"\xff" * 8
    return struct.pack(">Q", -(-(time.time_ns() + math.ceil(left * 1e9)) // 1000000))
