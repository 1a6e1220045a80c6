"""Going on after a restart: which calls are made again, and how long a new connection is tried for. docs/use/restarts.md has the table."""
from __future__ import annotations

import errno
import os
import socket
import time
from typing import Any, Callable, Optional, TypeVar

from . import _waits as waits
from ._errors import BusyError, ConnectionLost, UnknownOutcome

FIRST_PAUSE_S, LAST_PAUSE_S = 0.01, 0.5     # between two tries
# Where nobody listens yet, or a server that has begun to listen has gone again, and where the way to its machine isn't there.
NOT_THERE = {errno.ECONNREFUSED, errno.ENOENT, errno.ECONNRESET, errno.EPIPE, errno.ECONNABORTED, errno.EHOSTUNREACH, errno.ENETUNREACH,
             errno.ETIMEDOUT}
Result = TypeVar("Result")


def seconds_of(variable: str, default: float, scale: float = 1.0) -> float:
    """What a variable says, in seconds."""
    text = os.environ.get(variable)
    if not text:
        return default
    try:
        seconds = float(text) * scale
    except ValueError:
        seconds = -1.0
    if not 0 <= seconds < waits.LAST_DEADLINE_S:
        raise ValueError(f"{variable} must be a number, and not negative: {text}")
    return seconds


def may_come(error: BaseException) -> bool:
    """Whether a server may be there in a moment that isn't there now."""
    return isinstance(error, (ConnectionLost, BusyError, socket.timeout)) or isinstance(error, OSError) and error.errno in NOT_THERE


class Pauses:
    """The pauses between tries until an end: short ones first."""

    def __init__(self, end: float) -> None:
        self.end, self.seconds = end, FIRST_PAUSE_S

    def next(self) -> float:
        """How long to wait before the next try, or 0 where there is none."""
        left = self.end - time.monotonic()
        pause, self.seconds = self.seconds, min(2 * self.seconds, LAST_PAUSE_S)
        return min(pause, left) if left > 0 else 0.0


def tried(connect: Callable[[], Result], seconds: float) -> Result:
    """Connects, again and again for so many seconds, as long as a server takes to start and to read its trail."""
    pauses = Pauses(time.monotonic() + waits.within(seconds))
    while True:
        try:
            return connect()
        except Exception as error:
            pause = pauses.next() if may_come(error) else 0.0
            if not pause:
                raise
            time.sleep(pause)


def unknown(error: BaseException) -> UnknownOutcome:
    """What a call ends with that may have been done."""
    return UnknownOutcome(errno.ECONNABORTED, f"unknown whether it was done: {error}")


def again(seconds: float, call: Callable[[], Result], is_safe: bool, on_repeat: Optional[Callable[[], Any]] = None) -> Result:
    """Makes the call, and makes it again after a loss of its connection: where its request never left, or where it does no harm twice; then
    `on_repeat` is told. `seconds`: how long; 0: not at all."""
    if not seconds:
        return call()
    pauses = Pauses(waits.earlier(waits.limit.end, time.monotonic() + seconds))
    while True:
        try:
            return call()
        except UnknownOutcome:
            raise
        except ConnectionLost as error:
            if error.is_final:
                raise
            if not error.is_unsent and not is_safe:
                raise unknown(error) from error
            pause = pauses.next()
            if not pause:
                raise
            if not error.is_unsent and on_repeat is not None:
                on_repeat()
            time.sleep(pause)
