"""What is raised, and the server's rules."""
from __future__ import annotations

import errno
from typing import Any, Dict


class Error(Exception):
    """All errors of this module that aren't ValueError or OSError."""
    __module__ = "mqserve"
    rule = 0


class SignalError(Error):
    """Never raised; posix_ipc has it."""
    __module__ = "mqserve"


class PermissionsError(Error):
    """The user may not do this."""
    __module__ = "mqserve"


class ExistentialError(Error):
    """It doesn't exist, or does though it must not, or is closed."""
    __module__ = "mqserve"


class BusyError(Error):
    """The call would block longer than it may; or the queue has a registration, or the server no free worker."""
    __module__ = "mqserve"


class ConnectionLost(Error):
    """The server ended the connection, didn't answer in time, or sent what is no answer."""
    __module__ = "mqserve"
    is_unsent = False       # whether the request never left as a whole, so that the server can't have done it
    is_final = False        # whether a new connection doesn't help


class UnknownOutcome(ConnectionLost, ConnectionAbortedError):
    """The connection was lost after the request left, and it isn't safe to make the call again."""
    __module__ = "mqserve"


class TooLate(BusyError):
    """A call with a timeout ended before its answer came, which is still to come."""


NAMES = ("NoSession InCall NotInCall NameForm NameLong NotAdmin NoUser BadDescr NotForWrite NotForRead DirSearch DirRead Absent Present "
          "ModeDenied DirWrite Sticky NotOwner ChownDenied AttrRange ValueRange QueueCount ByteLimit DescrLimit PrioRange MessageLong "
          "BufferShort NotifyTaken WouldBlock Overflow BadKey TimedOut NoTaker").split()
KINDS: Dict[int, Any] = {
    **dict.fromkeys((6, 9, 10, 11, 12, 15, 16, 17, 18, 19, 31), PermissionsError),
    **dict.fromkeys((8, 13, 14), ExistentialError),
    **dict.fromkeys((28, 29, 32), BusyError),
    **dict.fromkeys((4, 5, 20, 21, 25, 26, 27, 30), ValueError),
}
NUMBERS = {22: errno.ENOSPC, 23: errno.EMFILE, 24: errno.EMFILE}


def refusal(rule: int) -> Exception:
    text = f"refused by rule {rule}, {NAMES[rule - 1]}"
    error: Any = OSError(NUMBERS[rule], text) if rule in NUMBERS else KINDS.get(rule, Error)(text)
    error.rule = rule
    return error


def rule_of(error: BaseException) -> int:
    return getattr(error, "rule", 0)
