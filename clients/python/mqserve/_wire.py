"""Frames, by docs/ref/protocol.md."""
from __future__ import annotations

import os
import struct
from typing import Callable, List, Optional, Tuple, Union

from ._errors import NAMES, ConnectionLost, refusal

# Requests and answers, by the table of docs/ref/protocol.md
HELLO, UMASK, MQ_OPEN, MQ_CLOSE, MQ_UNLINK, MQ_SEND, MQ_RECEIVE, MQ_GETATTR = range(1, 9)
MQ_NOTIFY, SEM_OPEN, SEM_CLOSE, SEM_UNLINK, SEM_POST, SEM_WAIT, SEM_TRYWAIT, SEM_GETVALUE = range(10, 18)
LIST_NAMES, STAT_NAME, CHMOD, CHOWN = range(18, 22)
INTERRUPT, MQ_TIMED_SEND, MQ_TIMED_RECEIVE, SEM_TIMED_WAIT = 23, 26, 27, 28
STARTED, DONE, OPENED, MASK, ATTRS, SENT, RECEIVED, VALUE, PAGE, STAT = range(65, 75)
REFUSED, INTERRUPTED, NOTICE, TAKEN = range(76, 80)
SIZES = {STARTED: 8, DONE: 0, OPENED: 8, MASK: 2, ATTRS: 13, SENT: 0, VALUE: 4, STAT: 10, REFUSED: 2, INTERRUPTED: 0, NOTICE: 8,
         TAKEN: 8}
PAGE_NAMES, PAGE_NAME = 1000, 256     # how many names a page has at most, and how long they are
BODY_MAX = 16777300
CREATE, EXCLUSIVE, NONBLOCK = 1, 2, 4
ABSENT, DESCR_LIMIT, NOTIFY_TAKEN, WOULD_BLOCK, TIMED_OUT = 13, 24, 28, 29, 32

OnLate = Callable[[int, bytes], None]   # what becomes of an answer that comes after its call's end: its opcode and fields


def text(name: Union[str, bytes]) -> bytes:
    data = name if isinstance(name, bytes) else os.fsencode(name)
    if len(data) > 65535:
        raise ValueError("the name is too long")
    return struct.pack(">H", len(data)) + data


def data(message: Union[str, bytes]) -> bytes:
    """The bytes of a message. TypeError for what has none, as a number."""
    return message.encode() if isinstance(message, str) else message if isinstance(message, bytes) else memoryview(message).tobytes()


def ignore(opcode: int, fields: bytes) -> None:
    """Of an answer that nobody wants any more."""


class Frames:
    """The answers that came to one session, in order."""

    def __init__(self) -> None:
        self.data = bytearray()
        self.notices: List[int] = []
        self.stale = 0          # 2: a late refusal of an interrupt stands after the next answer; 1: it comes next
        self.late: List[OnLate] = []        # for the answers that come first, since their calls have ended
        self.room = 0           # the bytes of a message that may come
        self.lost, self.why = False, "it was closed"

    def close(self) -> None:
        raise NotImplementedError

    def lose(self, why: str, cause: Optional[BaseException] = None, is_unsent: bool = False) -> ConnectionLost:
        """Ends the connection; the error is to be raised."""
        self.close()
        self.why = why
        error = ConnectionLost(why)
        error.__cause__, error.is_unsent = cause, is_unsent
        return error

    def frame(self, opcode: int, fields: bytes) -> bytes:
        if self.lost:
            error = ConnectionLost("the connection was lost")
            error.is_unsent = True
            raise error
        if len(fields) >= BODY_MAX:
            raise ValueError("the message is too long")
        return struct.pack(">IB", len(fields) + 1, opcode) + fields

    def front_size(self) -> int:
        """The size of the whole frame in front, or 0 if it isn't there."""
        if len(self.data) < 5:
            return 0
        body, opcode = int.from_bytes(self.data[:4], "big"), self.data[4]
        least, most = self.sizes_of(opcode)
        if not least <= body - 1 <= most:
            raise self.lose("the server sent what is no answer")
        return body + 4 if len(self.data) >= body + 4 else 0

    def sizes_of(self, opcode: int) -> Tuple[int, int]:
        """How many bytes the fields of an answer have, at least and at most."""
        if opcode == RECEIVED:
            return 4, 4 + self.room
        if opcode == PAGE:
            return 2, 2 + PAGE_NAMES * (2 + PAGE_NAME)
        size = SIZES.get(opcode, -1)
        return size, size

    def names_in(self, page: bytes) -> List[bytes]:
        """The names of a page: a list, by the table of docs/ref/protocol.md."""
        names, at = [], 2
        for _ in range(int.from_bytes(page[:2], "big")):
            end = at + 2 + int.from_bytes(page[at:at + 2], "big")
            names.append(page[at + 2:end])
            at = end
        if at != len(page) or len(names) > PAGE_NAMES:
            raise self.lose("the server sent what is no answer")
        return names

    def has_answer(self) -> bool:
        """Whether an answer stands whole in front. Puts aside what comes unasked or late."""
        while True:
            size = self.front_size()
            if not size:
                return False
            opcode = self.data[4]
            if opcode not in (NOTICE, TAKEN) and not self.late and not (opcode == REFUSED and self.stale == 1):
                return True
            fields = bytes(self.data[5:size])
            del self.data[:size]
            if opcode == NOTICE:
                self.notices.append(int.from_bytes(fields, "big"))
            elif opcode == REFUSED and self.stale == 1:
                self.stale = 0
            elif opcode != TAKEN:
                self.late.pop(0)(opcode, fields)

    def pop(self) -> Tuple[int, bytes]:
        """The opcode and the fields of the answer in front."""
        size = self.front_size()
        opcode, fields = self.data[4], bytes(self.data[5:size])
        del self.data[:size]
        self.stale -= self.stale == 2
        return opcode, fields

    def take(self, wanted: int) -> bytes:
        """The fields of the answer in front; a refusal is raised."""
        return self.fields_of(self.pop(), wanted)

    def fields_of(self, answer: Tuple[int, bytes], wanted: int) -> bytes:
        opcode, fields = answer
        if opcode == REFUSED:
            rule = int.from_bytes(fields, "big")
            if not 1 <= rule <= len(NAMES):
                raise self.lose("the server sent what is no answer")
            raise refusal(rule)
        if opcode != wanted:
            raise self.lose("the server sent another call's answer")
        return fields
