"""One connection to a server."""
from __future__ import annotations

import collections
import contextlib
import math
import select
import socket
import time
from typing import Any, Deque, Dict, Optional, Tuple, Union

from . import _dial as dial, _waits as waits, _wire as wire
from ._errors import BusyError, ConnectionLost, TooLate, rule_of
from ._wire import OnLate

UNASKED_MOST = 16           # how many pieces that came unasked are read before a request
UNWOKEN_S = 0.5             # where no file was left to be woken by, a call looks so often whether it was


class Reference:
    """What stays of an object that the program dropped, until it is closed on each connection."""

    def __init__(self, closing: int) -> None:
        self.closing = closing
        self.kept: Deque[bytes] = collections.deque()       # messages that came after the ends of their receives


class Call:
    """A call by description that may block: its opcodes at home, on a side and with a deadline, its fields before a deadline and after
    it, and its answer."""

    def __init__(self, opcodes: Tuple[int, int, int], head: bytes, rest: bytes, answer: int) -> None:
        self.at_home, self.opcode, self.timed = opcodes
        self.head, self.rest, self.answer = head, rest, answer


class Connection(wire.Frames):
    """One connection, one session, for one thread at a time."""

    def __init__(self, address: str, key: Optional[str], seconds: float, shared_clock: Optional[bool] = None) -> None:
        super().__init__()
        seconds = waits.within(seconds)
        self.socket = dial.dial(address, max(seconds, 0.001))
        self.socket.setblocking(False)
        self.poll = select.poll()       # which knows each number of a file, as select doesn't
        self.poll.register(self.socket, select.POLLIN)
        self.shared_clock = dial.is_here(self.socket) if shared_clock is None else shared_clock
        self.user: Any = None   # the object whose call blocks here
        self.waker: Optional[Tuple[socket.socket, socket.socket]] = None
        self.is_woken = False
        self.amid = False       # a call is being answered at once: a signal's handler that asks here would take its answer
        self.late_until = 0.0
        self.opened: Dict[Reference, int] = {}
        self.bound = seconds
        try:
            if key is not None:
                self.write(wire.HELLO, wire.text(key))
            self.await_answer()
            self.take(wire.STARTED)
            self.bound = waits.ANSWER_S
            self.ask(wire.UMASK, b"\0\0", wire.MASK)
        except BaseException as error:
            self.close()
            if isinstance(error, TooLate) or isinstance(error.__cause__, TimeoutError):
                raise BusyError(dial.NO_WORKER) from None
            raise

    def close(self) -> None:
        """Closes this process's copy of the socket."""
        self.lost = True
        self.socket.close()
        for end in self.waker or ():
            end.close()

    def begin_for(self, user: Any) -> None:
        """Before a call of this object that may block."""
        self.user, self.is_woken = user, False
        if self.waker is None:
            self.waker = dial.pair()
            if self.waker is not None:
                self.poll.register(self.waker[0], select.POLLIN)

    def wake(self) -> None:
        """Ends the call that blocks here, by another thread."""
        self.is_woken = True
        with contextlib.suppress(OSError):      # woken already, or it ended
            if self.waker:
                self.waker[1].send(b"\0")

    def write(self, opcode: int, fields: bytes = b"") -> None:
        self.write_frame(self.frame(opcode, fields))

    def write_frame(self, frame: bytes) -> None:
        try:
            sent = self.send_some(frame)
            if sent < len(frame):
                self.write_rest(frame, sent)
        except OSError as error:    # the system didn't take the frame as a whole
            raise self.lose(str(error), is_unsent=True) from error
        except BaseException:   # a signal's handler raised, and a part of the frame may have left
            self.close()
            raise

    def send_some(self, piece: Union[bytes, memoryview]) -> int:
        try:
            return self.socket.send(piece, dial.NO_SIGNAL)
        except BlockingIOError:
            return 0

    def write_rest(self, frame: bytes, sent: int) -> None:
        """Writes what the system didn't take at once, within the bound of an answer."""
        end, poll = time.monotonic() + waits.within(self.bound), select.poll()
        poll.register(self.socket, select.POLLOUT)
        while sent < len(frame):
            left = end - time.monotonic()
            if left <= 0:
                raise TimeoutError("the server doesn't read")
            poll.poll(math.ceil(left * 1000))
            sent += self.send_some(memoryview(frame)[sent:])

    def read_some(self, end: Optional[float]) -> bool:
        """Reads what comes until a moment of time.monotonic(). False if nothing came."""
        file = self.socket.fileno()
        if file < 0:
            raise self.lose("the connection was closed")    # by another thread, amid the call
        left = None if end is None else math.ceil(1000 * min(max(0.0, end - time.monotonic()), waits.LONGEST_S)) if end else 0
        found = self.poll.poll(left)
        if not found:
            return False
        if self.waker is not None and all(ready != file for ready, _ in found):
            self.waker[0].recv(64)
            return False
        try:
            piece = self.socket.recv(65536)
        except BlockingIOError:
            return False
        except OSError as error:
            raise self.lose(str(error)) from error
        if not piece:
            raise self.lose("the server ended the connection")
        self.data += piece
        return True

    def is_alive(self) -> bool:
        """Looks for the end of the stream before a request is written: what never left may be sent anew. Takes what came late or unasked."""
        if not self.lost and not self.late and not self.poll.poll(0):
            return True
        try:
            for _ in range(UNASKED_MOST):
                if self.lost or not self.read_some(0):
                    break
                self.has_answer()
            if self.late and not self.lost and time.monotonic() >= self.late_until:
                self.lose("the server didn't answer in time")
        except ConnectionLost:
            pass
        return not self.lost

    def settle(self) -> None:
        """Waits for late answers, so that no more than one request of a call that ended is under way."""
        while self.late:
            end = waits.earlier(waits.limit.end, self.late_until)
            if not self.has_answer() and self.late and not self.read_some(end) and time.monotonic() >= end:
                if end < self.late_until:
                    raise TooLate("the server didn't answer in time")
                raise self.lose("the server didn't answer in time", TimeoutError(), is_unsent=True)

    def expect_late(self, *late: OnLate) -> None:
        """The next answers are those of calls that have ended. They may take as long as any answer."""
        self.late += late
        self.late_until = time.monotonic() + self.bound

    def await_answer(self) -> None:
        """TooLate where the call's end comes before the bound of an answer."""
        bound = time.monotonic() + self.bound
        end = waits.earlier(waits.limit.end, bound)
        while not self.has_answer():
            if time.monotonic() >= end or not self.read_some(end) and time.monotonic() >= end:
                if end < bound:
                    raise TooLate("the server didn't answer in time")
                raise self.lose("the server didn't answer in time", TimeoutError())

    def ask(self, opcode: int, fields: bytes, wanted: int, late: OnLate = wire.ignore, room: int = 0) -> bytes:
        """A call that is answered at once. `late` gets the answer where the call has ended before. `room`: the bytes of a message in it."""
        if self.amid:
            raise BusyError("a signal's handler came amid a call of another one")
        frame, answer, is_late = self.frame(opcode, fields), None, False
        try:
            self.amid = True
            self.settle()
            self.room = room or self.room
            self.write_frame(frame)
            is_late = True
            self.await_answer()
            answer = self.pop()
        except TooLate:
            if is_late:
                self.expect_late(late)
            raise
        except BaseException:       # a signal's handler raised: what comes later would be taken for another call's answer
            self.close()
            raise
        finally:
            self.amid = False
        return self.fields_of(answer, wanted)

    def put_aside(self) -> None:
        """Puts aside the notices that came behind an answer."""
        try:
            self.amid = True
            self.has_answer()
        finally:
            self.amid = False

    def ask_until(self, call: Call, description: bytes, until: Optional[float], late: OnLate = wire.ignore) -> Optional[bytes]:
        """A call that may block, until a moment of time.monotonic(), or None. None if the moment came first. `late` gets what came too late."""
        if until is not None and self.shared_clock:
            answer = self.ask_timed(call, description, until, late)
            if answer is not None or self.is_woken or time.monotonic() >= until:
                return answer
        return self.ask_blocking(call.opcode, description + call.head + call.rest, call.answer, until, late)

    def ask_timed(self, call: Call, description: bytes, until: float, late: OnLate) -> Optional[bytes]:
        """The same where the server has the moment. Where it ends the call before that, or much later, its clock isn't this machine's: this
        side keeps the moments that follow."""
        fields = description + call.head + waits.deadline(until) + call.rest
        try:
            answer = self.ask_blocking(call.timed, fields, call.answer, until + waits.LATE_S, late)
            self.shared_clock = answer is not None or self.is_woken
        except BusyError as error:
            if rule_of(error) != wire.TIMED_OUT:
                raise
            answer, self.shared_clock = None, time.monotonic() >= until
        return answer

    def ask_blocking(self, opcode: int, fields: bytes, wanted: int, end: Optional[float], late: OnLate = wire.ignore) -> Optional[bytes]:
        """A call that is withdrawn where it has no answer at its end. None then."""
        self.settle()
        self.write(opcode, fields)
        try:
            while not self.has_answer() and not self.is_woken and (end is None or time.monotonic() < end):
                self.read_some(end if self.waker else waits.earlier(end, time.monotonic() + UNWOKEN_S))
        except ConnectionLost:
            raise
        except BaseException:   # a signal's handler raised
            if self.stop(late):
                late(*self.pop())
            raise
        return self.take(wanted) if self.has_answer() or self.stop(late) else None

    def stop(self, late: OnLate) -> bool:
        """Withdraws the call. True if its answer came first, and is still to be taken."""
        coming = [late, wire.ignore]
        try:
            self.write(wire.INTERRUPT)
            self.await_answer()
            if self.data[4] != wire.INTERRUPTED:
                self.stale = 2
                return True
            self.take(wire.INTERRUPTED)
            coming.pop(0)
            self.await_answer()
            self.take(wire.DONE)
        except TooLate:
            self.expect_late(*coming)
            raise
        except BaseException:   # of a signal's handler too: answers that come later would be taken for another call's
            self.close()
            raise
        return False
