"""The calls of one object that may block, on an event loop: one at a time, on a connection of their own."""
from __future__ import annotations

import asyncio
import collections
from typing import Any, Callable, Deque, Optional

from . import _waits as waits, _wire as wire
from ._again import unknown
from ._errors import BusyError, ConnectionLost, Error, ExistentialError
from ._link import LOST, Link, settle


class Waiter:
    """A call that waits for its turn or for its answer."""

    def __init__(self, future: "asyncio.Future[bytes]", fields: bytes) -> None:
        self.future, self.fields, self.is_expired = future, fields, False


class Lane:
    """`connect` gives a link on which the object is open. Where answers are alike, as messages, each goes to who has waited longest, whoever's
    request it answers; one that nobody waits for any more goes to `keep`. The other calls, as sends, have their own answers. After a loss a call
    is made again where it is told to `on_repeat`."""
    goes_on = False         # whether it connects anew after a loss
    on_repeat: Optional[Callable[[], None]] = None

    def __init__(self, opcode: int, wanted: int, busy: str, connect: Callable[[], Any], keep: Optional[Callable[[bytes], None]] = None) -> None:
        self.opcode, self.wanted, self.busy, self.connect, self.keep = opcode, wanted, busy, connect, keep
        self.loop = asyncio.get_running_loop()
        self.waiting: Deque[Waiter] = collections.deque()
        self.link: Optional[Link] = None
        self.description = b""
        self.starting: "Optional[asyncio.Task[None]]" = None
        self.parked: Optional[Waiter] = None        # whose request is under way
        self.is_withdrawing = self.is_closed = False
        self.idle: "Optional[asyncio.Future[None]]" = None

    def is_ready(self) -> bool:
        return self.link is not None and not self.link.lost

    async def call(self, fields: bytes, timeout: Optional[float]) -> bytes:
        """The answer. BusyError after the timeout: then the call had no effect, and what the server gave meanwhile is kept."""
        if self.is_closed:
            raise ExistentialError("it is closed")
        waiter = Waiter(self.loop.create_future(), fields)
        self.waiting.append(waiter)
        self.advance()
        ending = None if timeout is None else self.loop.call_later(min(timeout, waits.LAST_DEADLINE_S), self.expire, waiter)
        try:
            return await waiter.future
        except asyncio.CancelledError:
            self.hand_on(waiter.future)
            raise
        finally:
            if ending is not None:
                ending.cancel()
            self.leave(waiter)

    def hand_on(self, future: "asyncio.Future[bytes]") -> None:
        """The answer of a task that was cancelled after it came, and before the task went on."""
        if self.keep and future.done() and not future.cancelled() and future.exception() is None:
            self.offer(future.result())

    def live(self) -> Optional[Waiter]:
        """Who has waited longest."""
        return next((waiter for waiter in self.waiting if not waiter.future.done() and not waiter.is_expired), None)

    def offer(self, answer: bytes) -> None:
        waiter = self.live()
        if waiter is not None:
            waiter.future.set_result(answer)
        elif self.keep:
            self.keep(answer)

    def expire(self, waiter: Waiter) -> None:
        """A call's moment has come. Where its answer is its own, the Interrupt's answer says what it is."""
        if waiter is self.parked and not self.keep:
            waiter.is_expired = True
            self.withdraw()
            self.loop.call_later(waits.LAST_S, self.give_up, waiter)
        elif not waiter.future.done():
            waiter.future.set_exception(BusyError(self.busy))

    @staticmethod
    def give_up(waiter: Waiter) -> None:
        if not waiter.future.done():
            waiter.future.set_exception(ConnectionLost("the server didn't answer in time: unknown whether it was done"))

    def leave(self, waiter: Waiter) -> None:
        if waiter in self.waiting:
            self.waiting.remove(waiter)
        if self.parked and (self.live() is None if self.keep else self.parked.future.done()):
            self.withdraw()

    def withdraw(self) -> None:
        if self.parked and self.link and not self.link.lost and not self.is_withdrawing:
            self.is_withdrawing = True
            watch = self.link.watch()
            self.link.request(wire.INTERRUPT, b"", lambda *_: watch.cancel())

    def advance(self) -> None:
        """Asks for who has waited longest, where nothing is under way."""
        waiter = self.live()
        if waiter is None or self.parked or self.is_closed:
            return
        if self.link is not None and not self.link.lost:
            self.parked = waiter
            self.link.request(self.opcode, self.description + waiter.fields, self.answered)
        elif self.starting is None:
            self.starting = self.loop.create_task(self.start())

    async def start(self) -> None:
        try:
            self.link, self.description = await self.connect()
        except (Error, OSError, ValueError) as error:
            self.fail(error)
        finally:
            self.starting = None
        self.advance()

    def fail(self, error: Exception) -> None:
        for waiter in list(self.waiting):
            if not waiter.future.done():
                waiter.future.set_exception(error)

    def answered(self, opcode: int, fields: bytes) -> None:
        waiter, link = self.parked, self.link
        assert waiter is not None and link is not None
        self.parked, self.is_withdrawing = None, False
        if self.idle is not None and not self.idle.done():
            self.idle.set_result(None)
        if opcode == LOST:
            self.link = None
            self.lose(waiter, ConnectionLost(link.why))
        elif opcode == self.wanted and self.keep:
            self.offer(fields)
        elif opcode != wire.INTERRUPTED:
            self.end(waiter, lambda: link.fields_of((opcode, fields), self.wanted))
        elif waiter.is_expired and not waiter.future.done():
            waiter.future.set_exception(BusyError(self.busy))
        self.advance()

    def lose(self, waiter: Waiter, error: ConnectionLost) -> None:
        """The connection was lost amid this call. The others that wait were never asked."""
        if not self.goes_on or self.is_closed:
            self.fail(error)
        elif self.on_repeat is not None:
            self.on_repeat()
        elif not waiter.future.done():
            waiter.future.set_exception(unknown(error))

    def end(self, waiter: Waiter, find: Callable[[], bytes]) -> None:
        """Ends a call with its own answer, or with a refusal, which is that of who has waited longest where answers are alike."""
        ended = self.live() if self.keep else waiter
        if ended is not None and not ended.future.done():
            settle(ended.future, find)

    async def close(self) -> None:
        """Withdraws what is under way. Who waits then has ExistentialError, but for who gets what came first."""
        self.is_closed = True
        if self.starting is not None:
            self.starting.cancel()
        if self.parked is not None:
            self.idle = self.loop.create_future()
            self.withdraw()
            await asyncio.wait([self.idle], timeout=waits.LAST_S)
        self.fail(ExistentialError("it was closed meanwhile"))
        if self.link is not None:
            self.link.close()
