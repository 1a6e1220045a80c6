"""One connection to a server on an event loop, over loop.add_reader."""
from __future__ import annotations

import asyncio
import socket
import time
from typing import Any, Callable, Optional

from . import _dial as dial, _waits as waits, _wire as wire
from ._again import Pauses, may_come
from ._errors import BusyError, ConnectionLost, Error, TooLate
from ._sessions import Server
from ._wire import OnLate

LOST = 0        # in place of an answer's opcode, where none will come


async def dialled(address: str) -> socket.socket:
    """A socket that is connected without a wait of the loop."""
    loop = asyncio.get_running_loop()
    path = dial.path_of(address)
    if path is not None:
        return await connected(socket.socket(socket.AF_UNIX), path)
    host, port = dial.place_of(address)
    error: Optional[OSError] = None
    for family, kind, protocol, _, place in await loop.getaddrinfo(host, port, type=socket.SOCK_STREAM):
        try:
            found = await connected(socket.socket(family, kind, protocol), place)
        except OSError as failed:
            error = failed
            continue
        dial.prepare(found)
        return found
    raise error or OSError(f"{host} has no address")


async def connected(made: socket.socket, place: object) -> socket.socket:
    dial.sockets.add(made)
    made.setblocking(False)
    try:
        while True:
            try:
                await asyncio.get_running_loop().sock_connect(made, place)      # type: ignore[arg-type]
                return made
            except BlockingIOError:     # a path at which many connections wait already
                await asyncio.sleep(waits.LAST_PAUSE_S)
    except BaseException:
        made.close()
        raise


class Link(wire.Frames):
    """A session. Requests are answered in their order, so many may be under way; each answer goes to what its request gave, with opcode
    LOST where the connection ends before."""

    def __init__(self, connected: socket.socket) -> None:
        super().__init__()
        self.socket, self.loop = connected, asyncio.get_running_loop()
        self.outgoing = bytearray()
        self.loop.add_reader(connected, self.read)

    @classmethod
    async def connect(cls, server: Server, seconds: float = 0.0) -> Link:
        """BusyError where the server has no worker, or doesn't answer in time. It is tried again for so many seconds."""
        pauses = Pauses(time.monotonic() + seconds)
        while True:
            try:
                return await cls._connect_in(server.patience, server)
            except (Error, OSError) as error:
                pause = pauses.next() if seconds and may_come(error) else 0.0
                if not pause:
                    raise
            await asyncio.sleep(pause)

    @classmethod
    async def _connect_in(cls, seconds: float, server: Server) -> Link:
        making = asyncio.get_running_loop().create_task(cls._connect(server))
        try:
            if await ends(making, seconds):
                return making.result()
            raise BusyError(dial.NO_WORKER)
        except BaseException:
            making.cancel()
            if making.done() and not making.cancelled() and making.exception() is None:
                making.result().close()     # it was made, and this task was cancelled before it went on
            raise

    @classmethod
    async def _connect(cls, server: Server) -> Link:
        link = cls(await dialled(server.address))
        try:
            hello = link.expect(wire.STARTED)
            if server.key is not None:
                link.send(wire.HELLO, wire.text(server.key))
            await hello
            await link.ask(wire.UMASK, b"\0\0", wire.MASK)
            return link
        except BaseException:
            link.close()
            raise

    # ---- Requests ----

    def request(self, opcode: int, fields: bytes, on_answer: OnLate) -> None:
        """Writes a request, whose answer goes there."""
        self.frame(opcode, fields)          # raises where it can't be written
        self.late.append(on_answer)
        self.send(opcode, fields)

    def send(self, opcode: int, fields: bytes) -> None:
        was_empty = not self.outgoing
        self.outgoing += self.frame(opcode, fields)
        if was_empty:
            self.write()

    def expect(self, wanted: int, late: OnLate = wire.ignore, seconds: Optional[float] = None) -> "asyncio.Future[bytes]":
        """The fields of the next answer that nobody else expects. `late` gets them where nobody waits any more, as after so many seconds."""
        future: "asyncio.Future[bytes]" = self.loop.create_future()

        def answered(opcode: int, fields: bytes) -> None:
            watch.cancel()
            if end is not None:
                end.cancel()
            if future.done():
                late(opcode, fields)
            elif opcode == LOST:
                future.set_exception(ConnectionLost(self.why))
            else:
                settle(future, lambda: self.fields_of((opcode, fields), wanted))
        watch = self.watch()
        end = None if seconds is None else self.loop.call_later(min(seconds, waits.LAST_DEADLINE_S), end_late, future)
        self.late.append(answered)
        return future

    def watch(self) -> asyncio.TimerHandle:
        """Ends the connection unless an answer comes in time, which is to end the watch."""
        return self.loop.call_later(waits.ANSWER_S, self.lose, "the server didn't answer in time")

    async def ask(self, opcode: int, fields: bytes, wanted: int, late: OnLate = wire.ignore, seconds: Optional[float] = None) -> bytes:
        """A call that is answered at once. `late` gets the answer where the task is cancelled, or TooLate is raised after so many seconds."""
        if not self.late and not self.lost:
            self.read()         # whether the server has ended it: what never left may be sent anew
        self.frame(opcode, fields)
        future = self.expect(wanted, late, seconds)
        self.send(opcode, fields)
        try:
            return await future
        except asyncio.CancelledError:
            if future.done() and not future.cancelled() and future.exception() is None:
                late(wanted, future.result())       # it was here, and the task was cancelled before it went on
            raise

    # ---- The socket ----

    def write(self) -> None:
        """Writes what the socket takes, and the rest once it takes more."""
        try:
            if self.outgoing:
                del self.outgoing[:self.socket.send(self.outgoing, dial.NO_SIGNAL)]
        except BlockingIOError:
            pass
        except OSError as error:
            self.loop.call_soon(self.lose, str(error))
            return
        if self.outgoing:
            self.loop.add_writer(self.socket, self.write)
        else:
            self.loop.remove_writer(self.socket)

    def read(self) -> None:
        try:
            piece = self.socket.recv(65536)
        except BlockingIOError:
            return
        except OSError as error:
            self.lose(str(error))
            return
        if not piece:
            self.lose("the server ended the connection")
            return
        self.data += piece
        try:
            if self.has_answer():
                self.lose("the server sent what is no answer")
        except ConnectionLost:
            pass        # of a frame that is none; who waits was told
        self.notices.clear()

    def close(self) -> None:
        if self.lost:
            return
        self.lost = True
        if not self.loop.is_closed():
            self.loop.remove_reader(self.socket)
            self.loop.remove_writer(self.socket)
        self.socket.close()
        expecting, self.late = self.late, []
        for on_answer in expecting:
            if self.loop.is_closed():
                break
            self.loop.call_soon(on_answer, LOST, b"")

    def __del__(self) -> None:
        self.socket.close()


async def ends(task: "asyncio.Task[Any]", seconds: float) -> bool:
    """Whether the task ends in time. asyncio.wait_for swallows a cancel that comes with the task's end, up to Python 3.11."""
    return bool((await asyncio.wait([task], timeout=seconds))[0])


def end_late(future: "asyncio.Future[bytes]") -> None:
    if not future.done():
        future.set_exception(TooLate("the server didn't answer in time"))


def settle(future: "asyncio.Future[bytes]", find: Callable[[], bytes]) -> None:
    """Ends a future with what is found, or with the error that is raised."""
    try:
        future.set_result(find())
    except (Error, OSError, ValueError) as error:
        future.set_exception(error)
