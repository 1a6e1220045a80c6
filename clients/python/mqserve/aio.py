"""Queues, semaphores and jobs for asyncio.

    import asyncio, mqserve, mqserve.aio

    async def work():
        async with mqserve.aio.AsyncQueue("/jobs", mqserve.O_CREAT) as queue:     # or: queue = await mqserve.aio.AsyncQueue(..)
            async for message, priority in queue:
                ...

    asyncio.run(work())

The server and the key are those of mqserve.use or of the variables. Errors, flags and limits are those of mqserve; an object belongs to
the event loop in which it was opened. All objects of a loop share a connection. One more belongs to an object once a receive or an acquire
has waited, and one once a send has.

Any task may be cancelled, by asyncio.timeout or wait_for too. A cancelled receive is withdrawn by an Interrupt; a message that came first
goes to the task that has waited longest, else the next receive returns it, and close sends it anew. A unit that a cancelled acquire
was given goes back. A send that is cancelled may have been sent: with `timeout` it is BusyError only where it wasn't.
"""
from __future__ import annotations

import asyncio
import collections
import contextlib
import struct
import time
import weakref
from concurrent.futures import Future, ThreadPoolExecutor
from typing import Any, AsyncIterator, Callable, Deque, Dict, Generator, List, Optional, Tuple, TypeVar, Union

import mqserve

from . import _dial as dial, _waits as waits, _wire as wire, jobs
from ._again import Pauses, may_come, unknown
from ._errors import BusyError, ConnectionLost, Error, ExistentialError, TooLate, rule_of
from ._lane import Lane
from ._link import Link, ends
from ._log import log
from ._sessions import Server

# What does no harm where it is made again.
SAFE = {wire.MQ_RECEIVE, wire.MQ_GETATTR, wire.SEM_GETVALUE}
Self = TypeVar("Self", bound="_Object")
Result = TypeVar("Result")


def _end_of(timeout: Optional[float]) -> Optional[float]:
    """The moment at which a call ends, by time.monotonic()."""
    if timeout is not None and not timeout >= 0:
        raise ValueError("the timeout must not be negative")
    return None if timeout is None else time.monotonic() + timeout


def _left(end: float) -> float:
    """How long the server's answer is awaited in a call with that end."""
    return max(0.0, min(end + waits.LAST_S - time.monotonic(), waits.LAST_DEADLINE_S))


def _final(why: str) -> ConnectionLost:
    """Where a new connection doesn't help, or none comes."""
    error = ConnectionLost(why)
    error.is_final = True
    return error


class _Home:
    """The connection that all objects of a loop share, for what is answered at once."""

    def __init__(self, server: Server) -> None:
        self.server, self.users = server, 0
        self.link: Optional[Link] = None
        self.making: "Optional[asyncio.Task[Link]]" = None

    async def get(self, is_opening: bool = False) -> Link:
        """The first task connects, and others that come meanwhile wait for it."""
        if self.link is not None and not self.link.lost:
            return self.link
        if self.making is None or self.making.done():
            self.making = asyncio.get_running_loop().create_task(self.make(is_opening))
            self.making.add_done_callback(lambda made: made.cancelled() or made.exception())     # who waited may be gone
        return await asyncio.shield(self.making)

    async def make(self, is_opening: bool) -> Link:
        if self.link is not None:
            log.warning("the connection to %s was lost: %s; it is made anew", self.server.address, self.link.why)
        self.link = await Link.connect(self.server, min(self.server.reconnect, self.server.patience) if is_opening else self.server.reconnect)
        log.info("connected to %s", self.server.address)
        link = self.link
        if not self.users:      # they gave up meanwhile
            self.end()
        return link

    def leave(self) -> None:
        self.users -= 1
        if not self.users:
            self.end()

    def end(self) -> None:
        if self.link is not None:
            self.link.close()
            self.link = None


_homes: "weakref.WeakKeyDictionary[asyncio.AbstractEventLoop, Dict[Server, _Home]]" = weakref.WeakKeyDictionary()


def _home_of(server: Server) -> _Home:
    homes = _homes.setdefault(asyncio.get_running_loop(), {})
    if server not in homes:
        homes[server] = _Home(server)
    return homes[server]


class _Held:
    """What an object has: it goes with the object, closed or dropped."""

    def __init__(self, home: _Home, closing: int) -> None:
        self.home, self.closing, self.loop = home, closing, asyncio.get_running_loop()
        self.link: Optional[Link] = None        # the home in which it is open
        self.description = b""
        self.links: List[Link] = []
        self.is_over = False
        home.users += 1

    def drop(self) -> None:
        """By any thread, amid anything."""
        with contextlib.suppress(RuntimeError):     # the loop has ended
            if not self.is_over:
                self.loop.call_soon_threadsafe(lambda: self.loop.create_task(self.end()))

    async def end(self) -> None:
        if self.is_over:
            return
        self.is_over = True
        for link in self.links:
            link.close()
        try:
            if self.link is not None and not self.link.lost:
                await self.link.ask(self.closing, self.description, wire.DONE)
        except (Error, OSError):
            pass        # it ended with the connection
        finally:
            self.home.leave()


class _Object:
    """What queues and semaphores have in common."""
    _CLOSE = _UNLINK = 0

    def __init__(self, name: Optional[str], flags: int, mode: int) -> None:
        if flags & mqserve.O_EXCL and not flags & mqserve.O_CREAT:
            raise ValueError("O_EXCL needs O_CREAT")
        self._given_name, self._flags, self._mode = name, flags, mode
        self._name = name or ""
        self.closed = self._is_gone = False
        self._held: Optional[_Held] = None
        self._opening_task: "Optional[asyncio.Task[None]]" = None
        self._lanes: List[Lane] = []
        self._ended: Optional[str] = None       # why it was lost for good
        self._coming_back: Optional[asyncio.Lock] = None

    def __await__(self: Self) -> Generator[Any, None, Self]:
        return self._ready().__await__()

    async def __aenter__(self: Self) -> Self:
        return await self._ready()

    async def __aexit__(self, *_: object) -> None:
        if not self.closed:
            await self.close()

    def __repr__(self) -> str:
        return f"mqserve.aio.{type(self).__name__}({self._name!r})"

    @property
    def name(self) -> str:
        """The name that it was opened by."""
        return self._name

    # ---- Opening ----

    def _opening(self, flags: int, mode: int) -> Tuple[int, bytes]:
        raise NotImplementedError

    async def _ready(self: Self) -> Self:
        """Opens it, where that is still to be done."""
        if self.closed:
            raise ExistentialError("it is closed")
        if self._held is None:
            await asyncio.shield(self._opened())
        return self

    def _opened(self) -> "asyncio.Task[None]":
        """The task that opens it, for all that wait for that."""
        if self._opening_task is None or self._opening_task.done() and self._held is None:
            self._opening_task = asyncio.get_running_loop().create_task(self._begin())
            self._opening_task.add_done_callback(lambda done: done.cancelled() or done.exception())     # who waited may be gone
        return self._opening_task

    async def _begin(self) -> None:
        held = _Held(_home_of(mqserve._current()), self._CLOSE)
        try:
            await self._create(held)
            await self._prepare(held)
        except BaseException:
            await held.end()
            raise
        weakref.finalize(self, held.drop).atexit = False
        self._held = held

    async def _create(self, held: _Held) -> None:
        flags = (wire.CREATE if self._flags & mqserve.O_CREAT else 0) | (wire.EXCLUSIVE if self._flags & mqserve.O_EXCL else 0)
        link = await held.home.get(True)
        while True:
            self._name = mqserve._made_up() if self._given_name is None else self._given_name
            try:
                held.description = await self._open_on(link, flags | wire.NONBLOCK, self._mode & 0o777 & ~mqserve._umask())
                held.link = link
                return
            except ExistentialError:
                if self._given_name is not None or not self._flags & mqserve.O_EXCL:
                    raise

    async def _prepare(self, held: _Held) -> None:
        """What a kind of object does once it is open."""

    async def _open_on(self, link: Link, flags: int = 0, mode: int = 0) -> bytes:
        def close_late(opcode: int, fields: bytes) -> None:
            if opcode == wire.OPENED and not link.lost:
                link.request(self._CLOSE, fields, wire.ignore)
        return await link.ask(*self._opening(flags, mode), wire.OPENED, close_late)

    async def _connect_lane(self) -> Tuple[Link, bytes]:
        """A further connection on which it is open."""
        held = self._held
        if held is None or self._is_gone:
            raise ExistentialError("its name was unlinked, and it has no further connection")
        link = await Link.connect(held.home.server, held.home.server.reconnect)
        try:
            description = await self._open_on(link)
        except BaseException:
            link.close()
            raise
        held.links = [one for one in held.links if not one.lost] + [link]
        return link, description

    # ---- Calls ----

    async def _ready_until(self, end: Optional[float]) -> None:
        """_ready, but where that takes longer than two seconds after the call's end."""
        if end is not None and self._held is None and not self.closed:
            opening = self._opened()
            if not await ends(opening, _left(end)):
                raise BusyError(dial.NO_WORKER)
            opening.result()
        await self._ready()

    async def _ask(self, opcode: int, fields: bytes, wanted: int, late: wire.OnLate = wire.ignore, end: Optional[float] = None) -> bytes:
        """A call that is answered at once, and until two seconds after its end. It is made again after a loss where that does no harm."""
        await self._ready()
        held = self._held
        assert held is not None
        reconnect = held.home.server.reconnect
        pauses = Pauses(time.monotonic() + (reconnect if end is None else min(reconnect, _left(end))))
        while True:
            try:
                link = await self._at_home(held, end)
                return await link.ask(opcode, held.description + fields, wanted, late, None if end is None else _left(end))
            except ConnectionLost as error:
                if not reconnect or error.is_final:
                    raise
                if not error.is_unsent and opcode not in SAFE:
                    raise unknown(error) from error
                pause = pauses.next()
                if not pause:
                    raise
                if opcode == wire.MQ_RECEIVE and not error.is_unsent:
                    self._count_repeat()
            await asyncio.sleep(pause)

    async def _at_home(self, held: _Held, end: Optional[float]) -> Link:
        """The shared connection, on which it is open."""
        if self.closed:
            raise ExistentialError("it is closed")
        if held.link is not None and not held.link.lost:
            return held.link
        coming = asyncio.get_running_loop().create_task(self._come_back(held))
        coming.add_done_callback(lambda done: done.cancelled() or done.exception())     # who waited may be gone
        if end is not None and not await ends(coming, _left(end)):
            raise _final("no connection came in time")
        return await asyncio.shield(coming)

    def _count_repeat(self) -> None:
        """A receive was made again that may have been done before."""

    async def _come_back(self, held: _Held) -> Link:
        """After a loss: the shared connection, and the object by its name."""
        if self._coming_back is None:
            self._coming_back = asyncio.Lock()
        async with self._coming_back:
            if held.link is not None and not held.link.lost:
                return held.link        # another task's
            if not held.home.server.reconnect or self._is_gone or self._ended:
                raise _final(self._ended or "it was open on a connection that was lost")
            try:
                link = await held.home.get()
                held.description = await self._open_on(link, wire.NONBLOCK)
            except ExistentialError as error:
                if rule_of(error) == wire.ABSENT:
                    self._ended = "its name was gone when the connection was made anew"
                raise
            except (Error, OSError) as error:
                if isinstance(error, ConnectionLost) or not may_come(error):
                    raise
                raise _final(f"no connection came in time: {error}") from error
            held.link = link
            log.info("%r was opened anew by its name", self)
            await self._learn(held)
            return link

    async def _learn(self, held: _Held) -> None:
        """What may be other than before where a name was opened anew."""

    async def _attempt(self, opcode: int, fields: bytes, wanted: int, end: Optional[float], late: wire.OnLate = wire.ignore) -> Optional[bytes]:
        """None where the call would block."""
        try:
            return await self._ask(opcode, fields, wanted, late, end)
        except BusyError as error:
            if rule_of(error) != wire.WOULD_BLOCK:
                raise
            return None

    async def unlink(self) -> None:
        """Removes the name. What is open stays usable."""
        await self._ready()
        for lane in self._lanes:        # by the name they couldn't be opened any more
            if not lane.is_ready() and lane.starting is None:
                lane.starting = lane.loop.create_task(lane.start())
        await asyncio.gather(*(lane.starting for lane in self._lanes if lane.starting is not None), return_exceptions=True)
        await self._remove()
        self._is_gone = True

    async def _remove(self) -> None:
        """Where it is made again after a loss and the name is gone, the first try has removed it."""
        assert self._held is not None
        home, is_repeated = self._held.home, False
        pauses = Pauses(time.monotonic() + home.server.reconnect)
        while True:
            try:
                await (await home.get()).ask(self._UNLINK, wire.text(self._name), wire.DONE)
                return
            except ConnectionLost as error:
                pause = pauses.next() if home.server.reconnect else 0.0
                if not pause:
                    raise
                is_repeated = is_repeated or not error.is_unsent
            except ExistentialError as error:
                if not is_repeated or rule_of(error) != wire.ABSENT:
                    raise
                return
            await asyncio.sleep(pause)

    async def close(self) -> None:
        """Closes it. Calls of other tasks that wait on it end with ExistentialError."""
        if self.closed:
            raise ExistentialError("it is closed")
        self.closed = True
        if self._held is None and self._opening_task is not None:
            self._opening_task.cancel()
        try:
            await asyncio.gather(*(lane.close() for lane in self._lanes))
            await self._give_back()
        finally:
            if self._held is not None:
                await self._held.end()

    async def _give_back(self) -> None:
        """What was kept for calls that won't come."""


class AsyncQueue(_Object):
    """A message queue, as mqserve.MessageQueue."""
    _CLOSE, _UNLINK = wire.MQ_CLOSE, wire.MQ_UNLINK

    def __init__(self, name: Optional[str], flags: int = 0, mode: int = 0o600, max_messages: int = mqserve.QUEUE_MESSAGES_MAX_DEFAULT,
                 max_message_size: int = mqserve.QUEUE_MESSAGE_SIZE_MAX_DEFAULT, read: bool = True, write: bool = True) -> None:
        if not read and not write:
            raise ValueError("read or write, or both")
        if not 0 <= max_messages < 1 << 32 or not 0 <= max_message_size < 1 << 32:
            raise ValueError("an attribute is out of range")
        super().__init__(name, flags, mode)
        self._access, self._wanted = (1 if read else 0) | (2 if write else 0), (max_messages, max_message_size)
        self._kept: Deque[bytes] = collections.deque()      # messages that came first where receives were cancelled
        self._room = self._max_messages = 0
        self.receives_repeated = 0
        """How often a receive was made again after its connection was lost. Each time a message may be lost."""

    def _opening(self, flags: int, mode: int) -> Tuple[int, bytes]:
        given = struct.pack(">BII", 1, *self._wanted) if flags & wire.CREATE else b"\0"
        return wire.MQ_OPEN, wire.text(self._name) + struct.pack(">BBH", self._access, flags, mode) + given

    async def _learn(self, held: _Held) -> None:
        assert held.link is not None
        answer = await held.link.ask(wire.MQ_GETATTR, held.description, wire.ATTRS)
        _, self._max_messages, self._room, _ = struct.unpack(">BIII", answer)
        held.link.room = max(held.link.room, self._room)

    def _count_repeat(self) -> None:
        self.receives_repeated += 1
        log.warning("a receive from %r is made again: a message may be lost", self)

    async def _prepare(self, held: _Held) -> None:
        await self._learn(held)
        self._receives = Lane(wire.MQ_RECEIVE, wire.RECEIVED, "the queue is empty", self._connect_lane, self._kept.append)
        self._sends = Lane(wire.MQ_SEND, wire.SENT, "the queue is full", self._connect_lane)
        self._receives.goes_on = self._sends.goes_on = held.home.server.reconnect > 0
        self._receives.on_repeat = self._count_repeat
        self._lanes = [self._receives] * (self._access & 1) + [self._sends] * (self._access >> 1)

    async def _connect_lane(self) -> Tuple[Link, bytes]:
        link, description = await super()._connect_lane()
        link.room = self._room
        return link, description

    @property
    def max_messages(self) -> int:
        return self._max_messages

    @property
    def max_message_size(self) -> int:
        return self._room

    async def current_messages(self) -> int:
        return int.from_bytes((await self._ask(wire.MQ_GETATTR, b"", wire.ATTRS))[9:], "big")

    async def send(self, message: Union[str, bytes], timeout: Optional[float] = None, priority: int = 0) -> None:
        """Sends; a str goes as UTF-8. Waits while the queue is full, at most `timeout` seconds."""
        data = wire.data(message)
        if not 0 <= priority <= mqserve.QUEUE_PRIORITY_MAX:
            raise ValueError("the priority is out of range")
        end, fields = _end_of(timeout), struct.pack(">I", priority) + data
        await self._ready_until(end)
        try:
            if not self._sends.waiting and await self._attempt(wire.MQ_SEND, fields, wire.SENT, end) is not None:
                return
        except TooLate as error:
            raise unknown(error) from None
        if timeout == 0:
            raise BusyError("the queue is full")
        await self._sends.call(fields, None if end is None else max(0.0, end - time.monotonic()))

    async def receive(self, timeout: Optional[float] = None) -> Tuple[bytes, int]:
        """The oldest message of the greatest priority, and that priority. Waits while the queue is empty, at most `timeout` seconds."""
        answer = await self._receive(timeout, _end_of(timeout))
        return answer[4:], struct.unpack(">I", answer[:4])[0]

    async def _receive(self, timeout: Optional[float], end: Optional[float]) -> bytes:
        await self._ready_until(end)
        if self._kept:
            return self._kept.popleft()
        fields = struct.pack(">I", self._room)
        if timeout == 0 or not self._receives.is_ready():
            answer = await self._attempt(wire.MQ_RECEIVE, fields, wire.RECEIVED, end, self._take_late)
            if answer is not None:
                return answer
            if timeout == 0:
                raise BusyError("the queue is empty")
        return await self._receives.call(fields, None if end is None else max(0.0, end - time.monotonic()))

    def _take_late(self, opcode: int, fields: bytes) -> None:
        if opcode == wire.RECEIVED:
            self._receives.offer(fields)

    async def __aiter__(self) -> AsyncIterator[Tuple[bytes, int]]:
        """Receives until the queue is closed, which another task may do."""
        while not self.closed:
            try:
                received = await self.receive()
            except ExistentialError:
                if self.closed:
                    return
                raise
            yield received

    async def _give_back(self) -> None:
        held = self._held
        while self._kept:
            try:
                if held is None or held.link is None:
                    raise ConnectionLost("it isn't open")
                await held.link.ask(wire.MQ_SEND, held.description + self._kept[0], wire.SENT)
            except (Error, OSError, ValueError) as error:
                log.warning("%r was closed with %d messages of cancelled receives, which are lost: %s", self, len(self._kept), error)
                return
            self._kept.popleft()


class AsyncSemaphore(_Object):
    """A named semaphore, as mqserve.Semaphore. `async with` acquires it and releases it."""
    _CLOSE, _UNLINK = wire.SEM_CLOSE, wire.SEM_UNLINK

    def __init__(self, name: Optional[str], flags: int = 0, mode: int = 0o600, initial_value: int = 0) -> None:
        if not 0 <= initial_value < 1 << 32:
            raise ValueError("the initial value is out of range")
        super().__init__(name, flags, mode)
        self._initial_value = initial_value

    def _opening(self, flags: int, mode: int) -> Tuple[int, bytes]:
        return wire.SEM_OPEN, wire.text(self._name) + struct.pack(">BHI", flags & ~wire.NONBLOCK, mode, self._initial_value)

    async def _prepare(self, held: _Held) -> None:
        self._waits = Lane(wire.SEM_WAIT, wire.DONE, "the semaphore is 0", self._connect_lane, self._post_back)
        self._waits.goes_on = held.home.server.reconnect > 0
        self._lanes = [self._waits]

    def _post_back(self, _: bytes) -> None:
        """Of a wait that was cancelled."""
        held = self._held
        if held is not None and held.link is not None and not held.link.lost:
            held.link.request(wire.SEM_POST, held.description, wire.ignore)

    def _take_late(self, opcode: int, fields: bytes) -> None:
        if opcode == wire.DONE:
            self._waits.offer(fields)

    async def acquire(self, timeout: Optional[float] = None) -> None:
        """Waits until the value is above 0, and lowers it. BusyError after `timeout` seconds; None: never."""
        end = _end_of(timeout)
        await self._ready_until(end)
        if timeout == 0 or not self._waits.is_ready():
            if await self._attempt(wire.SEM_TRYWAIT, b"", wire.DONE, end, self._take_late) is not None:
                return
            if timeout == 0:
                raise BusyError("the semaphore is 0")
        await self._waits.call(b"", None if end is None else max(0.0, end - time.monotonic()))

    async def release(self) -> None:
        """Raises the value, or ends the longest wait."""
        await self._ask(wire.SEM_POST, b"", wire.DONE)

    async def value(self) -> int:
        """The value; 0 while calls wait."""
        return int.from_bytes(await self._ask(wire.SEM_GETVALUE, b"", wire.VALUE), "big")

    async def __aenter__(self) -> AsyncSemaphore:
        await self.acquire()
        return self

    async def __aexit__(self, *_: object) -> None:
        await self.release()


class AsyncJob:
    """A job that was taken, as mqserve.jobs.Job."""

    def __init__(self, pool: AsyncJobs, job: jobs.Job) -> None:
        self._pool, self._job = pool, job
        self.name, self.data, self.tries_left = job.name, job.data, job.tries_left

    async def done(self) -> None:
        """The work is done: the job is over."""
        await self._pool._call(self._job.done)

    async def give_back(self) -> None:
        """The work wasn't done: the job comes again, if it has tries left."""
        await self._pool._call(self._job.give_back)

    async def __aenter__(self) -> AsyncJob:
        return self

    async def __aexit__(self, *error: object) -> None:
        await self._pool._call(lambda: self._job.__exit__(*error))


class AsyncJobs:
    """A pool, as mqserve.jobs.Jobs. A thread of its own makes the calls that are answered at once, one at a time, each of which ends by
    itself; a task that waits for a job waits on the loop. The next take returns a job that a cancelled one got."""

    def __init__(self, name: str, tries: int = 3, look: float = 1.0) -> None:
        self._given = name, tries, look
        self._thread = ThreadPoolExecutor(1, "mqserve-jobs")
        self._jobs: Optional[jobs.Jobs] = None
        self._tokens = AsyncQueue(name, write=False)
        self._kept: Deque[jobs.Job] = collections.deque()
        self.name, self.closed = name, False

    def __await__(self) -> Generator[Any, None, AsyncJobs]:
        return self.__aenter__().__await__()

    async def __aenter__(self) -> AsyncJobs:
        await self._pool()
        return self

    async def __aexit__(self, *_: object) -> None:
        await self.close()

    async def _call(self, call: Callable[[], Result], late: Callable[[Result], None] = lambda _: None) -> Result:
        """Makes the call by the thread. `late` gets the result where the task was cancelled meanwhile."""
        if self.closed:
            raise ExistentialError("it is closed")
        under_way = self._thread.submit(call)
        try:
            return await asyncio.wrap_future(under_way)
        except asyncio.CancelledError:
            def keep(ended: "Future[Result]") -> None:
                if not ended.cancelled() and ended.exception() is None:
                    late(ended.result())
            under_way.add_done_callback(keep)
            raise

    async def _pool(self) -> jobs.Jobs:
        if self._jobs is None:
            def begin() -> jobs.Jobs:
                if self._jobs is None:
                    self._jobs = jobs.Jobs(*self._given)
                return self._jobs
            await self._call(begin)
        assert self._jobs is not None
        return self._jobs

    async def put(self, data: Union[str, bytes]) -> str:
        """Puts a job, and returns its name."""
        pool = await self._pool()
        return await self._call(lambda: pool.put(data))

    async def take(self, timeout: Optional[float] = None) -> AsyncJob:
        """A job, which is claimed until it is done or given back, or the connection ends. BusyError after `timeout` seconds."""
        end = _end_of(timeout)
        pool = await self._pool()
        while True:
            is_last = end is not None and time.monotonic() >= end
            job = self._kept.popleft() if self._kept else await self._call(lambda: pool._take_free(is_last), self._keep)
            if job is None and not is_last:
                job = await self._take_next(pool, waits.earlier(end, pool._look_at))
            if job is not None:
                return AsyncJob(self, job)
            if is_last:
                raise BusyError("there is no job")

    async def _take_next(self, pool: jobs.Jobs, until: float) -> Optional[jobs.Job]:
        """The job of the next token that comes until this moment, or None."""
        try:
            token, _ = await self._tokens.receive(max(0.0, until - time.monotonic()))
        except BusyError:
            return None
        except (ConnectionLost, ExistentialError, OSError):     # the pool's own connection tells what it is
            if self.closed:
                raise
            self._tokens = AsyncQueue(self.name, write=False)
            await asyncio.sleep(jobs._NO_WAITER_S)
            return None
        return await self._call(lambda: pool._claim_by(token), self._keep)

    def _keep(self, job: Optional[jobs.Job]) -> None:
        if job is not None:
            self._kept.append(job)

    async def pending(self) -> int:
        """How many jobs there are."""
        pool = await self._pool()
        return await self._call(pool.pending)

    async def dead(self) -> List[str]:
        """The names of the dead jobs."""
        pool = await self._pool()
        return await self._call(pool.dead)

    async def bury(self, name: str) -> bytes:
        """Ends a dead job, and returns its data."""
        pool = await self._pool()
        return await self._call(lambda: pool.bury(name))

    async def revive(self, name: str) -> str:
        """Puts a dead job's data as a new job, and returns its name."""
        pool = await self._pool()
        return await self._call(lambda: pool.revive(name))

    async def sweep(self) -> int:
        """Removes what putters that were killed left behind."""
        pool = await self._pool()
        return await self._call(pool.sweep)

    async def close(self) -> None:
        """Ends its connections. Jobs that were taken come again."""
        if self.closed:
            return
        pool = self._jobs
        if pool is not None:
            await self._call(pool.close)
        self.closed = True
        if not self._tokens.closed:
            await self._tokens.close()
        self._thread.shutdown(wait=False)
