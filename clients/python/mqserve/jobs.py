"""Jobs that come again: a pool loses none where a worker, or who puts them, is killed at any moment. Each is done at least once.

    import mqserve, mqserve.jobs, sys
    mqserve.use("127.0.0.1:7000", "ka1")            # or the variables MQSERVE and MQSERVE_KEY or MQSERVE_KEY_FILE
    jobs = mqserve.jobs.Jobs("/render")
    for path in sys.argv[1:]:                       # with words it puts them
        jobs.put(path)
    while not sys.argv[1:]:                         # without it is a worker; start as many as you like
        with jobs.take() as job:                    # waits for a job
            render(job.data.decode())               # killed here: another worker gets the job
        # behind the block the job is over; an exception in it gives the job back

A job is a queue of its own beside the pool's, with copies of its data: nobody has to live for it. A worker claims it by the queue's
registration, which ends with the session, however the process ends. Each try takes a copy. Where two are left the job is dead: it waits
for bury or revive. clients/c/jobs.c does the same, so workers in C and Python share a pool; docs/dev/clients.md says why none is lost.

All of a pool's processes are of one user, whose pool it is, or of user 0. Threads may share a Jobs object. It has a connection of its
own, and a second one once a take has waited. A child of fork connects anew; jobs that were taken stay the parent's. Errors are those of
mqserve. After ConnectionLost, or where a signal's handler raised amid a call, the next call connects anew, for as long as mqserve.use or
MQSERVE_RECONNECT says where no server is there; so does a call that finds its connection ended. A job that was taken before comes again,
though its work goes on. Where a handler raised just before a call, as in the moment in which a job was to be over, or just behind it,
nothing ends, and a job may stay taken that nobody has: call close then. A handler's own call is BusyError where it comes amid another's
request.
"""
from __future__ import annotations

import contextlib
import os
import random
import re
import struct
import threading
import time
import weakref
from typing import Callable, Iterator, List, NamedTuple, Optional, Tuple, Union

import mqserve

from . import _connection as connection, _errors as errors, _waits as waits, _wire as wire
from ._again import tried
from ._log import log

_READ, _WRITE, _BOTH = 1, 2, 3
_CREATE, _EXCLUSIVE, _NONBLOCK = wire.CREATE, wire.EXCLUSIVE, wire.NONBLOCK
_PUTTING, _READY, _DEAD = 0o200, 0o600, 0o400       # the modes of a job's queue
_SPARE = 2                                          # copies that workers leave: one for revive, and one that stays meanwhile
_ABSENT, _PRESENT, _MODE_DENIED, _MESSAGE_LONG, _TAKEN, _WOULD_BLOCK = 13, 14, 15, 26, 28, 29
_ANY_SIZE = wire.BODY_MAX                           # of a message
_TOKEN = connection.Call((wire.MQ_RECEIVE, wire.MQ_RECEIVE, wire.MQ_TIMED_RECEIVE), struct.pack(">I", _ANY_SIZE), b"",
                         wire.RECEIVED)
_LONGEST_NAME = 235                                 # of a pool: its jobs' names have 21 bytes more
_NO_WAITER_S = 0.1
_rule_of = errors.rule_of


def _target(name: bytes) -> bytes:
    return b"\1\1" + wire.text(name)


@contextlib.contextmanager
def _allowing(*rules: int) -> Iterator[None]:
    """Passes over a refusal by one of these rules."""
    try:
        yield
    except Exception as error:
        if _rule_of(error) not in rules:
            raise


class _Session(connection.Connection):
    """A session with the calls that a pool makes."""
    tokens: int         # the pool's queue in it: a signal's handler may connect too

    def done(self, opcode: int, fields: bytes) -> None:
        self.ask(opcode, fields, wire.DONE)

    def open(self, name: bytes, access: int, flags: int, mode: int = 0, attributes: Optional[Tuple[int, int]] = None) -> int:
        given = b"\0" if attributes is None else struct.pack(">BII", 1, *attributes)
        fields = wire.text(name) + struct.pack(">BBH", access, flags, mode) + given
        return int.from_bytes(self.ask(wire.MQ_OPEN, fields, wire.OPENED), "big")

    def let_go(self, queue: int) -> None:
        """Closes the queue, which ends its registration."""
        self.done(wire.MQ_CLOSE, struct.pack(">Q", queue))

    def register(self, queue: int) -> None:
        self.done(wire.MQ_NOTIFY, struct.pack(">QB", queue, 1))

    def unlink(self, name: bytes) -> None:
        """Removes a name, which may be gone."""
        with _allowing(_ABSENT):
            self.done(wire.MQ_UNLINK, wire.text(name))

    def send(self, queue: int, data: bytes) -> None:
        self.ask(wire.MQ_SEND, struct.pack(">QI", queue, 0) + data, wire.SENT)

    def receive(self, queue: int) -> bytes:
        self.room = _ANY_SIZE
        return self.ask(wire.MQ_RECEIVE, struct.pack(">QI", queue, _ANY_SIZE), wire.RECEIVED)[4:]

    def state(self, queue: int) -> Tuple[int, int]:
        """How many messages there are, and how long they may be."""
        _, _, size, count = struct.unpack(">BIII", self.ask(wire.MQ_GETATTR, struct.pack(">Q", queue), wire.ATTRS))
        return count, size

    def stat(self, name: bytes) -> Tuple[int, int]:
        """The owner and the mode."""
        owner, _, mode = struct.unpack(">IIH", self.ask(wire.STAT_NAME, _target(name), wire.STAT))
        return owner, mode

    def chmod(self, name: bytes, mode: int) -> None:
        self.done(wire.CHMOD, struct.pack(">H", mode) + _target(name))

    def chown(self, name: bytes, owner: Optional[int] = None) -> None:
        self.done(wire.CHOWN, (b"\0" if owner is None else struct.pack(">BI", 1, owner)) + b"\0" + _target(name))

    def page(self, start: int) -> List[bytes]:
        """Names of queues from position `start` on."""
        return self.names_in(self.ask(wire.LIST_NAMES, struct.pack(">BIH", 1, start, wire.PAGE_NAMES), wire.PAGE))


class _Held(NamedTuple):
    """A job's queue that this session has open, and whose registration it has."""
    queue: int
    copies: int
    size: int


class Job:
    """A job that was taken. One that is dropped without done or give_back stays claimed until the connection ends."""

    def __init__(self, pool: Jobs, session: _Session, name: bytes, held: _Held, data: bytes) -> None:
        self._pool, self._session, self._name, self._queue, self._over = pool, session, name, held.queue, False
        self.name, self.data = os.fsdecode(name), data
        self.tries_left = held.copies - 1 - _SPARE
        """How many tries there are after this one."""

    def done(self) -> None:
        """The work is done: the job is over. ConnectionLost: it may come again. Refused: it is still taken."""
        with self._ending() as session:
            session.unlink(self._name)      # before the claim ends, so that who claims it next sees that it is over

    def give_back(self) -> None:
        """The work wasn't done: the job comes again, if it has tries left."""
        with self._ending():
            pass
        with self._pool._calls() as session:
            self._pool._wake(session, self._name)

    @contextlib.contextmanager
    def _ending(self) -> Iterator[_Session]:
        if self._over:
            raise mqserve.ExistentialError("the job is over, or was given back")
        with self._pool._calls(self._session) as session:
            yield session
            session.let_go(self._queue)
            self._over = True

    def __enter__(self) -> Job:
        return self

    def __exit__(self, kind: object, *_: object) -> None:
        if not self._over and kind is None:
            self.done()
        elif not self._over:
            with contextlib.suppress(mqserve.ConnectionLost):   # then it comes again without this
                self.give_back()


class Jobs:
    """The pool of a name, on the server that mqserve.use or the variables say. tries: how often a job that is put here is tried. look: how
    many seconds pass at most before a worker that waits looks for jobs whose workers are gone. PermissionsError: another user's pool."""

    _session_type = _Session

    def __init__(self, name: str, tries: int = 3, look: float = 1.0) -> None:
        if not 1 <= tries < 1 << 31 or not look > 0:
            raise ValueError("tries must be from 1 to 2147483647, and look positive")
        self.name, self.tries, self.look = name, tries, look
        self._pool = os.fsencode(name)
        if len(self._pool) > _LONGEST_NAME:
            raise ValueError(f"the name of a pool has {_LONGEST_NAME} bytes at most")
        self._is_job = re.compile(re.escape(self._pool) + rb"\.job-[0-9a-f]{16}").fullmatch
        self._server = mqserve._current()
        self._session: Optional[_Session] = None
        self._waiter: Optional[_Session] = None
        self._forget()
        _pools.add(self)
        with self._calls():
            pass

    # ---- Sessions ----

    def close(self) -> None:
        """Ends its connections. Jobs that were taken come again."""
        for session in (self._session, self._waiter):
            if session is not None:
                session.close()

    def __enter__(self) -> Jobs:
        return self

    def __exit__(self, *_: object) -> None:
        self.close()

    def _forget(self) -> None:
        """At the start, and in a child of fork: nothing is open, and nobody has the locks."""
        self.close()
        self._session = self._waiter = None
        self._lock, self._waiting = threading.RLock(), threading.Lock()
        self._found: List[bytes] = []               # candidates of the last look, the next one last
        self._look_at, self._has_more = 0.0, False
        self._wait_after = 0.0                      # when to look for a worker for the second session again

    def _connect(self, access: int, flags: int, seconds: float = waits.HELLO_S) -> Tuple[_Session, int]:
        """A session, and the pool's queue in it."""
        session = self._session_type(self._server.address, self._server.key, seconds, self._server.shared_clock)
        try:
            longest = len(self._pool) + len(".job-") + 16
            return session, session.open(self._pool, access, _CREATE | flags, _READY, (self.tries + _SPARE, longest))
        except BaseException:
            session.close()
            raise

    def _connected(self) -> _Session:
        if self._session is None or not self._session.amid and not self._session.is_alive():
            if self._session is not None:
                log.info("the connection of the pool %s was lost: %s; it connects anew", self.name, self._session.why)
            session, session.tokens = tried(lambda: self._connect(_BOTH, _NONBLOCK, self._server.patience), self._server.reconnect)
            try:
                session.chown(self._pool)           # changes nothing, and only the owner and user 0 may
                self._owner, _ = session.stat(self._pool)
            except BaseException:
                session.close()
                raise
            if self._session is None or self._session.lost:
                self._session = session
            else:
                session.close()                     # a signal's handler has connected meanwhile
        return self._session

    def _connected_waiter(self, seconds: float) -> Optional[_Session]:
        """The session that waits for tokens, or None where the server has no worker for it in time, or had none a moment ago."""
        if self._waiter is None or not self._waiter.is_alive():
            if seconds <= 0 or time.monotonic() < self._wait_after:
                return None
            try:
                self._waiter, self._waiter_queue = self._connect(_READ, 0, min(seconds, waits.SIDE_S))
            except (mqserve.Error, OSError):
                self._wait_after = time.monotonic() + 5
                return None                         # where the server is gone the other session tells it
            self._waiter.room = _ANY_SIZE
        return self._waiter

    @contextlib.contextmanager
    def _calls(self, session: Optional[_Session] = None) -> Iterator[_Session]:
        """The session, for calls that belong together. What ends them but a refusal, as a signal's handler that raises, ends the session
        and its claims: whether the server made the last call isn't known, nor what was claimed."""
        with self._lock if waits.limit.end is None else waits.TimedLock(self._lock):
            session = session or self._connected()
            if session.amid:    # a call of a handler: the one that it came amid goes on
                raise mqserve.BusyError("a signal's handler came amid a call of another one")
            try:
                yield session
            except BaseException as error:
                if not _rule_of(error):
                    session.close()
                raise
            finally:
                session.notices.clear()

    @contextlib.contextmanager
    def _letting_go(self, session: _Session, queue: int) -> Iterator[None]:
        """Lets the queue go where a call is refused."""
        try:
            yield
        except Exception as error:
            if _rule_of(error):
                session.let_go(queue)
            raise

    # ---- Putting ----

    def put(self, data: Union[str, bytes]) -> str:
        """Puts a job, and returns its name; a str goes as UTF-8. Once it has returned, the job is done at least once, or waits as a dead
        one. Refused, it left nothing. After ConnectionLost, or where the process was killed, the job may be there."""
        message = wire.data(data)
        with self._calls() as session:
            return self._add(session, max(1, len(message)), lambda: message)

    def _add(self, session: _Session, size: int, read: Callable[[], bytes]) -> str:
        """Puts what `read` gives, which is asked once a queue for it is there."""
        data = None
        while True:
            name, queue = self._create(session, size)
            is_there = False
            with self._letting_go(session, queue):
                try:
                    data = read() if data is None else data
                    is_there = self._fill(session, name, queue, data)
                finally:
                    if not is_there and not session.lost:
                        session.unlink(name)
            session.let_go(queue)
            if is_there:
                self._wake(session, name)           # now that it may be claimed
                return os.fsdecode(name)

    def _create(self, session: _Session, size: int) -> Tuple[bytes, int]:
        """A queue that no worker can open yet. A name is never used again."""
        while True:
            name = self._pool + b".job-" + os.urandom(8).hex().encode()
            with _allowing(_PRESENT):
                return name, session.open(name, _WRITE, _CREATE | _EXCLUSIVE | _NONBLOCK, _PUTTING, (self.tries + _SPARE, size))

    def _fill(self, session: _Session, name: bytes, queue: int, data: bytes) -> bool:
        """Whether the job is there now. If not, somebody has swept the queue. The registration keeps sweeps off. A message to the empty
        queue ends it, so it is had once more; without the first one a sweep's own could end so, and the sweep wouldn't know."""
        with _allowing(_ABSENT, _TAKEN, _WOULD_BLOCK):
            session.register(queue)
            session.send(queue, data)
            session.register(queue)
            for _ in range(self.tries + _SPARE - 1):
                session.send(queue, data)
            session.chown(name, self._owner)        # changes something where user 0 puts
            session.chmod(name, _READY)             # from here on the job is there
            return True
        return False

    def _wake(self, session: _Session, name: bytes) -> None:
        """Wakes a worker. Where the pool's queue is full none waits."""
        with _allowing(_WOULD_BLOCK, _MESSAGE_LONG):
            session.send(session.tokens, name)

    # ---- Taking ----

    def take(self, timeout: Optional[float] = None) -> Job:
        """A job, which is claimed until it is done or given back, or the connection ends. Waits for it, at most `timeout` seconds; then
        BusyError."""
        if timeout is not None and not timeout >= 0:
            raise ValueError("the timeout must not be negative")
        end = None if timeout is None else time.monotonic() + timeout
        with waits.Ending(None if end is None else end + waits.LAST_S):
            return self._take_until(end)

    def _take_until(self, end: Optional[float]) -> Job:
        while True:
            is_last = end is not None and time.monotonic() >= end
            job = self._take_free(is_last)
            if job is None and is_last:
                raise mqserve.BusyError("there is no job")
            if job is None:
                job = self._take_next(self._look_at if end is None else min(end, self._look_at))
            if job is not None:
                return job

    def _take_free(self, must_look: bool) -> Optional[Job]:
        """A job that is there, or None."""
        with self._calls() as session:
            for name in self._candidates(session, must_look):
                job = self._claim(session, name)
                if job is not None:
                    self._has_more = True
                    return job
        return None

    def _take_next(self, until: float) -> Optional[Job]:
        """The job of the next token that comes until this moment, or None."""
        name = self._await_token(max(0.0, until - time.monotonic()))
        return None if name is None else self._claim_by(name)

    def _claim_by(self, token: bytes) -> Optional[Job]:
        """The job that a token names, where it is still free."""
        with self._calls() as session:
            return self._claim(session, token)

    def _candidates(self, session: _Session, must_look: bool) -> Iterator[bytes]:
        """Names of jobs that may be free. A look through all names is due after some time, since some jobs have no token; and once tokens
        are used up that were there before this worker was: the pool's queue may have had no room for more."""
        has_looked = False
        while True:
            is_due = not has_looked and time.monotonic() >= self._look_at
            name = None if is_due else self._found.pop() if self._found else self._token(session)
            if name is not None:
                yield name
                self._skip()                        # it wasn't free
            elif is_due or not has_looked and (self._has_more or must_look):
                self._found = self._names(session)[::-1]
                has_looked, self._has_more, self._look_at = True, False, time.monotonic() + self.look
            else:
                return

    def _skip(self) -> None:
        """Goes on with any candidate: where one was taken, other workers are at the next ones too."""
        if self._found:
            at = random.randrange(len(self._found))
            self._found[at], self._found[-1] = self._found[-1], self._found[at]

    def _names(self, session: _Session) -> List[bytes]:
        """The names of all jobs, the oldest first. Some may be left out where others end meanwhile."""
        names: List[bytes] = []
        page, start = session.page(0), 0
        while page:
            names.extend(filter(self._is_job, page))
            start += len(page)
            page = session.page(start) if len(page) == wire.PAGE_NAMES else []
        return names

    def _token(self, session: _Session) -> Optional[bytes]:
        with _allowing(_WOULD_BLOCK):
            return session.receive(session.tokens)
        return None

    def _await_token(self, seconds: float) -> Optional[bytes]:
        """The name of a job that was put or given back, or None where none came in time."""
        end = time.monotonic() + seconds
        if not self._waiting.acquire(timeout=min(seconds, waits.LONGEST_S)):
            return None
        try:
            waiter = self._connected_waiter(end - time.monotonic())
            if waiter is None:
                time.sleep(max(0.0, min(end - time.monotonic(), _NO_WAITER_S)))
                return None
            answer = waiter.ask_until(_TOKEN, struct.pack(">Q", self._waiter_queue), end)
            return None if answer is None else answer[4:]
        except mqserve.ConnectionLost:
            return None
        except BaseException:
            if self._waiter is not None:
                self._waiter.close()                # a signal's handler raised, and the receive may go on
            raise
        finally:
            self._waiting.release()

    def _hold(self, session: _Session, name: bytes, access: int, *modes: int, most: Optional[int] = None) -> Optional[_Held]:
        """Opens a job's queue and registers for its notice, which is the claim. None where somebody else has it, or it is in none of these
        modes, another user's, or gone; or where it has more than `most` copies, which is seen before: a worker finds it free meanwhile."""
        if not self._is_job(name):
            return None
        with _allowing(_ABSENT, _MODE_DENIED, _TAKEN):
            queue = session.open(name, access, _NONBLOCK)
            with self._letting_go(session, queue):
                if most is None or session.state(queue)[0] <= most:
                    session.register(queue)
                    owner, mode = session.stat(name)    # behind the registration: nobody else changes it from here on
                    if owner in (self._owner, 0) and mode in modes:
                        return _Held(queue, *session.state(queue))
            session.let_go(queue)
        return None

    def _claim(self, session: _Session, name: bytes) -> Optional[Job]:
        held = self._hold(session, name, _BOTH, _READY)
        if held is None:
            return None
        with self._letting_go(session, held.queue):
            if held.copies > _SPARE:
                return Job(self, session, name, held, session.receive(held.queue))
            session.chmod(name, _DEAD)              # no worker opens it again
        session.let_go(held.queue)
        return None

    # ---- Dead jobs, and what was left behind ----

    def pending(self) -> int:
        """How many jobs there are, by their names: free, taken, dead, and those that are being put. Where the server has more than 1,000
        queues, some may be left out if others end meanwhile."""
        with self._calls() as session:
            return len(self._names(session))

    def dead(self) -> List[str]:
        """The names of the dead jobs: those whose tries are used up, and that nobody is working on."""
        found = []
        with self._calls() as session:
            for name in self._names(session):
                held = self._hold_dead(session, name)
                if held is not None:
                    session.let_go(held.queue)
                    found.append(os.fsdecode(name))
        return found

    def _hold_dead(self, session: _Session, name: bytes) -> Optional[_Held]:
        held = self._hold(session, name, _READ, _READY, _DEAD, most=_SPARE)
        if held is not None and held.copies > _SPARE:   # user 0 saw it while it was being put
            session.let_go(held.queue)
            return None
        return held

    def bury(self, name: str) -> bytes:
        """Ends a dead job, and returns its data, which nobody else has then: where the process is killed meanwhile, the data may be lost.
        ExistentialError: no dead job has this name, or somebody else has it for the moment, as who calls dead."""
        text = os.fsencode(name)
        with self._calls() as session:
            held = self._hold_dead(session, text)
            if held is not None:
                with self._letting_go(session, held.queue):
                    session.unlink(text)
                    data = session.receive(held.queue)
                session.let_go(held.queue)
                return data
        raise mqserve.ExistentialError(f"{name} is no dead job")

    def revive(self, name: str) -> str:
        """Puts a dead job's data as a new job, and then ends the dead one. Returns the new name. Killed meanwhile, it leaves one of them,
        or both. Refused as put is, it leaves the dead job as it was. ExistentialError: as bury; or a revive that was killed left its last
        copy, which bury returns."""
        text = os.fsencode(name)
        with self._calls() as session:
            held = self._hold_dead(session, text)
            if held is not None:
                with self._letting_go(session, held.queue):
                    if held.copies == _SPARE:
                        new = self._add(session, held.size, lambda: session.receive(held.queue))
                        session.unlink(text)
                session.let_go(held.queue)
                if held.copies == _SPARE:
                    return new
        raise mqserve.ExistentialError(f"{name} is no dead job" if held is None else f"{name} has its last copy alone: bury it")

    def sweep(self) -> int:
        """Removes what putters that were killed left behind, and returns how much; call it now and then. What is being put stays."""
        with self._calls() as session:
            return sum(self._sweep(session, name) for name in self._names(session))

    def _sweep(self, session: _Session, name: bytes) -> bool:
        held = None
        with _allowing(_ABSENT):
            if session.stat(name)[1] == _PUTTING:
                held = self._hold(session, name, _WRITE, _PUTTING)
        if held is None:
            return False
        with self._letting_go(session, held.queue):
            session.unlink(name)                    # its putter isn't registered, and can't be any more
        session.let_go(held.queue)
        return True


_pools: weakref.WeakSet[Jobs] = weakref.WeakSet()


def _in_child() -> None:
    for pool in list(_pools):
        pool._forget()


if hasattr(os, "register_at_fork"):
    os.register_at_fork(after_in_child=_in_child)
