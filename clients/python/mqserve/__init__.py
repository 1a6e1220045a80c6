"""Message queues and named semaphores of an mqserve server, with the interface of the module posix_ipc.

    import mqserve
    mqserve.use("127.0.0.1:7000", "ka1")            # or the variables MQSERVE and MQSERVE_KEY or MQSERVE_KEY_FILE
    mqserve.use("unix-user:/run/mqserve")     # or this: a socket of the user's own, which wants no key
    queue = mqserve.MessageQueue("/jobs", mqserve.O_CREX)
    queue.send(b"build-7", priority=5)
    queue.receive(timeout=1)                        # (b"build-7", 5)

Python 3.8 or later, the standard library alone. Threads may share everything: a call that blocks has a connection of its own for
as long as it blocks, and ends with ExistentialError where another thread closes the object. A child of fork connects anew, and opens by
name what it uses. The next call closes objects that were dropped.

    with mqserve.MessageQueue("/jobs") as queue:    # closed after the block
        for message, priority in queue:             # receives until another thread closes it; with queue.block = False until it is empty
            ...

The log of the module, logging.getLogger("mqserve"), tells of connections that are lost and made anew.

Other than in posix_ipc: there is no shared memory. SignalError is never raised: a signal's handler runs while a call blocks, may make
calls of its own, and if it raises, the call is withdrawn first. Where it raises in the moment in which a call is answered at once, that
call's connection is lost. `mqd` is the server's number, and no file: select doesn't know it. An exception's `rule` is the number of the
server's rule that refused the call, or 0; it is 0 after a timeout. ConnectionLost is raised where the connection ends; what was open
stays lost, unless `use` or MQSERVE_RECONNECT asks for going on: then objects come back by their names, and a call that may have been done
and isn't safe to make again is UnknownOutcome, a ConnectionAbortedError.

A timeout is measured by time.monotonic(). Where the server shares this machine's clock it gets the moment along with the call and ends it:
a poll that finds nothing is one request then. No call ends before its timeout, or later than two seconds after it. The
object's next receive returns a message that the server gives later. See `use`.
"""
from __future__ import annotations

import gc
import os
import random
import signal
import struct
import weakref
from typing import Any, Callable, Iterator, Optional, Tuple, Union

from . import _dial as dial, _waits as waits, _wire as wire
from ._connection import Call, Connection, Reference
from ._errors import BusyError, ConnectionLost, Error, ExistentialError, PermissionsError, SignalError, UnknownOutcome, rule_of
from ._log import log
from ._sessions import Server, servers
from ._wire import OnLate

__all__ = [
    "BusyError", "ConnectionLost", "Error", "ExistentialError", "MESSAGE_QUEUES_SUPPORTED", "MessageQueue", "O_CREAT", "O_CREX", "O_EXCL",
    "O_TRUNC", "PAGE_SIZE", "PermissionsError", "QUEUE_MESSAGES_MAX_DEFAULT", "QUEUE_MESSAGE_SIZE_MAX_DEFAULT", "QUEUE_PRIORITY_MAX",
    "SEMAPHORE_TIMEOUT_SUPPORTED", "SEMAPHORE_VALUE_MAX", "SEMAPHORE_VALUE_SUPPORTED", "Semaphore", "SignalError", "USER_SIGNAL_MAX",
    "USER_SIGNAL_MIN", "UnknownOutcome", "VERSION", "unlink_message_queue", "unlink_semaphore", "use",
]
VERSION = "0.1.0"
O_CREAT, O_EXCL, O_TRUNC = os.O_CREAT, os.O_EXCL, os.O_TRUNC
O_CREX = O_CREAT | O_EXCL
PAGE_SIZE = os.sysconf("SC_PAGE_SIZE")
SEMAPHORE_TIMEOUT_SUPPORTED = SEMAPHORE_VALUE_SUPPORTED = MESSAGE_QUEUES_SUPPORTED = True
SEMAPHORE_VALUE_MAX = 2147483647
QUEUE_MESSAGES_MAX_DEFAULT, QUEUE_MESSAGE_SIZE_MAX_DEFAULT, QUEUE_PRIORITY_MAX = 10, 8192, 32767
USER_SIGNAL_MIN, USER_SIGNAL_MAX = int(signal.SIGRTMIN), int(signal.SIGRTMAX)

_server: Optional[Server] = None


def use(address: str, key: Optional[str] = None, spares: int = 1, shared_clock: Optional[bool] = None,
        reconnect: Optional[float] = None) -> None:
    """The server, HOST:PORT or unix:PATH, and the key for all that is opened from now on. Or unix-user:PATH, a socket of the process's user's
    own, or a folder in which it has the user's name: there no key is used. spares: connections that are kept open for calls
    that will block; each takes a worker of the server. shared_clock: whether the server's clock is this machine's; None: it is with
    a path and a loopback address. Say False where such an address leads to another machine, as through a tunnel. reconnect: for how many
    seconds calls go on where the server began anew; 0: not at all; None: as the variable MQSERVE_RECONNECT says, or not at all."""
    global _server
    if address.startswith(dial.OWN):
        key = None
    elif key is None:
        raise PermissionsError("no key: call use, or set MQSERVE_KEY or MQSERVE_KEY_FILE")
    if reconnect is not None and not 0 <= reconnect < waits.LAST_DEADLINE_S:
        raise ValueError("reconnect must be a number of seconds, and not negative")
    _server = Server(address, key, spares, shared_clock, reconnect)


def _current() -> Server:
    if _server is None:
        address, key, path = (os.environ.get(name) for name in ("MQSERVE", "MQSERVE_KEY", "MQSERVE_KEY_FILE"))
        if not address:
            raise Error("no server: call use, or set MQSERVE")
        if key is None and path and not address.startswith(dial.OWN):
            with open(path) as file:
                key = file.readline().rstrip("\r\n")
        use(address, key)
    assert _server is not None
    return _server


def _umask() -> int:
    """The program's mask. os.umask would change it for other threads, for a moment."""
    try:
        with open("/proc/self/status") as file:
            return next(int(line.split()[1], 8) for line in file if line.startswith("Umask:"))
    except (OSError, StopIteration):
        return 0o22


def _made_up() -> str:
    """A name that nobody has, by all odds."""
    return f"/mqserve_{random.getrandbits(40):010x}"


class _Thing:
    """What queues and semaphores have in common."""
    _CLOSE = _UNLINK = 0
    room = 0

    def __init__(self, name: Optional[str], flags: int, mode: int) -> None:
        if flags & O_EXCL and not flags & O_CREAT:
            raise ValueError("O_EXCL needs O_CREAT")
        self.server, self.closed, self.gone = _current(), False, False
        self.is_known = False                       # whether it was open at home
        self.ended: Optional[Callable[[], Error]] = None    # with what each further call fails
        self.reference = Reference(self._CLOSE)
        weakref.finalize(self, self.server.drop, self.reference).atexit = False
        wanted = (wire.CREATE if flags & O_CREAT else 0) | (wire.EXCLUSIVE if flags & O_EXCL else 0)
        while True:
            self._name = _made_up() if name is None else name
            try:
                return self._begin(wanted, mode & 0o777 & ~_umask())
            except ExistentialError:
                if name is not None or not flags & O_EXCL:
                    raise

    def _begin(self, wanted: int, mode: int) -> None:
        """Opens it, and once more where the connection was lost before the request left, or where that does no harm."""
        def once() -> None:
            with self.server.lock:
                self.server.leave()
                try:
                    self.open_on(self.server.at_home(True), wanted, mode)
                except OSError as error:
                    if rule_of(error) != wire.DESCR_LIMIT or not self._made_room():
                        raise
                    self.open_on(self.server.at_home(True), wanted, mode)
                self.server.things.add(self)
                self.server.spread(self)
        is_safe = not wanted & wire.EXCLUSIVE
        with waits.Ending(None):
            try:
                self.server.again(once, is_safe)
            except ConnectionLost as error:
                if self.server.reconnect or error.is_final or not (is_safe or error.is_unsent):
                    raise
                once()

    def _made_room(self) -> bool:
        """Whether objects were dropped that stood in a cycle."""
        gc.collect()
        has_room = bool(self.server.dropped)
        self.server.leave()
        return has_room

    def _opening(self, flags: int, mode: int) -> Tuple[int, bytes]:
        raise NotImplementedError

    def open_on(self, c: Connection, flags: int = 0, mode: int = 0) -> bytes:
        """Its description in this session: it is opened by its name where it isn't open."""
        if self.closed:
            raise ExistentialError("it is closed")
        if self.ended is not None:
            raise self.ended()
        if c not in self.server.homes() + self.server.sides:
            raise c.lose("the connection was lost", is_unsent=True)
        if self.reference not in c.opened:
            if self.gone:
                raise ExistentialError("its name was unlinked, and this connection doesn't have it open")
            self._open_by_name(c, flags, mode)
        return struct.pack(">Q", c.opened[self.reference])

    def _open_by_name(self, c: Connection, flags: int, mode: int) -> None:
        is_home = c not in self.server.sides
        opcode, fields = self._opening(flags | (wire.NONBLOCK if is_home else 0), mode)
        try:
            c.opened[self.reference] = struct.unpack(">Q", c.ask(opcode, fields, wire.OPENED, self._opened_late(c)))[0]
        except ExistentialError as error:
            if is_home and self.is_known and self.server.reconnect and rule_of(error) == wire.ABSENT:
                self.ended = lambda: ExistentialError("its name was gone when the connection was made anew")
            raise
        if is_home and self.is_known:
            log.info("%r was opened anew by its name", self)
            self._come_back(c)
        self.is_known = self.is_known or is_home

    def _come_back(self, c: Connection) -> None:
        """Learns what may be other than before where its name was opened anew."""

    def end(self, why: str) -> None:
        """With its connection it was lost for good."""
        def ended() -> Error:
            error = ConnectionLost(why)
            error.is_final = True
            return error
        self.ended = self.ended or ended

    def count_repeat(self) -> None:
        """A call was made again that may have been done before."""

    def _opened_late(self, c: Connection) -> OnLate:
        def open_late(opcode: int, fields: bytes) -> None:
            if opcode == wire.OPENED:
                c.opened[self.reference] = int.from_bytes(fields, "big")
        return open_late

    def take_late(self, opcode: int, fields: bytes) -> None:
        """Keeps the message of a receive that ended before it came, and gives back the unit of such a wait."""
        if opcode == wire.RECEIVED:
            self.reference.kept.append(fields)
        elif opcode == wire.DONE:
            self.server.returning.append(self)

    def take_kept(self, call: Call) -> Optional[bytes]:
        kept = self.reference.kept
        return kept.popleft() if kept and call.answer == wire.RECEIVED and not self.closed else None

    @property
    def name(self) -> str:
        """The name that it was opened by."""
        return self._name

    def close(self) -> None:
        """Closes it in this process. A call of another thread that blocks on it ends with ExistentialError. A message that came after its
        receive's end is sent anew."""
        if self.closed:
            raise ExistentialError("it is closed")
        self.server.close(self)

    def unlink(self) -> None:
        """Removes the name. What is open stays usable."""
        self.server.unlink(type(self), self._name)
        self.gone = True

    def __repr__(self) -> str:
        return f"mqserve.{type(self).__name__}({self._name!r})"


class Semaphore(_Thing):
    """A named semaphore. flags O_CREAT creates it where it isn't, O_CREX creates it or fails; name None makes up a name."""
    _CLOSE, _UNLINK = wire.SEM_CLOSE, wire.SEM_UNLINK

    def __init__(self, name: Optional[str], flags: int = 0, mode: int = 0o600, initial_value: int = 0) -> None:
        if not 0 <= initial_value < 1 << 32:
            raise ValueError("the initial value is out of range")
        self._initial_value = initial_value
        super().__init__(name, flags, mode)

    def _opening(self, flags: int, mode: int) -> Tuple[int, bytes]:
        return wire.SEM_OPEN, wire.text(self._name) + struct.pack(">BHI", flags & ~wire.NONBLOCK, mode, self._initial_value)

    def acquire(self, timeout: Optional[float] = None) -> None:
        """Waits until the value is above 0, and lowers it. BusyError after `timeout` seconds; None: never."""
        call = Call((wire.SEM_TRYWAIT, wire.SEM_WAIT, wire.SEM_TIMED_WAIT), b"", b"", wire.DONE)
        if self.server.perform(self, call, timeout) is None:
            raise BusyError("the semaphore is 0")

    def release(self) -> None:
        """Raises the value, or ends the longest wait."""
        self.server.ask(self, wire.SEM_POST, b"", wire.DONE)

    @property
    def value(self) -> int:
        """The value; 0 while calls wait."""
        return struct.unpack(">I", self.server.ask(self, wire.SEM_GETVALUE, b"", wire.VALUE))[0]

    def __enter__(self) -> Semaphore:
        self.acquire()
        return self

    def __exit__(self, *_: object) -> None:
        self.release()


class MessageQueue(_Thing):
    """A message queue. Attributes and mode matter where it is created; read and write say what this object may do."""
    _CLOSE, _UNLINK = wire.MQ_CLOSE, wire.MQ_UNLINK

    def __init__(self, name: Optional[str], flags: int = 0, mode: int = 0o600, max_messages: int = QUEUE_MESSAGES_MAX_DEFAULT,
                 max_message_size: int = QUEUE_MESSAGE_SIZE_MAX_DEFAULT, read: bool = True, write: bool = True) -> None:
        if not read and not write:
            raise ValueError("read or write, or both")
        if not 0 <= max_messages < 1 << 32 or not 0 <= max_message_size < 1 << 32:
            raise ValueError("an attribute is out of range")
        self._access, self._wanted = (1 if read else 0) | (2 if write else 0), (max_messages, max_message_size)
        self.block = True
        """Whether send and receive wait; where it is False they raise BusyError at once."""
        self.receives_repeated = 0
        """How often a receive was made again after its connection was lost. Each time a message may be lost."""
        super().__init__(name, flags, mode)
        _, self._max_messages, self.room, _ = self._state()

    def __enter__(self) -> MessageQueue:
        return self

    def __exit__(self, *_: object) -> None:
        if not self.closed:
            self.close()

    def __iter__(self) -> Iterator[Tuple[bytes, int]]:
        """Receives until the queue is closed, which another thread may do; where `block` is False, until it is empty."""
        while not self.closed:
            try:
                received = self.receive()
            except (BusyError, ExistentialError) as error:
                if self.closed or not self.block and rule_of(error) in (0, wire.WOULD_BLOCK):
                    return
                raise
            yield received

    def _opening(self, flags: int, mode: int) -> Tuple[int, bytes]:
        given = struct.pack(">BII", 1, *self._wanted) if flags & wire.CREATE else b"\0"
        return wire.MQ_OPEN, wire.text(self._name) + struct.pack(">BBH", self._access, flags, mode) + given

    def _state(self) -> Tuple[int, int, int, int]:
        return struct.unpack(">BIII", self.server.ask(self, wire.MQ_GETATTR, b"", wire.ATTRS))  # type: ignore[return-value]

    def _come_back(self, c: Connection) -> None:
        state = c.ask(wire.MQ_GETATTR, struct.pack(">Q", c.opened[self.reference]), wire.ATTRS)
        _, self._max_messages, self.room, _ = struct.unpack(">BIII", state)

    def count_repeat(self) -> None:
        self.receives_repeated += 1
        log.warning("a receive from %r is made again: a message may be lost", self)

    @property
    def max_messages(self) -> int:
        return self._max_messages

    @property
    def max_message_size(self) -> int:
        return self.room

    @property
    def current_messages(self) -> int:
        return self._state()[3]

    @property
    def mqd(self) -> int:
        """The server's number of the description."""
        with waits.Ending(None), self.server.lock:
            return struct.unpack(">Q", self.open_on(self.server.at_home()))[0]

    def send(self, message: Union[str, bytes], timeout: Optional[float] = None, priority: int = 0) -> None:
        """Sends; a str goes as UTF-8. Waits while the queue is full, at most `timeout` seconds."""
        data = wire.data(message)
        if not 0 <= priority <= QUEUE_PRIORITY_MAX:
            raise ValueError("the priority is out of range")
        call = Call((wire.MQ_SEND, wire.MQ_SEND, wire.MQ_TIMED_SEND), struct.pack(">I", priority), data, wire.SENT)
        if self.server.perform(self, call, timeout, self.block) is None:
            raise BusyError("the queue is full")

    def receive(self, timeout: Optional[float] = None) -> Tuple[bytes, int]:
        """The oldest message of the greatest priority, and that priority. Waits while the queue is empty, at most `timeout` seconds."""
        call = Call((wire.MQ_RECEIVE, wire.MQ_RECEIVE, wire.MQ_TIMED_RECEIVE), struct.pack(">I", self.room), b"", wire.RECEIVED)
        answer = self.server.perform(self, call, timeout, self.block)
        if answer is None:
            raise BusyError("the queue is empty")
        return answer[4:], struct.unpack(">I", answer[:4])[0]

    def request_notification(self, notification: Union[None, int, Tuple[Callable[[Any], Any], Any]] = None) -> None:
        """Asks for one notice of a message that comes to the empty queue: a signal's number, or a function, which a thread of its own
        calls, and its argument. None takes that back."""
        if notification is None:
            self._unregister()
        elif not isinstance(notification, int):
            function, argument = notification
            self._register(lambda: function(argument))
        elif 0 < notification < signal.NSIG:
            self._register(int(notification))
        else:
            raise ValueError("there is no such signal")

    def _register(self, action: Union[int, Callable[[], None]]) -> None:
        """After a loss the registration of the connection before may live on for a while."""
        def once() -> None:
            with self.server.lock:
                home = self.server.at_home()
                self._ask_for_notice(home, b"\1")
                self.server.watch(self, home.opened[self.reference], action)
                self.server.tell(home)
        with waits.Ending(None):
            self.server.again_while_taken(once)

    def _unregister(self) -> None:
        def once() -> None:
            with self.server.lock:
                self.open_on(self.server.at_home())
                for home in self.server.homes():
                    if self.reference in home.opened and not home.lost:
                        self._ask_for_notice(home, b"\0")
                        self.server.watched.pop(home.opened[self.reference], None)
        with waits.Ending(None):
            self.server.again(once, True)

    def _ask_for_notice(self, home: Connection, wanted: bytes) -> None:
        fields = self.open_on(home) + wanted
        try:
            home.ask(wire.MQ_NOTIFY, fields, wire.DONE)
        finally:
            self.server.act(home)   # on a notice that came before the answer; behind it may stand the one that is asked for


def unlink_message_queue(name: str) -> None:
    """Removes a queue's name."""
    _current().unlink(MessageQueue, name)


def unlink_semaphore(name: str) -> None:
    """Removes a semaphore's name."""
    _current().unlink(Semaphore, name)


def _in_child() -> None:
    for server in list(servers):
        server.forget()
    for dialled in list(dial.sockets):
        dialled.close()     # its copy would keep the session after the parent's end


if hasattr(os, "register_at_fork"):
    os.register_at_fork(after_in_child=_in_child)
