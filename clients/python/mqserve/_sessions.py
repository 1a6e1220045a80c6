"""The connections of this process to a server."""
from __future__ import annotations

import collections
import contextlib
import os
import struct
import threading
import time
import weakref
from typing import TYPE_CHECKING, Any, Callable, Deque, Dict, List, Optional, Set, Tuple, Type, TypeVar, Union

from . import _dial as dial, _waits as waits, _wire as wire
from ._connection import Call, Connection, Reference
from ._again import Pauses, again, may_come, seconds_of, tried, unknown
from ._errors import BusyError, ConnectionLost, Error, ExistentialError, TooLate, rule_of
from ._log import log
from ._wire import OnLate

if TYPE_CHECKING:
    from . import _Thing as Thing

SIDES = 16
Result = TypeVar("Result")
servers: "weakref.WeakSet[Server]" = weakref.WeakSet()      # of earlier calls of use too


class Server:
    """The connections of this process: home for what doesn't block, one aside for a signal's handler that comes amid a call there, and
    sides for what blocks."""

    def __init__(self, address: str, key: Optional[str], spares: int, shared_clock: Optional[bool], reconnect: Optional[float] = None) -> None:
        self.address, self.key, self.spares, self.shared_clock = address, key, spares, shared_clock
        self.reconnect = seconds_of("MQSERVE_RECONNECT", 0.0) if reconnect is None else reconnect
        self.patience = seconds_of("MQSERVE_TIMEOUT_MS", waits.HELLO_S, 0.001)     # for a connection
        self.lock = threading.RLock()
        self.home: Optional[Connection] = None
        self.aside: Optional[Connection] = None
        self.sides: List[Connection] = []
        self.busy: Set[Connection] = set()
        self.leaving: List[Tuple[Connection, Reference]] = []     # what was closed, but there not yet
        self.dropped: Deque[Reference] = collections.deque()       # what nobody can close any more
        self.returning: Deque[Thing] = collections.deque()         # semaphores that came too late for who waited
        self.watched: Dict[int, Tuple[Thing, Union[int, Callable[[], None]]]] = {}
        self.listener: Optional[threading.Thread] = None
        self.things: "weakref.WeakSet[Thing]" = weakref.WeakSet()
        self.widen_after = 0.0
        self.lost_at = float("-inf")        # when home was lost last
        servers.add(self)

    def forget(self) -> None:
        """In a child of fork: the connections are the parent's, and its threads aren't here."""
        for c in self.homes() + self.sides:
            c.close()
        things = self.things
        self.__init__(self.address, self.key, self.spares, self.shared_clock, self.reconnect)   # type: ignore[misc]
        self.things = things

    def locked(self) -> Any:
        """The lock. A timed call waits for it no longer than it may."""
        return self.lock if waits.limit.end is None else waits.TimedLock(self.lock)

    def drop(self, reference: Reference) -> None:
        """Of an object that is gone: the next call closes it. By any thread, amid anything."""
        self.dropped.append(reference)

    def connect(self, seconds: float) -> Connection:
        return Connection(self.address, self.key, seconds, self.shared_clock)

    def connect_home(self, is_opening: bool) -> Connection:
        """Where going on after a restart is wanted, it takes time: an open that of a connection, another call that of going on."""
        if not self.reconnect:
            return self.connect(self.patience)
        try:
            return tried(lambda: self.connect(self.patience), self.patience if is_opening else self.reconnect)
        except (Error, OSError) as error:
            if isinstance(error, ConnectionLost):
                error.is_unsent = error.is_final = True
            if is_opening or not may_come(error):
                raise
            lost = ConnectionLost(f"no connection to {self.address} came in time: {error}")
            lost.is_unsent = lost.is_final = True
            raise lost from error

    def homes(self) -> List[Connection]:
        return [c for c in (self.home, self.aside) if c is not None]

    def at_home(self, is_opening: bool = False) -> Connection:
        """Where to ask what doesn't block."""
        if self.home is not None and not self.home.amid and not self.home.is_alive():
            self.lose_home(self.home)
        if self.home is None:
            self.home = self.connect_home(is_opening)
            log.info("connected to %s", self.address)
        if not self.home.amid:
            return self.home
        if self.aside is None or not self.aside.is_alive():
            self.aside = self.connect(self.patience)
        return self.aside

    def lose_home(self, home: Connection) -> None:
        things = [thing for thing in list(self.things) if thing.reference in home.opened]
        log.warning("the connection to %s was lost: %s; %d objects were open on it", self.address, home.why, len(things))
        for thing in things:
            if not self.reconnect:
                thing.end("it was open on a connection that was lost")
            elif thing.gone:
                thing.end("its name was unlinked, and its connection was lost")
        self.home, self.lost_at = None, time.monotonic()
        if self.reconnect:      # a registration is gone, and what came since nobody tells: so who waits for a notice gets a last one
            home.notices += [description for description in home.opened.values() if description in self.watched]
            self.act(home)
        for description in home.opened.values():
            self.watched.pop(description, None)

    def widen(self, until: Optional[float] = None) -> Optional[Connection]:
        """A new side, unless there are too many or the server had no worker a moment ago, or has none until that moment."""
        left = waits.SIDE_S if until is None else min(waits.SIDE_S, until - time.monotonic())
        if len(self.sides) >= SIDES or time.monotonic() < self.widen_after or left <= 0:
            return None
        try:
            side = self.connect(left)
        except (Error, OSError):
            self.widen_after = time.monotonic() + 5
            return None
        self.sides.append(side)
        return side

    def free_sides(self) -> List[Connection]:
        self.sides = [c for c in self.sides if c in self.busy or c.is_alive()]
        return [c for c in self.sides if c not in self.busy and not c.late]

    def spread(self, thing: Thing) -> None:
        """Opens it on the spare sides too, so that calls can block on it after an unlink."""
        while len(self.sides) < self.spares and self.widen():
            pass
        for c in self.free_sides()[:self.spares]:
            self.try_open(thing, c)

    def try_open(self, thing: Thing, side: Connection) -> bool:
        try:
            thing.open_on(side)
            return True
        except (Error, OSError):
            return False

    def side_for(self, thing: Thing, until: Optional[float]) -> Optional[Connection]:
        """A side that isn't busy and has the thing open."""
        free = self.free_sides()
        for c in free:
            if thing.reference in c.opened:
                return c
        side = free[0] if free else None if thing.gone else self.widen(until)
        return side if side is not None and self.try_open(thing, side) else None

    def ask(self, thing: Thing, opcode: int, fields: bytes, answer: int) -> bytes:
        def once() -> bytes:
            with self.lock:
                return self.ask_home(thing, opcode, fields, answer, wire.ignore)
        with waits.Ending(None):
            return self.again(once, opcode != wire.SEM_POST) if self.reconnect else once()

    def again_while_taken(self, call: Callable[[], None]) -> None:
        """A registration, which the one of a connection that was lost may refuse for a while."""
        while True:
            try:
                return self.again(call, True)
            except BusyError as error:
                pause = Pauses(self.lost_at + self.reconnect).next() if rule_of(error) == wire.NOTIFY_TAKEN else 0.0
                if not pause:
                    raise
                time.sleep(pause)

    def again(self, call: Callable[[], Result], is_safe: bool, on_repeat: Optional[Callable[[], Any]] = None) -> Result:
        return again(self.reconnect, call, is_safe, on_repeat)

    def ask_home(self, thing: Thing, opcode: int, fields: bytes, wanted: int, late: OnLate) -> bytes:
        home, answer = self.at_home(), None
        try:
            answer = home.ask(opcode, self.opened_on(home, thing) + fields, wanted, late, thing.room)
            return answer
        finally:
            self.finish(home, late, wanted, answer)

    def finish(self, home: Optional[Connection], late: OnLate, opcode: int, answer: Optional[bytes]) -> None:
        """What is done after a call. Where a signal's handler raises amid it, the call's answer counts as late, so that no message is dropped."""
        try:
            if home is not None:
                self.tell(home)
            self.leave()
        except BaseException:
            if answer is not None:
                late(opcode, answer)
            raise

    def opened_on(self, home: Connection, thing: Thing) -> bytes:
        """Its description there. Where that is lost meanwhile, the call itself never left."""
        try:
            return thing.open_on(home)
        except ConnectionLost as error:
            error.is_unsent = True
            raise

    def attempt(self, thing: Thing, call: Call) -> Optional[bytes]:
        """Asks home, under the lock. None where the call would block."""
        try:
            return self.ask_home(thing, call.at_home, call.head + call.rest, call.answer, thing.take_late)
        except BusyError as error:
            if rule_of(error) != wire.WOULD_BLOCK:
                raise
            return None

    def side_at_once(self, thing: Thing, call: Call) -> Optional[Connection]:
        """A side for a call with a timeout that needn't be asked at home first: one request does then, whether it blocks or not. Home comes
        first where no side is at hand, since most calls don't block; where the server doesn't get the moment; and for a send whose own
        notice may come, which comes to home."""
        self.opened_on(self.at_home(), thing)
        if call.opcode == wire.MQ_SEND and self.watched:
            return None
        return next((c for c in self.free_sides() if thing.reference in c.opened and c.shared_clock), None)

    def perform(self, thing: Thing, call: Call, timeout: Optional[float], blocks: bool = True) -> Optional[bytes]:
        """The answer, or None if it would have come too late."""
        if timeout is not None and not timeout >= 0:
            raise ValueError("the timeout must not be negative")
        until = None if timeout is None else time.monotonic() + timeout
        before, waits.limit.end = waits.limit.end, None if until is None else until + waits.LAST_S
        try:
            if not self.reconnect:
                return self.perform_until(thing, call, until, bool(timeout), blocks)
            return self.again(lambda: self.perform_until(thing, call, until, bool(timeout), blocks), call.answer == wire.RECEIVED,
                              thing.count_repeat)
        except TooLate as error:
            if call.answer == wire.SENT:
                raise unknown(error) from None
            raise
        finally:
            waits.limit.end = before

    def perform_until(self, thing: Thing, call: Call, until: Optional[float], at_once: bool, blocks: bool) -> Optional[bytes]:
        with self.locked():
            self.settle()
            side = self.side_at_once(thing, call) if at_once and blocks else None
            kept = thing.take_kept(call)
            if kept is not None:
                return kept
            if side is None:
                answer = self.attempt(thing, call)
                if answer is not None or not blocks or until is not None and until <= time.monotonic():
                    return answer
                side = self.side_for(thing, until)
            if side is not None:
                side.begin_for(thing)
                self.busy.add(side)
        return self.ask_again(thing, call, until) if side is None else self.ask_side(side, thing, call, until)

    def settle(self) -> None:
        """Waits for what is late, since the next receive begins with it."""
        for c in (self.home, self.aside, *self.sides):
            if c is not None and c.late and not c.lost and not c.amid and c not in self.busy:
                with contextlib.suppress(ConnectionLost):
                    c.settle()

    def ask_side(self, side: Connection, thing: Thing, call: Call, until: Optional[float]) -> Optional[bytes]:
        answer = None
        try:
            side.room = thing.room
            answer = side.ask_until(call, struct.pack(">Q", side.opened[thing.reference]), until, thing.take_late)
            if answer is None and thing.closed:
                raise ExistentialError("it was closed meanwhile")
            return answer
        finally:
            self.busy.discard(side)
            if self.dropped or self.leaving or self.returning:
                with contextlib.suppress(BusyError), self.locked():
                    self.finish(None, thing.take_late, call.answer, answer)

    def ask_again(self, thing: Thing, call: Call, until: Optional[float]) -> Optional[bytes]:
        """Where no side can be had: asks home more and more slowly."""
        pause, answer = waits.FIRST_PAUSE_S, None
        while answer is None and (until is None or time.monotonic() < until):
            time.sleep(pause if until is None else max(0.0, min(pause, until - time.monotonic())))
            pause = min(2 * pause, waits.LAST_PAUSE_S)
            with self.locked():
                answer = self.attempt(thing, call)
        return answer

    def tell(self, home: Connection) -> None:
        """Does what was asked for on notices that came. Nothing is raised where the connection is lost: the next call sees it."""
        if home.data and not home.lost:
            with contextlib.suppress(ConnectionLost):
                home.put_aside()
        if home.notices:
            self.act(home)

    def act(self, home: Connection) -> None:
        while home.notices:
            _, action = self.watched.pop(home.notices.pop(0), (None, None))
            if callable(action):
                threading.Thread(target=action, daemon=True).start()
            elif action is not None:
                os.kill(os.getpid(), action)

    def listen(self) -> None:
        """Waits for notices that come between calls, until home is lost."""
        while True:
            with self.lock:
                if self.home is not None and self.home.lost and not self.home.amid:
                    self.lose_home(self.home)
                homes = [c for c in self.homes() if not c.lost]
                if not homes:
                    self.listener = None
                    return
                try:
                    for home in homes:
                        while home.read_some(0.0):
                            pass
                        self.tell(home)
                except ConnectionLost:
                    continue
                sources = [home.socket for home in homes]
            try:
                dial.readable(sources, 0.5)
            except (OSError, ValueError):
                pass   # closed meanwhile

    def watch(self, thing: Thing, description: int, action: Union[int, Callable[[], None]]) -> None:
        self.watched[description] = thing, action   # until its notice the object isn't dropped
        if self.listener is None:
            self.listener = threading.Thread(target=self.listen, daemon=True)
            self.listener.start()

    def close(self, thing: Thing) -> None:
        with waits.Ending(None), self.lock:
            self.settle()
            self.things.discard(thing)
            thing.closed = True
            for side in [c for c in self.busy if c.user is thing]:
                side.wake()
            self.drop(thing.reference)
            self.leave()

    def leave(self) -> None:
        """Closes what was closed or dropped, but where a call goes on: there it is closed after that. Nothing is raised, since the call that
        was just made has its own answer."""
        while self.dropped:
            reference = self.dropped.popleft()
            self.leaving += [(c, reference) for c in self.homes() + self.sides if reference in c.opened]
        for entry in self.leaving[:]:
            c, reference = entry
            if not c.amid and c not in self.busy and entry in self.leaving:
                self.leaving.remove(entry)
                self.close_on(c, reference)
        while self.returning and not (self.home and self.home.amid):
            thing = self.returning.popleft()
            with contextlib.suppress(Error, OSError):
                home = self.at_home()
                home.ask(wire.SEM_POST, thing.open_on(home), wire.DONE)

    def send_back(self, home: Connection, description: int, reference: Reference) -> None:
        """What came after the ends of receives, and nobody will receive here any more."""
        while reference.kept:
            try:
                home.ask(wire.MQ_SEND, struct.pack(">Q", description) + reference.kept[0], wire.SENT)
                reference.kept.popleft()
            except (Error, OSError, ValueError) as error:
                log.warning("%d messages that came after the ends of their receives are lost: %s", len(reference.kept), error)
                return

    def close_on(self, c: Connection, reference: Reference) -> None:
        description = c.opened.pop(reference, None)
        if description is None or c.lost:
            return
        if reference.kept and c is self.home:
            self.send_back(c, description, reference)
        with contextlib.suppress(Error, OSError, ValueError):
            c.ask(reference.closing, struct.pack(">Q", description), wire.DONE)
        self.act(c)
        self.watched.pop(description, None)

    def unlink(self, family: Type[Thing], name: str) -> None:
        """Where it is made again after a loss and the name is gone, the first try has removed it."""
        def once() -> None:
            with self.lock:
                self.leave()
                self.at_home().ask(family._UNLINK, wire.text(name), wire.DONE)
        repeats: List[None] = []
        with waits.Ending(None):
            try:
                self.again(once, True, lambda: repeats.append(None))
            except ExistentialError as error:
                if not repeats or rule_of(error) != wire.ABSENT:
                    raise
        for thing in list(self.things):
            if type(thing) is family and thing.name == name:
                thing.gone = True
