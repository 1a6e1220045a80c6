"""The tests of mqserve, beside a server: MQSERVE and MQSERVE_KEY, as tests/with_server sets them. What posix_ipc's documentation promises,
and what becomes of a server that lies or falls silent."""
import os
import resource
import signal
import socket
import sys
import tempfile
import threading
import time
import unittest

import mqserve as ipc
from mqserve import _connection as connection, _dial as dial, _waits as waits, _wire as wire

sys.path.append(os.path.join(os.path.dirname(os.path.abspath(__file__)), os.pardir, "tests"))
from relay import Relay, own_address  # noqa: E402

BUSY_S = 5.0        # what a busy machine may take. A call whose end is missed takes ten seconds, or has none


def rule_of(test, call, *words, **named):
    """The rule that refuses the call."""
    with test.assertRaises(Exception) as caught:
        call(*words, **named)
    return getattr(caught.exception, "rule", 0)


def in_child(call):
    """The status of a child that makes the call: 0 if nothing was raised."""
    pid = os.fork()
    if pid == 0:
        status = 1
        try:
            call()
            status = 0
        finally:
            os._exit(status)
    return os.waitstatus_to_exitcode(os.waitpid(pid, 0)[1]) if hasattr(os, "waitstatus_to_exitcode") else os.waitpid(pid, 0)[1]


class Thing(unittest.TestCase):
    """Removes and closes what a test made."""

    def keep(self, thing):
        self.addCleanup(self.end, thing)
        return thing

    @staticmethod
    def end(thing):
        for call in (thing.unlink, thing.close):
            try:
                call()
            except (ipc.ExistentialError, ipc.ConnectionLost):
                pass


class Semaphores(Thing):
    def setUp(self):
        self.sem = self.keep(ipc.Semaphore(None, ipc.O_CREX, initial_value=1))

    def test_create_twice(self):
        self.assertRaises(ipc.ExistentialError, ipc.Semaphore, self.sem.name, ipc.O_CREX)

    def test_absent(self):
        self.assertRaises(ipc.ExistentialError, ipc.Semaphore, "/absent")

    def test_exclusive_needs_create(self):
        self.assertRaises(ValueError, ipc.Semaphore, "/absent", ipc.O_EXCL)

    def test_open_again(self):
        other = ipc.Semaphore(self.sem.name)
        other.acquire()
        self.assertEqual(self.sem.value, 0)
        other.close()

    def test_acquire_and_release(self):
        self.sem.acquire()
        self.assertEqual(self.sem.value, 0)
        self.assertRaises(ipc.BusyError, self.sem.acquire, 0)
        start = time.monotonic()
        self.assertRaises(ipc.BusyError, self.sem.acquire, 0.2)
        self.assertGreater(time.monotonic() - start, 0.19)
        self.sem.release()
        self.assertEqual(self.sem.value, 1)

    def test_negative_timeout(self):
        self.assertRaises(ValueError, self.sem.acquire, -1)

    def test_with(self):
        with self.sem as s:
            self.assertEqual(s.value, 0)
        self.assertEqual(self.sem.value, 1)

    def test_threads(self):
        self.sem.acquire()
        got = []
        threads = [threading.Thread(target=lambda: (self.sem.acquire(), got.append(1))) for _ in range(5)]
        for t in threads:
            t.start()
        time.sleep(0.2)
        self.assertEqual(got, [])
        for _ in threads:
            self.sem.release()
        for t in threads:
            t.join(5)
        self.assertEqual(len(got), 5)

    def test_unlinked_still_works(self):
        self.sem.unlink()
        self.sem.acquire()
        self.assertRaises(ipc.BusyError, self.sem.acquire, 0.1)
        threading.Timer(0.1, self.sem.release).start()
        self.sem.acquire(5)

    def test_unlinked_by_function(self):
        ipc.unlink_semaphore(self.sem.name)
        self.assertRaises(ipc.ExistentialError, ipc.unlink_semaphore, self.sem.name)
        self.assertRaises(ipc.ExistentialError, ipc.Semaphore, self.sem.name)

    def test_fork(self):
        self.sem.acquire()
        self.assertEqual(in_child(self.sem.release), 0)
        self.sem.acquire(5)

    def test_handler_that_raises(self):
        def stop(*_):
            raise KeyboardInterrupt
        self.sem.acquire()
        signal.signal(signal.SIGALRM, stop)
        signal.setitimer(signal.ITIMER_REAL, 0.2)
        self.assertRaises(KeyboardInterrupt, self.sem.acquire)
        self.sem.release()
        self.sem.acquire(5)

    def test_handler_that_returns(self):
        self.sem.acquire()
        signal.signal(signal.SIGALRM, lambda *_: self.sem.release())
        signal.setitimer(signal.ITIMER_REAL, 0.2)
        self.sem.acquire(5)

    def test_values(self):
        self.assertEqual(rule_of(self, ipc.Semaphore, None, ipc.O_CREX, 0o600, 2147483648), 21)
        self.assertRaises(ValueError, ipc.Semaphore, None, ipc.O_CREX, 0o600, -1)
        full = self.keep(ipc.Semaphore(None, ipc.O_CREX, initial_value=ipc.SEMAPHORE_VALUE_MAX))
        self.assertEqual(rule_of(self, full.release), 30)
        self.assertEqual(full.value, ipc.SEMAPHORE_VALUE_MAX)

    def test_closed(self):
        self.sem.close()
        for call in (self.sem.close, self.sem.acquire, self.sem.release, lambda: self.sem.value):
            self.assertRaises(ipc.ExistentialError, call)

    def test_mode(self):
        old = os.umask(0o777)
        try:
            closed = self.keep(ipc.Semaphore(None, ipc.O_CREX, 0o600))
            self.assertEqual(rule_of(self, ipc.Semaphore, closed.name), 15)
        finally:
            os.umask(old)


class Queues(Thing):
    def setUp(self):
        self.q = self.keep(ipc.MessageQueue(None, ipc.O_CREX, max_messages=3, max_message_size=64))

    def test_priorities(self):
        for text, prio in (("a", 1), ("b", 5), ("c", 5)):
            self.q.send(text, priority=prio)
        self.assertEqual(self.q.current_messages, 3)
        self.assertRaises(ipc.BusyError, self.q.send, "d", 0.1)
        self.assertEqual([self.q.receive() for _ in range(3)], [(b"b", 5), (b"c", 5), (b"a", 1)])
        self.assertRaises(ipc.BusyError, self.q.receive, 0)

    def test_sizes(self):
        self.assertEqual((self.q.max_messages, self.q.max_message_size), (3, 64))
        self.assertEqual(rule_of(self, self.q.send, "x" * 65), 26)
        self.assertRaises(ValueError, self.q.send, "x", priority=32768)
        self.q.send(b"")
        self.assertEqual(self.q.receive(), (b"", 0))
        self.q.send("\u20ac")
        self.assertEqual(self.q.receive()[0], "\u20ac".encode())

    def test_attributes_out_of_range(self):
        self.assertEqual(rule_of(self, ipc.MessageQueue, None, ipc.O_CREX, max_messages=0), 20)
        self.assertEqual(rule_of(self, ipc.MessageQueue, None, ipc.O_CREX, max_message_size=8193), 20)
        self.assertRaises(ValueError, ipc.MessageQueue, None, ipc.O_CREX, max_messages=-1)
        self.assertRaises(ValueError, ipc.MessageQueue, None, ipc.O_CREX, read=False, write=False)

    def test_names(self):
        self.assertEqual(rule_of(self, ipc.MessageQueue, "no slash", ipc.O_CREAT), 4)
        self.assertEqual(rule_of(self, ipc.MessageQueue, "/" + "n" * 256, ipc.O_CREAT), 5)
        self.assertRaises(ValueError, ipc.MessageQueue, "/" + "n" * 70000, ipc.O_CREAT)

    def test_limit_of_bytes(self):
        with self.assertRaises(OSError) as caught:
            for i in range(30):
                self.keep(ipc.MessageQueue(f"/limit{i}", ipc.O_CREX))
        self.assertEqual(caught.exception.rule, 23)

    def test_block(self):
        self.q.block = False
        self.assertRaises(ipc.BusyError, self.q.receive)
        self.assertRaises(ipc.BusyError, self.q.receive, 5)

    def test_blocked_receive(self):
        threading.Timer(0.2, self.q.send, ("late",)).start()
        self.assertEqual(self.q.receive(), (b"late", 0))

    def test_blocked_send(self):
        for _ in range(3):
            self.q.send("x")
        threading.Timer(0.2, self.q.receive).start()
        self.q.send("y", 5)
        self.assertEqual(self.q.current_messages, 3)

    def test_each_message_once(self):
        got = []
        receivers = [threading.Thread(target=lambda: got.extend(self.q.receive(10)[0] for _ in range(25))) for _ in range(4)]
        senders = [threading.Thread(target=lambda n=n: [self.q.send(f"{n} {i}") for i in range(25)]) for n in range(4)]
        for t in receivers + senders:
            t.start()
        for t in receivers + senders:
            t.join(30)
        self.assertEqual(sorted(got), sorted(f"{n} {i}".encode() for n in range(4) for i in range(25)))

    def test_fork(self):
        self.assertEqual(in_child(lambda: self.q.send("child")), 0)
        self.assertEqual(self.q.receive(5), (b"child", 0))

    def test_notices(self):
        came = threading.Event()
        self.q.request_notification((lambda event: event.set(), came))
        self.assertEqual(rule_of(self, self.q.request_notification, signal.SIGUSR1), 28)
        self.q.send("x")
        self.assertTrue(came.wait(5))
        hits = []
        signal.signal(signal.SIGUSR1, lambda *_: hits.append(1))
        self.q.receive()
        self.q.request_notification(int(signal.SIGUSR1))
        self.assertEqual(in_child(lambda: self.q.send("y")), 0)
        for _ in range(50):
            time.sleep(0.02)
        self.assertEqual(hits, [1])
        self.q.receive()
        self.q.request_notification(int(signal.SIGUSR1))
        self.q.request_notification(None)
        self.q.send("z")
        time.sleep(0.1)
        self.assertEqual(hits, [1])

    def test_access(self):
        reader = ipc.MessageQueue(self.q.name, write=False)
        writer = ipc.MessageQueue(self.q.name, read=False)
        self.assertEqual(rule_of(self, reader.send, "x"), 9)
        self.assertEqual(rule_of(self, writer.receive), 10)
        reader.close()
        writer.close()
        self.assertRaises(ipc.ExistentialError, reader.receive)
        self.assertGreaterEqual(self.q.mqd, 0)

    def test_what_is_no_message(self):
        for message in (3, [1, 2], None, 1.5):
            self.assertRaises(TypeError, self.q.send, message)
        for message in (bytearray(b"bytes"), memoryview(b"bytes")):
            self.q.send(message)
            self.assertEqual(self.q.receive(), (b"bytes", 0))

    def test_no_such_signal(self):
        for number in (-1, 0, signal.NSIG, 9999):
            self.assertRaises(ValueError, self.q.request_notification, number)
        self.q.request_notification(int(signal.SIGUSR1))
        self.q.request_notification()

    def test_texts(self):
        self.assertIn(self.q.name, repr(self.q))
        self.assertEqual(ipc.O_CREX, os.O_CREAT | os.O_EXCL)


class Relayed(Thing):
    """Beside a relay, which sees what is asked of the server."""

    def begin(self, shared_clock=None, **how):
        relay, before = Relay(os.environ["MQSERVE"], **how), ipc._server
        ipc.use(relay.address, os.environ["MQSERVE_KEY"], shared_clock=shared_clock)
        self.addCleanup(self.leave, relay, before)
        self.relay = relay
        self.q = self.keep(ipc.MessageQueue(None, ipc.O_CREX, max_messages=1, max_message_size=8))
        self.sem = self.keep(ipc.Semaphore(None, ipc.O_CREX))

    @staticmethod
    def leave(relay, before):
        ipc._server.forget()
        ipc._server = before
        relay.close()


class Handlers(Relayed):
    """What becomes of a call that is answered at once, and of its connection, where a signal's handler comes amid it."""

    def setUp(self):
        self.begin()
        self.relay.requests.clear()

    def amid(self, call, handler, *words):
        """Makes the call, and runs the handler while its answer is held back."""
        signal.signal(signal.SIGALRM, lambda *_: handler())
        self.relay.holding.append(lambda: os.kill(os.getpid(), signal.SIGALRM))
        return call(*words)

    def test_raises(self):
        def stop():
            raise KeyboardInterrupt
        self.assertRaises(KeyboardInterrupt, self.amid, self.sem.release, stop)
        for _ in range(2):
            self.assertRaises(ipc.ConnectionLost, self.sem.acquire, 0)
        again = self.keep(ipc.Semaphore(self.sem.name))
        self.assertEqual(again.value, 1)

    def test_asks(self):
        """Each gets its own answer."""
        self.assertRaises(ipc.BusyError, self.amid, self.sem.acquire, self.sem.release, 0)
        self.assertEqual(self.sem.value, 1)
        self.q.send("one")
        got = []
        self.assertEqual(self.amid(self.q.receive, lambda: got.append(self.sem.value), 0), (b"one", 0))
        self.assertEqual(got, [1])
        self.assertEqual(self.relay.requests.count(1), 1)   # one more connection serves all handlers

    def test_asks_for_notices(self):
        came = threading.Event()
        self.amid(self.sem.release, lambda: self.q.request_notification((lambda event: event.set(), came)))
        self.assertEqual(in_child(lambda: self.q.send("one")), 0)
        self.assertTrue(came.wait(5))
        self.q.receive(0)
        self.amid(self.sem.release, lambda: self.q.request_notification(int(signal.SIGUSR1)))
        self.q.request_notification()
        self.q.request_notification(int(signal.SIGUSR1))    # the first one is gone: of two the second is refused

    def test_closes(self):
        other = ipc.Semaphore(None, ipc.O_CREX)
        other.unlink()
        self.relay.requests.clear()
        self.amid(self.sem.release, other.close)
        self.assertEqual(self.relay.requests.count(12), 2)  # at home and on the spare side
        self.assertRaises(ipc.ExistentialError, other.release)

    def test_within_a_handler(self):
        """A handler amid a call of a handler amid a call has no connection left."""
        def once_more():
            self.amid(self.sem.release, lambda: got.append(rule_of(self, self.sem.release)))
        got = []
        self.amid(self.sem.release, self.sem.release)       # the further connection is there
        self.amid(self.sem.release, once_more)
        self.assertEqual((got, self.sem.value), ([0], 4))


class Moments(Relayed):
    """What calls with a timeout ask of the server, as a relay in between sees it, and that none ends before its timeout."""

    def poll(self, requests, call, *words, timeout=0.1):
        """The call finds nothing, and asks this."""
        self.relay.requests.clear()
        start = time.monotonic()
        with self.assertRaises(ipc.BusyError) as caught:
            call(*words, timeout=timeout)
        took = time.monotonic() - start
        self.assertGreaterEqual(took, timeout)
        self.assertLess(took, timeout + waits.LATE_S + BUSY_S)
        self.assertEqual(self.relay.requests, requests)
        self.assertEqual(caught.exception.rule, 0)

    def test_one_request_a_timeout(self):
        self.begin()
        for _ in range(3):
            self.poll([27], self.q.receive)
            self.poll([28], self.sem.acquire)
        self.q.send("full")
        for timeout in (0.0001, 0.05, 1):
            self.poll([26], self.q.send, "more", timeout=timeout)
        self.assertEqual(self.q.receive(5), (b"full", 0))
        self.assertEqual(self.q.current_messages, 0)

    def test_served(self):
        self.begin()
        self.relay.requests.clear()
        self.q.send("now", timeout=5, priority=7)
        self.assertEqual(self.q.receive(5), (b"now", 7))
        self.sem.release()
        self.sem.acquire(5)
        self.assertEqual(self.relay.requests, [26, 27, 14, 28])
        threading.Timer(0.2, self.q.send, ("late",)).start()
        self.assertEqual(self.q.receive(20), (b"late", 0))

    def test_timeouts_without_end(self):
        self.begin()
        for timeout in (1e9, 1e12, 1e300, float("inf")):
            self.sem.release()
            self.sem.acquire(timeout)
            threading.Timer(0.1, self.sem.release).start()
            self.sem.acquire(timeout)
        self.assertRaises(ValueError, self.sem.acquire, float("nan"))

    def test_home_first(self):
        self.begin()
        self.poll([7], self.q.receive, timeout=0)
        self.q.block = False
        self.poll([7], self.q.receive, timeout=0)
        self.relay.requests.clear()
        self.assertRaises(ipc.BusyError, self.q.receive, 5)
        self.assertEqual(self.relay.requests, [7])
        self.q.block = True
        came = threading.Event()
        self.q.request_notification((lambda event: event.set(), came))
        self.relay.requests.clear()
        self.q.send("noticed", timeout=5)
        self.assertTrue(came.wait(5))
        self.assertEqual(self.relay.requests, [6])

    def test_no_side_at_hand(self):
        self.begin()
        ipc._server.busy.update(ipc._server.sides)
        self.poll([7, 1, 2, 3, 27], self.q.receive)
        self.poll([27], self.q.receive)

    def test_handler_that_raises(self):
        def stop(*_):
            raise KeyboardInterrupt
        self.begin()
        signal.signal(signal.SIGALRM, stop)
        self.relay.requests.clear()
        signal.setitimer(signal.ITIMER_REAL, 0.1)
        self.assertRaises(KeyboardInterrupt, self.q.receive, 20)
        self.assertEqual(self.relay.requests, [27, 23])
        self.q.send("kept")
        self.assertEqual(self.q.receive(5), (b"kept", 0))

    def test_child(self):
        self.begin()
        self.assertEqual(in_child(lambda: self.assertRaises(ipc.BusyError, self.q.receive, 0.1)), 0)
        self.poll([27], self.q.receive)

    def test_child_of_an_earlier_server(self):
        """A child connects anew too for what was opened before the last call of use."""
        self.begin()
        first = ipc._server
        try:
            ipc.use(self.relay.address, os.environ["MQSERVE_KEY"])
            self.relay.requests.clear()
            self.assertEqual(in_child(self.sem.release), 0)
            self.assertEqual(self.relay.requests[0], 1)
            self.sem.acquire(0)
        finally:
            ipc._server = first

    def test_no_free_worker(self):
        """A wait for a further connection ends with the call's own."""
        self.begin()
        ipc._server.busy.update(ipc._server.sides)
        with socket.create_server(("127.0.0.1", 0)) as nobody:
            ipc._server.address = "127.0.0.1:%d" % nobody.getsockname()[1]
            self.addCleanup(setattr, waits, "SIDE_S", waits.SIDE_S)
            waits.SIDE_S = 10.0
            start = time.monotonic()
            self.assertRaises(ipc.BusyError, self.sem.acquire, 0.1)
            self.assertLess(time.monotonic() - start, 0.1 + BUSY_S)

    def test_own_clock(self):
        self.begin(shared_clock=False)
        self.old_way()
        self.assertRaises(ValueError, self.sem.acquire, float("nan"))

    def test_other_machine(self):
        """By an address of this machine that isn't a loopback one."""
        if own_address() is None:
            self.skipTest("this machine has loopback addresses alone")
        self.begin(host=own_address())
        self.old_way()

    def old_way(self):
        self.poll([7, 7, 23], self.q.receive)
        self.poll([16, 15, 23], self.sem.acquire)
        self.q.send("full", timeout=5)
        self.poll([6, 6, 23], self.q.send, "more")
        self.assertEqual(self.q.receive(), (b"full", 0))

    def test_clock_ahead(self):
        self.begin(ahead=3600000)
        self.poll([27, 7, 23], self.q.receive)
        self.old_way()

    def test_clock_behind(self):
        self.begin(ahead=-3600000)
        self.poll([27, 23], self.q.receive)
        self.old_way()

    def test_whose_clock(self):
        class Peer:
            def __init__(self, address, family=socket.AF_INET):
                self.address, self.family = address, family

            def getpeername(self):
                if self.address is None:
                    raise OSError
                return self.address, 7000
        for address in ("127.0.0.1", "127.255.3.2", "::1", "::ffff:127.0.0.1"):
            self.assertTrue(dial.is_here(Peer(address)), address)
        for address in ("128.0.0.1", "10.0.0.127", "0.0.0.0", "1.127.0.1", "::2", "fe80::1%eth0", "::ffff:10.0.0.1", None):
            self.assertFalse(dial.is_here(Peer(address)), address)
        self.assertTrue(dial.is_here(Peer("", socket.AF_UNIX)))

    def test_deadlines(self):
        for seconds in (0.0001, 0.5, 100.0, 1e9):
            before = time.time_ns()
            deadline = int.from_bytes(waits.deadline(time.monotonic() + seconds), "big")
            after = time.time_ns()
            self.assertGreaterEqual(deadline * 1000000, before + int(seconds * 1e9) - 1000)
            self.assertLess(deadline * 1000000, after + int(seconds * 1e9) + 1001000)
        self.assertEqual(waits.deadline(time.monotonic()), bytes(8))
        self.assertEqual(waits.deadline(time.monotonic() - 5), bytes(8))
        for seconds in (1e11, 1e300, float("inf")):
            self.assertEqual(waits.deadline(time.monotonic() + seconds), b"\xff" * 8)


class Liar:
    """A server that answers a hello and a mask, and then calls with the bytes that it was given, one after the other; None is silence."""

    def __init__(self, *answers):
        self.answers, self.listener = answers, socket.create_server(("127.0.0.1", 0))
        self.address = "127.0.0.1:%d" % self.listener.getsockname()[1]
        threading.Thread(target=self.serve, daemon=True).start()

    def serve(self):
        connection = self.listener.accept()[0]
        for answer in (b"\0\0\0\x09A" + bytes(8), b"\0\0\0\x03D\0\x12", *self.answers):
            connection.recv(65536)
            if answer is None:
                time.sleep(2)
            else:
                connection.sendall(answer)
        connection.close()


class Connections(unittest.TestCase):
    def ends(self, answer, seconds=0.3):
        liar = Liar(answer)
        c = connection.Connection(liar.address, "key", 10.0)
        c.bound = seconds
        start = time.monotonic()
        self.assertRaises(ipc.ConnectionLost, c.ask, wire.MQ_CLOSE, bytes(8), wire.DONE)
        self.assertLess(time.monotonic() - start, seconds + BUSY_S)
        self.assertTrue(c.lost)
        self.assertRaises(ipc.ConnectionLost, c.ask, wire.MQ_CLOSE, bytes(8), wire.DONE)
        liar.listener.close()

    def test_lies(self):
        for answer in (b"", b"\0\0", b"\0\0\0\0\0", b"\xff\xff\xff\xffB", b"\0\0\0\x02BB", b"\0\0\0\x01\0", b"\0\0\0\x01F", b"\0\0\0\x03L\0\0",
                       b"\0\0\0\x03L\0\x22", b"\0\0\0\x06G\0\0\0\0x", b"\0\0\0\x09C" + bytes(8), b"\0\0\0\x03NN"):
            with self.subTest(answer=answer):
                self.ends(answer)

    def test_silence(self):
        self.ends(None)

    def test_notices_without_end(self):
        self.ends((b"\0\0\0\x09N" + bytes(8)) * 1000)

    def test_notice_with_an_answer(self):
        """A notice behind the registration's answer is the new one's, and one before it that of an earlier one."""
        opened, attributes = b"\0\0\0\x09C" + bytes(8), b"\0\0\0\x0eE" + bytes(13)
        done, notice = b"\0\0\0\x01B", b"\0\0\0\x09N" + bytes(8)
        liar, before, told = Liar(opened, attributes, done, notice + done, done + notice), ipc._server, []
        came = threading.Event()
        try:
            ipc.use(liar.address, "key", spares=0)
            queue = ipc.MessageQueue("/queue")
            for which in ("first", "second", "third"):
                queue.request_notification((lambda which: (told.append(which), which == "third" and came.set()), which))
            self.assertTrue(came.wait(5))
            self.assertEqual(sorted(told), ["first", "third"])
        finally:
            ipc._server.forget()
            ipc._server = before
            liar.listener.close()

    def test_closed_amid_a_call(self):
        """As by another thread, once the request was written."""
        c = connection.Connection(os.environ["MQSERVE"], os.environ["MQSERVE_KEY"], 5.0)
        c.has_answer = c.close
        self.assertRaises(ipc.ConnectionLost, c.ask, wire.MQ_CLOSE, bytes(8), wire.DONE)

    def test_fork_while_a_thread_connects(self):
        """The child has no copy of the socket: the stream ends with the parent's."""
        with socket.create_server(("127.0.0.1", 0)) as listener:
            address = "127.0.0.1:%d" % listener.getsockname()[1]
            thread = threading.Thread(target=lambda: self.assertRaises(ipc.BusyError, connection.Connection, address, "key", 0.5))
            thread.start()
            with listener.accept()[0] as accepted:
                accepted.recv(64)
                child = os.fork()
                if child == 0:
                    time.sleep(60)
                    os._exit(1)
                thread.join()
                try:
                    accepted.settimeout(5)
                    self.assertEqual(accepted.recv(64), b"")
                finally:
                    os.kill(child, signal.SIGKILL)
                    os.waitpid(child, 0)

    def test_many_files(self):
        """A connection may be a file with a number that select doesn't know."""
        limits = resource.getrlimit(resource.RLIMIT_NOFILE)
        if limits[1] != resource.RLIM_INFINITY and limits[1] < 1100:
            self.skipTest("so many files may not be open here")
        resource.setrlimit(resource.RLIMIT_NOFILE, (1100, limits[1]))
        files = []
        try:
            while not files or files[-1] < 1024:
                files.append(os.open(os.devnull, os.O_RDONLY))
            c = connection.Connection(os.environ["MQSERVE"], os.environ["MQSERVE_KEY"], 5.0)
            self.assertGreater(c.socket.fileno(), 1023)
            c.close()
        finally:
            for file in files:
                os.close(file)
            resource.setrlimit(resource.RLIMIT_NOFILE, limits)

    def test_wrong_key(self):
        self.assertEqual(rule_of(self, connection.Connection, os.environ["MQSERVE"], "nobody", 5.0), 31)

    def test_no_server(self):
        with socket.create_server(("127.0.0.1", 0)) as nobody:
            address = "127.0.0.1:%d" % nobody.getsockname()[1]
            self.assertRaises(ipc.BusyError, connection.Connection, address, "ka1", 0.2)
        self.assertRaises(ConnectionRefusedError, connection.Connection, address, "ka1", 1.0)
        self.assertRaises(ValueError, connection.Connection, "nonsense", "ka1", 1.0)

    def test_paths(self):
        with tempfile.TemporaryDirectory() as room, socket.socket(socket.AF_UNIX) as listener:
            address = f"unix:{room}/socket"
            self.assertRaises(FileNotFoundError, connection.Connection, address, "ka1", 1.0)
            listener.bind(address[5:])
            self.assertRaises(ConnectionRefusedError, connection.Connection, address, "ka1", 1.0)
            listener.listen(0)
            with socket.socket(socket.AF_UNIX) as waiting:
                waiting.connect(address[5:])
                signal.signal(signal.SIGALRM, lambda *_: None)
                for default, alarm in ((None, 0), (None, 0.1), (5.0, 0)):
                    socket.setdefaulttimeout(default)
                    signal.setitimer(signal.ITIMER_REAL, alarm)
                    start = time.monotonic()
                    self.assertRaises(ipc.BusyError, connection.Connection, address, "ka1", 0.2)
                    self.assertGreater(time.monotonic() - start, 0.19)
                socket.setdefaulttimeout(None)
        self.assertRaises(OSError, connection.Connection, "unix:" + 200 * "x", "ka1", 1.0)

    def test_lost_home(self):
        before = ipc._server
        try:
            ipc.use(os.environ["MQSERVE"], os.environ["MQSERVE_KEY"])
            s = ipc.Semaphore(None, ipc.O_CREX)
            ipc._server.home.socket.shutdown(socket.SHUT_RDWR)
            self.assertRaises(ipc.ConnectionLost, s.release)
            self.assertRaises(ipc.ConnectionLost, s.release)
            again = ipc.Semaphore(s.name)
            again.release()
            self.assertRaises(ipc.ConnectionLost, s.release)
            again.unlink()
            again.close()
        finally:
            ipc._server.forget()
            ipc._server = before

    def test_key_file(self):
        before = ipc._server
        with tempfile.NamedTemporaryFile("w") as file:
            file.write(os.environ["MQSERVE_KEY"] + "\n")
            file.flush()
            key = os.environ.pop("MQSERVE_KEY")
            try:
                ipc._server = None
                self.assertRaises(ipc.PermissionsError, ipc.unlink_semaphore, "/absent")
                os.environ["MQSERVE_KEY_FILE"] = file.name
                self.assertRaises(ipc.ExistentialError, ipc.unlink_semaphore, "/absent")
            finally:
                os.environ["MQSERVE_KEY"] = key
                if ipc._server is not None:
                    ipc._server.forget()
                ipc._server = before


if __name__ == "__main__":
    unittest.main()
