"""What becomes of calls where something went wrong, next to a server: MQSERVE and MQSERVE_KEY, as tests/with_server sets them. A relay in
between stands still, is gone or begins anew at the same address, as a server would that kept its queues in a trail."""
import contextlib
import gc
import os
import signal
import socket
import threading
import time
import unittest

import mqserve as ipc
from mqserve import _connection as connection, _dial as dial, _waits as waits, _wire as wire, jobs as mqserve_jobs
from test_mqserve import BUSY_S, Relay, Relayed, Thing, in_child

STILL_S, SOON_S = 0.2, 0.4


class Still(Relayed):
    """Next to a server that stands still: a timed call ends two seconds after its moment at the latest, and nothing is lost by it."""

    def setUp(self):
        self.latest = waits.LAST_S = SOON_S
        waits.LATE_S = SOON_S / 2
        self.addCleanup(self.as_it_is)
        self.begin()
        self.addCleanup(lambda: self.relay.flowing.set())
        before = ipc._server
        ipc.use(os.environ["MQSERVE"], os.environ.get("MQSERVE_KEY", ""))
        self.direct = ipc.MessageQueue(self.q.name)
        self.post = ipc.Semaphore(self.sem.name)
        ipc._server = before

    def as_it_is(self):
        self.latest, waits.LAST_S, waits.LATE_S = 2.0, 2.0, 1.0

    def ends(self, call, *words, error=ipc.BusyError, seconds=STILL_S):
        start = time.monotonic()
        self.assertRaises(error, call, *words, seconds)
        self.assertLess(time.monotonic() - start, seconds + self.latest + BUSY_S)

    def test_on_a_side(self):
        self.as_it_is()
        self.relay.flowing.clear()
        for call in (self.q.receive, self.sem.acquire):
            self.ends(call)
        self.direct.send("late")
        self.post.release()
        self.relay.flowing.set()
        self.assertEqual(self.q.receive(5), (b"late", 0))
        self.sem.acquire(5)
        self.assertEqual((self.direct.current_messages, self.post.value), (0, 0))

    def test_at_home(self):
        for seconds in (0, STILL_S):
            ipc._server.busy.update(ipc._server.sides)
            self.relay.flowing.clear()
            self.ends(self.q.receive, seconds=seconds)
            self.ends(self.q.receive, seconds=seconds)
            self.relay.flowing.set()
            self.direct.send("one")
            self.assertEqual(self.q.receive(5), (b"one", 0))

    def test_what_came_late_is_next(self):
        """The server answers a call that has ended: its message is the next one, and the unit of a semaphore is given back."""
        ipc._server.busy.update(ipc._server.sides)
        self.direct.send("first")
        self.post.release()
        self.relay.flowing.clear()
        self.ends(self.q.receive, seconds=0)
        self.relay.flowing.set()
        self.assertEqual(self.q.receive(5), (b"first", 0))
        self.relay.flowing.clear()
        self.ends(self.sem.acquire, seconds=0)
        self.relay.flowing.set()
        self.assertEqual(self.q.current_messages, 0)
        deadline = time.monotonic() + 5
        while not self.post.value and time.monotonic() < deadline:
            self.q.current_messages
        self.assertEqual(self.post.value, 1)

    def test_late_on_a_side(self):
        self.relay.holding.append(self.relay.flowing.clear)     # the answer, at its moment
        waiting = threading.Timer(0.1, self.direct.send, ("late",))
        waiting.start()
        self.ends(self.q.receive)
        waiting.join()
        self.relay.flowing.set()
        self.assertEqual(self.q.receive(5), (b"late", 0))
        self.assertRaises(ipc.BusyError, self.q.receive, 0)

    def test_kept_at_its_end(self):
        """A message that came late goes back where the queue is closed or dropped."""
        for end in (lambda queue: queue.close(), lambda _: None):
            queue = ipc.MessageQueue(self.q.name)
            self.direct.send("kept", priority=3)
            self.relay.flowing.clear()
            self.ends(queue.receive, seconds=0)
            self.relay.flowing.set()
            self.assertEqual(self.q.current_messages, 0)
            end(queue)
            del queue
            self.assertEqual(self.sem.value, 0)
            self.assertEqual(self.direct.receive(5), (b"kept", 3))

    def test_send(self):
        """Whether it was sent isn't known."""
        self.q.send("full")
        self.relay.flowing.clear()
        self.ends(self.q.send, "more", error=ipc.ConnectionLost)
        self.relay.flowing.set()
        self.assertEqual(self.q.receive(5)[0], b"full")

    def test_while_another_thread_asks(self):
        self.relay.flowing.clear()
        asking = threading.Thread(target=lambda: self.q.current_messages)
        asking.start()
        time.sleep(0.1)
        self.ends(self.q.receive)
        self.ends(self.sem.acquire, seconds=0)
        self.relay.flowing.set()
        asking.join(5)

    def test_new_connection(self):
        ipc._server.forget()
        self.relay.flowing.clear()
        self.ends(self.q.receive)
        self.relay.flowing.set()
        self.direct.send("one")
        self.assertEqual(self.q.receive(5), (b"one", 0))

    def test_jobs(self):
        jobs = mqserve_jobs.Jobs(f"/still-{os.getpid()}", look=60)
        self.keep(ipc.MessageQueue(jobs.name))
        self.addCleanup(jobs.close)
        for seconds in (STILL_S, 0):
            self.assertRaises(ipc.BusyError, jobs.take, STILL_S)
            self.relay.flowing.clear()
            self.ends(jobs.take, seconds=seconds)
            self.relay.flowing.set()
        jobs.put("one")
        jobs.take(0).done()

    def test_handler_amid(self):
        """A call of a signal's handler has its own time, also where that of the call which it came amid is used up."""
        def handler(*_):
            time.sleep(0.7)
            got.append(self.q.current_messages)
        got = []
        signal.signal(signal.SIGALRM, handler)
        signal.setitimer(signal.ITIMER_REAL, 0.1)
        self.assertRaises(ipc.BusyError, self.q.receive, STILL_S)
        self.assertEqual(got, [0])

    def test_bound_of_an_answer(self):
        self.assertEqual(waits.ANSWER_S, 10)
        self.relay.flowing.clear()
        for c in ipc._server.homes():
            c.bound = 0.5
        self.assertRaises(ipc.ConnectionLost, self.sem.release)


class Restarts(Relayed):
    """The server goes, and another one is at its address."""

    def setUp(self):
        self.addCleanup(lambda: self.relay.close())
        self.begin()

    def restart(self):
        port = int(self.relay.address.rpartition(":")[2])
        self.relay.close()
        self.relay = Relay(os.environ["MQSERVE"], port=port)

    def test_first_open(self):
        for flags in (0, ipc.O_CREAT):
            self.restart()
            queue = ipc.MessageQueue(self.q.name, flags)
            queue.send("x")
            self.assertEqual(queue.receive(1), (b"x", 0))
            self.assertRaises(ipc.ConnectionLost, self.q.send, "x")
        self.restart()
        self.keep(ipc.Semaphore(None, ipc.O_CREX)).release()
        self.restart()
        self.assertRaises(ipc.ExistentialError, ipc.unlink_semaphore, "/absent")

    def test_sides_are_looked_at_too(self):
        with contextlib.suppress(OSError):
            ipc._server.sides[0].socket.shutdown(socket.SHUT_RDWR)
        self.q.send("x")
        self.assertEqual(self.q.receive(1), (b"x", 0))


class Nobody(unittest.TestCase):
    def test_own_end(self):
        """A connect to a port at which nobody listens is never connected to itself, as one in some ten thousand would be."""
        with open("/proc/sys/net/ipv4/ip_local_port_range") as ports:
            address = f"127.0.0.1:{int(ports.read().split()[0]) + 1000}"
        for _ in range(20000):
            self.assertRaises(ConnectionRefusedError, dial.dial, address, 5.0)


class Dropped(Thing):
    """Objects that nobody has any more are closed by the next call."""

    def setUp(self):
        self.q = self.keep(ipc.MessageQueue(None, ipc.O_CREX, max_messages=3, max_message_size=64))

    def test_in_a_loop(self):
        def touch():
            ipc.MessageQueue(self.q.name, read=False).send("x")
            self.q.receive(0)
        for _ in range(3000):
            touch()

    def test_in_cycles(self):
        gc.disable()
        self.addCleanup(gc.enable)
        for _ in range(1100):
            queue = ipc.MessageQueue(self.q.name)
            queue.itself = queue
        del queue

    def test_closed_by_the_next_call(self):
        opened = len(ipc._server.home.opened)
        ipc.MessageQueue(self.q.name)
        self.q.current_messages
        self.assertEqual(len(ipc._server.home.opened), opened)

    def test_unlinked(self):
        """What nobody has open and has no name is gone, with its bytes."""
        for _ in range(100):
            ipc.MessageQueue(None, ipc.O_CREX, max_message_size=8192).unlink()

    def test_registration_holds(self):
        came = threading.Event()
        ipc.MessageQueue(self.q.name).request_notification((lambda event: event.set(), came))
        gc.collect()
        self.q.current_messages
        self.assertEqual(in_child(lambda: self.q.send("x")), 0)
        self.assertTrue(came.wait(5))


class Losses(Relayed):
    def test_pipe_signal(self):
        """A process in which SIGPIPE has its default goes on where the server is gone."""
        def write():
            signal.signal(signal.SIGPIPE, signal.SIG_DFL)
            for _ in range(2):
                with contextlib.suppress(ipc.ConnectionLost):
                    c.write(wire.UMASK, b"\0\0")
        c = connection.Connection(os.environ["MQSERVE"], os.environ["MQSERVE_KEY"], 5.0)
        ours, theirs = socket.socketpair()
        theirs.close()
        c.socket = ours
        self.assertEqual(in_child(write), 0)

    def test_message_while_another_close_fails(self):
        """What was closed amid a receive is closed after it. Where that fails the message is there all the same."""
        self.begin()
        other = self.keep(ipc.MessageQueue(None, ipc.O_CREX, max_messages=1, max_message_size=8))
        got = []
        waiter = threading.Thread(target=lambda: got.append(self.q.receive()), daemon=True)
        waiter.start()
        while self.relay.requests.count(7) < 2:
            time.sleep(0.01)
        other.close()
        shifted = self.relay.shifted

        def cut(body):
            if body[0] == 4:
                for end in self.relay.ends:
                    with contextlib.suppress(OSError):
                        end.shutdown(socket.SHUT_RDWR)
            return shifted(body)
        self.relay.shifted = cut
        self.q.send("kept")
        waiter.join(5)
        self.assertEqual(got, [(b"kept", 0)])

    def test_message_where_a_handler_raises(self):
        """Between a receive's answer and its return: the next receive has the message."""
        def stop():
            raise KeyboardInterrupt
        self.begin()
        self.q.send("kept")
        for leave in ("leave", "tell"):
            ipc.Semaphore(self.sem.name)        # dropped, so that there is something to close
            with self.subTest(amid=leave), self.assertRaises(KeyboardInterrupt):
                setattr(ipc._server, leave, lambda *_: stop())
                self.addCleanup(ipc._server.__dict__.pop, leave, None)
                self.q.receive(0 if leave == "tell" else 1)
            ipc._server.__dict__.pop(leave)
            self.assertEqual(self.q.receive(0), (b"kept", 0))
            self.q.send("kept")

    def test_probes(self):
        with socket.create_server(("127.0.0.1", 0)) as listener, dial.dial("127.0.0.1:%d" % listener.getsockname()[1], 5.0) as dialled:
            self.assertEqual(dialled.getsockopt(socket.SOL_SOCKET, socket.SO_KEEPALIVE), 1)
            times = [dialled.getsockopt(socket.IPPROTO_TCP, option)
                     for option in (socket.TCP_KEEPIDLE, socket.TCP_KEEPINTVL, socket.TCP_KEEPCNT)]
            self.assertEqual(times, [60, 10, 6])


if __name__ == "__main__":
    unittest.main()
