"""Going on after a restart, next to a server: MQSERVE and MQSERVE_KEY, as tests/with_server sets them. A relay in between is closed, and another
one begins at its address: names stay, and sessions don't, as where a server replays its trail. A server that is killed and replays its
trail is that of TRAILED, a program that knows --trail-file; by default the built one, else tests/mock.py."""
import asyncio
import contextlib
import os
import pathlib
import signal
import socket
import subprocess
import sys
import tempfile
import threading
import time
import unittest
from unittest import mock

import mqserve as ipc
from mqserve import _dial as dial, aio, jobs
from test_mqserve import BUSY_S, Relay, Thing, rule_of

HERE = pathlib.Path(__file__).resolve().parent
BUILT, MOCK = HERE.parent.parent / "crates/mqserve/out/mqserve", HERE.parent / "tests/mock.py"
TRAILED = pathlib.Path(os.environ.get("TRAILED", BUILT if BUILT.exists() else MOCK))
GOING_ON_S, ENDS_S = 30.0, 40.0       # none of these is met, however busy the machine is, but where the call is at fault


class Going(Thing):
    """Next to a relay that begins anew. `direct` objects know nothing of it."""

    def setUp(self):
        signal.signal(signal.SIGUSR1, lambda *_: None)
        self.relay, self.before = Relay(os.environ["MQSERVE"]), ipc._server
        self.addCleanup(self.leave)
        self.timers = []
        if self.before is None:
            ipc.use(os.environ["MQSERVE"], os.environ["MQSERVE_KEY"])
            self.before = ipc._server
        self.direct = self.keep(ipc.MessageQueue(None, ipc.O_CREX, max_messages=1, max_message_size=8))
        self.post = self.keep(ipc.Semaphore(None, ipc.O_CREX))
        ipc.use(self.relay.address, os.environ["MQSERVE_KEY"], reconnect=GOING_ON_S)
        self.q, self.sem = ipc.MessageQueue(self.direct.name), ipc.Semaphore(self.post.name)
        self.addCleanup(lambda: [timer.join() for timer in self.timers])

    def leave(self):
        ipc._server.forget()
        ipc._server = self.before
        self.relay.close()

    def begin_anew(self):
        self.relay = Relay(os.environ["MQSERVE"], port=int(self.relay.address.rpartition(":")[2]))

    def restart(self, seconds=0.0):
        """It is gone for so many seconds."""
        self.relay.close()
        self.timers.append(threading.Timer(seconds, self.begin_anew))
        self.timers[-1].start()
        if not seconds:
            self.timers[-1].join()

    def restart_amid(self):
        """The next request is done, and its answer never comes."""
        for ask in (lambda: self.q.current_messages, lambda: self.sem.value):
            with contextlib.suppress(ipc.ExistentialError):
                ask()       # so that it isn't an open
        self.relay.holding.append(self.restart)

    def unknown(self, call, *words):
        with self.assertRaises(ConnectionAbortedError) as caught:
            call(*words)
        self.assertIsInstance(caught.exception, ipc.ConnectionLost)
        self.assertIn("unknown whether it was done", str(caught.exception))


class Idle(Going):
    """What never left is sent anew, whatever it is."""

    def test_each_call(self):
        calls = [lambda: self.q.send("x"), lambda: self.assertEqual(self.q.receive(), (b"x", 0)), self.sem.release, self.sem.acquire,
                 lambda: self.assertEqual(self.q.current_messages, 0), lambda: self.assertEqual(self.sem.value, 0),
                 lambda: self.q.request_notification(int(signal.SIGUSR1)), self.q.request_notification,
                 lambda: self.q.send("y", timeout=5), lambda: self.assertEqual(self.q.receive(5), (b"y", 0)),
                 lambda: self.assertRaises(ipc.BusyError, self.sem.acquire, 0.05), lambda: ipc.Semaphore(self.sem.name).close(),
                 lambda: self.keep(ipc.Semaphore(None, ipc.O_CREX)), self.q.unlink, self.q.close]
        for seconds in (0.2, 0):
            for call in calls if not seconds else calls[:4]:
                self.restart(seconds)
                call()
        self.assertEqual(self.q.receives_repeated, 0)

    def test_opens_wait(self):
        self.restart(0.5)
        self.keep(ipc.Semaphore(None, ipc.O_CREX))
        ipc._server.forget()
        os.environ["MQSERVE_TIMEOUT_MS"] = "300"
        self.addCleanup(os.environ.pop, "MQSERVE_TIMEOUT_MS")
        ipc.use(self.relay.address, os.environ["MQSERVE_KEY"], reconnect=GOING_ON_S)
        self.relay.close()
        start = time.monotonic()
        self.assertRaises(ConnectionRefusedError, ipc.Semaphore, self.sem.name)
        self.assertGreater(time.monotonic() - start, 0.25)
        self.begin_anew()

    def test_no_server(self):
        ipc._server.reconnect = 0.5
        self.relay.close()
        start = time.monotonic()
        self.assertRaises(ipc.ConnectionLost, self.q.send, "x")
        self.assertGreater(time.monotonic() - start, 0.45)
        self.begin_anew()
        self.q.send("x")
        self.assertEqual(self.q.receive(), (b"x", 0))

    def test_timed_calls_end(self):
        self.relay.close()
        start = time.monotonic()
        self.assertRaises(ipc.ConnectionLost, self.q.receive, 0.3)
        self.assertLess(time.monotonic() - start, 0.3 + 2 + BUSY_S)
        self.begin_anew()

    def test_connects_that_take_too_long(self):
        """Python's own error of these has no errno."""
        self.relay.close()
        with mock.patch.object(dial, "dial", side_effect=socket.timeout("timed out")):
            self.assertRaises(ipc.ConnectionLost, self.q.receive, 0.3)
        self.begin_anew()
        self.q.send("x")
        self.assertEqual(self.q.receive(), (b"x", 0))

    def test_off(self):
        ipc._server.reconnect = 0.0
        self.restart()
        self.assertRaises(ipc.ConnectionLost, self.q.send, "x")
        self.assertRaises(ipc.ConnectionLost, self.q.send, "x")

    def test_variable(self):
        for text, seconds in (("7.5", 7.5), ("0", 0), ("", 0)):
            os.environ["MQSERVE_RECONNECT"] = text
            self.addCleanup(os.environ.pop, "MQSERVE_RECONNECT", None)
            ipc.use(self.relay.address, os.environ["MQSERVE_KEY"])
            self.assertEqual(ipc._server.reconnect, seconds)
        for text in ("soon", "-1", "nan", "inf"):
            os.environ["MQSERVE_RECONNECT"] = text
            self.assertRaises(ValueError, ipc.use, self.relay.address, os.environ["MQSERVE_KEY"])
        self.assertRaises(ValueError, ipc.use, self.relay.address, os.environ["MQSERVE_KEY"], reconnect=-1)
        ipc.use(self.relay.address, os.environ["MQSERVE_KEY"], reconnect=0)


class Amid(Going):
    """The request was done, and its answer is lost."""

    def test_not_safe(self):
        for call, words in ((self.q.send, ("x",)), (self.sem.release, ()), (self.sem.acquire, (0,)), (self.q.receive, (0,)),
                            (self.q.send, ("y", 5)), (self.sem.release, ()), (self.sem.acquire, (5,))):
            self.restart_amid()
            if call == self.q.receive:
                self.assertRaises(ipc.BusyError, call, *words)      # its message is lost
            else:
                self.unknown(call, *words)
        self.assertEqual(self.q.receive(5), (b"y", 0))
        self.sem.release()
        self.sem.acquire(5)
        self.assertEqual((self.q.current_messages, self.sem.value, self.q.receives_repeated), (0, 0, 1))

    def test_exclusive_open(self):
        name = self.sem.name + "-new"
        self.restart_amid()
        self.unknown(ipc.Semaphore, name, ipc.O_CREX)
        self.keep(ipc.Semaphore(name))

    def test_receive(self):
        self.direct.send("lost")
        self.restart_amid()
        threading.Timer(1, self.direct.send, ("next",)).start()
        self.assertEqual(self.q.receive(), (b"next", 0))
        self.assertEqual(self.q.receives_repeated, 1)

    def test_safe(self):
        for call in (lambda: self.q.current_messages, lambda: self.sem.value, lambda: self.keep(ipc.Semaphore(self.sem.name, ipc.O_CREAT)),
                     lambda: self.q.request_notification(int(signal.SIGUSR1)), self.q.request_notification, self.sem.close):
            self.restart_amid()
            call()

    def test_unlink(self):
        self.restart_amid()
        self.q.unlink()
        self.assertRaises(ipc.ExistentialError, ipc.MessageQueue, self.q.name)
        self.assertEqual(rule_of(self, ipc.unlink_message_queue, self.q.name), 13)
        self.restart_amid()
        ipc.unlink_semaphore(self.sem.name)

    def test_registration_that_lives_on(self):
        """The server hasn't seen yet that the connection before is gone."""
        self.q.request_notification(int(signal.SIGUSR1))
        self.relay.linger = 0.3
        ipc._server.home.socket.shutdown(socket.SHUT_RDWR)
        self.q.request_notification(int(signal.SIGUSR1))
        self.q.request_notification()


class Blocked(Going):
    def blocked(self, call, opcode, *words):
        def run():
            try:
                got.append(call(*words))
            except Exception as error:
                got.append(error)
        got, count = [], self.relay.requests.count(opcode)
        thread = threading.Thread(target=run, daemon=True)
        thread.start()
        while self.relay.requests.count(opcode) == count:
            time.sleep(0.01)
        time.sleep(0.1)
        return thread, got

    def test_receive(self):
        for words, opcode in (((), 7), ((20,), 27)):
            thread, got = self.blocked(self.q.receive, opcode, *words)
            self.restart(0.3)
            time.sleep(0.1)
            self.direct.send("later")
            thread.join(ENDS_S)
            self.assertEqual(got, [(b"later", 0)])
        self.assertEqual(self.q.receives_repeated, 2)

    def test_not_safe(self):
        self.direct.send("full")
        for call, opcode, words in ((self.sem.acquire, 15, ()), (self.sem.acquire, 28, (20,)), (self.q.send, 6, ("x",))):
            thread, got = self.blocked(call, opcode, *words)
            self.restart()
            thread.join(ENDS_S)
            self.assertIsInstance(got[0], ConnectionAbortedError)
        self.post.release()
        self.sem.acquire(5)
        self.assertEqual(self.q.receive(5), (b"full", 0))

    def test_close_meanwhile(self):
        thread, got = self.blocked(self.q.receive, 7)
        self.restart()
        time.sleep(0.3)
        self.q.close()
        thread.join(ENDS_S)
        self.assertIsInstance(got[0], ipc.ExistentialError)


class Jobs(Going):
    """A pool connects anew by itself."""

    def test_each_call(self):
        with jobs.Jobs(f"/again-{os.getpid()}", look=0.2) as pool:
            self.keep(ipc.MessageQueue(pool.name))
            self.restart(0.3)
            pool.put("one")
            self.restart()
            job = pool.take(5)
            self.restart()
            self.assertRaises(ipc.ConnectionLost, job.done)
            with pool.take(5) as job:
                self.assertEqual(job.data, b"one")
            self.restart(0.3)
            self.assertEqual(pool.pending(), 0)

    def test_waiting_take(self):
        with jobs.Jobs(f"/again-{os.getpid()}", look=0.2) as pool:
            self.keep(ipc.MessageQueue(pool.name))
            taken = []
            worker = threading.Thread(target=lambda: taken.append(pool.take().data))
            worker.start()
            time.sleep(0.3)
            self.restart(0.3)
            with jobs.Jobs(pool.name) as other:
                other.put("one")
            worker.join(ENDS_S)
            self.assertEqual(taken, [b"one"])


class Names(Going):
    """Objects come back by their names."""

    def test_unlinked(self):
        self.q.unlink()
        self.q.send("x")
        self.restart()
        for _ in range(2):
            self.assertRaises(ipc.ConnectionLost, self.q.receive, 0)
        self.sem.release()

    def test_gone(self):
        """Also where the name is there again later."""
        self.relay.close()
        self.direct.unlink()
        self.begin_anew()
        self.assertRaises(ipc.ExistentialError, self.q.send, "x")
        again = self.keep(ipc.MessageQueue(self.q.name, ipc.O_CREX))
        self.assertRaises(ipc.ExistentialError, self.q.send, "x")
        self.assertEqual(again.current_messages, 0)

    def test_made_anew(self):
        self.relay.close()
        self.direct.unlink()
        relayed, ipc._server = ipc._server, self.before
        self.keep(ipc.MessageQueue(self.direct.name, ipc.O_CREX, max_messages=2, max_message_size=100))
        ipc._server = relayed
        with self.assertLogs("mqserve", "INFO") as log:
            self.begin_anew()
            self.q.send(99 * "x")
            self.assertEqual(self.q.receive(), (99 * b"x", 0))
        self.assertEqual((self.q.max_message_size, self.q.max_messages), (100, 2))
        self.assertIn(f"INFO:mqserve:mqserve.MessageQueue('{self.q.name}') was opened anew by its name", log.output)

    def test_last_notice(self):
        """Who waits for a notice has one where the registration is gone."""
        for is_idle in (True, False):
            came = threading.Event()
            self.q.request_notification((lambda event: event.set(), came))
            self.restart()
            if not is_idle:
                self.sem.release()
            self.assertTrue(came.wait(ENDS_S))


class Async(Going):
    """The same by mqserve.aio."""

    def run_it(self, main):
        async def beside():
            async with aio.AsyncQueue(self.direct.name) as queue:
                semaphore = await aio.AsyncSemaphore(self.post.name)
                await main(queue, semaphore)
                await semaphore.close()
        asyncio.run(asyncio.wait_for(beside(), ENDS_S))

    async def fails(self, call, error=ConnectionAbortedError):
        with self.assertRaises(error) as caught:
            await call
        return caught.exception

    def test_idle(self):
        async def main(queue, semaphore):
            for seconds in (0.2, 0):
                for call, wanted in ((lambda: queue.send("x"), None), (queue.receive, (b"x", 0)), (semaphore.release, None),
                                     (semaphore.acquire, None), (queue.current_messages, 0), (semaphore.value, 0),
                                     (lambda: queue.send("y", timeout=5), None), (lambda: queue.receive(5), (b"y", 0))):
                    self.restart(seconds)
                    self.assertEqual(await call(), wanted)
            self.restart()
            await queue.unlink()
            await self.fails(aio.AsyncQueue(queue.name)._ready(), ipc.ExistentialError)
            self.assertEqual(queue.receives_repeated, 0)
        self.run_it(main)

    def test_amid(self):
        async def main(queue, semaphore):
            for call in (lambda: queue.send("x"), semaphore.release, semaphore.acquire, queue.unlink):
                await queue.current_messages(), await semaphore.value()
                self.relay.holding.append(self.restart)
                if call == queue.unlink:
                    await call()
                else:
                    await self.fails(call())
            self.assertEqual(await semaphore.value(), 0)
        self.run_it(main)

    def test_amid_a_receive(self):
        async def main(queue, semaphore):
            self.direct.send("lost")
            await queue.current_messages()
            self.relay.holding.append(self.restart)
            asyncio.get_running_loop().call_later(1, self.direct.send, "next")
            self.assertEqual((await queue.receive(), queue.receives_repeated), ((b"next", 0), 1))
        self.run_it(main)

    def test_blocked(self):
        async def main(queue, semaphore):
            receives = [asyncio.ensure_future(queue.receive()) for _ in range(2)]
            acquires = [asyncio.ensure_future(semaphore.acquire()) for _ in range(2)]
            await asyncio.sleep(0.3)
            self.restart(0.3)
            await self.fails(acquires[0])
            for task in receives:
                self.direct.send("later")
                self.assertEqual(await task, (b"later", 0))
            self.post.release()
            await acquires[1]
            self.assertEqual(queue.receives_repeated, 1)
        self.run_it(main)

    def test_timed_calls_end(self):
        async def main(queue, semaphore):
            self.relay.close()
            for call, error in ((queue.receive, ipc.ConnectionLost), (lambda s: queue.send("x", s), ipc.ConnectionLost)):
                start = time.monotonic()
                await self.fails(call(0.2), error)
                self.assertLess(time.monotonic() - start, 0.2 + 2 + BUSY_S)
            self.begin_anew()
        self.run_it(main)

    def test_gone(self):
        async def main(queue, semaphore):
            self.relay.close()
            self.direct.unlink()
            self.begin_anew()
            await self.fails(queue.send("x"), ipc.ExistentialError)
            await self.fails(queue.send("x"), ipc.ConnectionLost)
            await semaphore.release()
        self.run_it(main)

    def test_no_server(self):
        async def main(queue, semaphore):
            ipc._server.reconnect = 0.4
            self.relay.close()
            await self.fails(queue.send("x"), ipc.ConnectionLost)
            self.begin_anew()
            await queue.send("x")
            self.assertEqual(await queue.receive(), (b"x", 0))
        self.run_it(main)


class Trailed(unittest.TestCase):
    """Next to a server that is killed again and again, and replays its trail."""

    def setUp(self):
        room = tempfile.TemporaryDirectory()
        self.addCleanup(room.cleanup)
        self.address, self.words = f"unix:{room.name}/socket", ["--one-thread", "--trail-file", f"{room.name}/trail"]
        self.socket = pathlib.Path(room.name, "socket")
        self.before = ipc._server
        self.server = self.start()
        self.addCleanup(self.leave)
        ipc.use(self.address, "ka1", reconnect=30)

    def start(self):
        with contextlib.suppress(FileNotFoundError):
            self.socket.unlink()        # a server that was killed leaves it
        program = [sys.executable, str(TRAILED)] if TRAILED.suffix == ".py" else [str(TRAILED)]
        server = subprocess.Popen([*program, "serve", str(HERE.parent / "tests/users"), self.address, *self.words],
                                  stdout=subprocess.PIPE)
        server.stdout.readline()
        return server

    def end(self):
        self.server.kill()
        self.server.wait()
        self.server.stdout.close()

    def leave(self):
        ipc._server.forget()
        ipc._server = self.before
        self.end()

    def test_numbered_messages(self):
        """A sender that numbers its messages, and sends what may be lost anew: each comes at least once, and twice only where one send or
        receive is of unknown outcome."""
        count, got, unknown = 300, [], []
        queue = ipc.MessageQueue("/trailed", ipc.O_CREAT, max_messages=10, max_message_size=64)

        def send():
            for number in range(count):
                while True:
                    try:
                        queue.send(str(number), timeout=30)
                        break
                    except ConnectionAbortedError:
                        unknown.append(number)

        def receive():
            source = ipc.MessageQueue("/trailed")
            for message, _ in source:
                got.append(int(message))
                if got[-1] == count - 1:
                    break
            repeats.append(source.receives_repeated)
        repeats = []
        threads = [threading.Thread(target=call) for call in (send, receive)]
        for thread in threads:
            thread.start()
        for _ in range(5):
            time.sleep(0.1)
            self.end()
            time.sleep(0.05)
            self.server = self.start()
        for thread in threads:
            thread.join(30)
        self.assertEqual([thread for thread in threads if thread.is_alive()], [])
        self.assertLessEqual(len(set(range(count)) - set(got)), repeats[0])
        self.assertLessEqual({number for number in got if got.count(number) > 1}, set(unknown))
        self.assertEqual(got, sorted(got))


if __name__ == "__main__":
    unittest.main()
