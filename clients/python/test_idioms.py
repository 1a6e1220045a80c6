"""What Python programs expect of such objects, next to a server: MQSERVE and MQSERVE_KEY, as tests/with_server sets them. Blocks, loops, an end
of calls that another thread waits in, and a log."""
import os
import socket
import subprocess
import sys
import threading
import time
import unittest

import mqserve as ipc
from mqserve import jobs
from test_mqserve import BUSY_S, Relayed, Thing


class Blocks(Thing):
    def setUp(self):
        self.q = self.keep(ipc.MessageQueue(None, ipc.O_CREX, max_messages=3, max_message_size=64))

    def test_queue(self):
        with ipc.MessageQueue(self.q.name) as queue:
            queue.send("one")
        self.assertRaises(ipc.ExistentialError, queue.send, "two")
        with ipc.MessageQueue(self.q.name) as queue:
            queue.close()
        with self.assertRaises(KeyError), ipc.MessageQueue(self.q.name) as queue:
            raise KeyError
        self.assertTrue(queue.closed)

    def test_jobs(self):
        name = f"/idioms-{os.getpid()}"
        with jobs.Jobs(name) as pool, ipc.MessageQueue(name) as tokens:
            pool.put("one")
            job = pool.take(0)
            tokens.unlink()
        self.assertRaises(ipc.ConnectionLost, job.done)
        with jobs.Jobs(name) as pool, ipc.MessageQueue(name) as tokens:
            pool.take(5).done()
            tokens.unlink()

    def test_loop(self):
        got, messages = [], [(f"{i}".encode(), i) for i in range(9)]

        def receive():
            for message, priority in self.q:
                got.append((message, priority))
        loop = threading.Thread(target=receive)
        loop.start()
        for message, priority in messages:
            self.q.send(message, priority=priority)
        while len(got) < len(messages):
            time.sleep(0.01)
        self.q.close()
        loop.join(5)
        self.assertFalse(loop.is_alive())
        self.assertEqual(sorted(got), messages)

    def test_loop_that_does_not_block(self):
        self.q.send("one", priority=1)
        self.q.send("two")
        self.q.block = False
        self.assertEqual(list(self.q), [(b"one", 1), (b"two", 0)])

    def test_loop_passes_on_errors(self):
        writer = self.keep(ipc.MessageQueue(self.q.name, read=False))
        self.assertRaises(ipc.PermissionsError, next, iter(writer))
        self.q.close()
        self.assertEqual(list(self.q), [])


class Closing(Relayed):
    """A close ends what other threads wait for, and nothing is lost by it."""

    def blocked(self, call, opcode, *words):
        """The thread that makes the call, once the server has it, and what it raised or gave."""
        def run():
            try:
                got.append(call(*words))
            except ipc.Error as error:
                got.append(type(error))
        got, before = [], self.relay.requests.count(opcode)
        thread = threading.Thread(target=run, daemon=True)
        thread.start()
        while self.relay.requests.count(opcode) == before:
            time.sleep(0.01)
        time.sleep(0.1)
        return thread, got

    def closes(self, thing, call, opcode, *words):
        thread, got = self.blocked(call, opcode, *words)
        thing.close()
        thread.join(BUSY_S)
        self.assertEqual(got, [ipc.ExistentialError])

    def test_each_call(self):
        for words, opcode in (((), 7), ((30,), 27)):
            self.begin()
            self.closes(self.q, self.q.receive, opcode, *words)
            self.closes(self.sem, self.sem.acquire, {7: 15, 27: 28}[opcode], *words)
        self.begin()
        self.q.send("full")
        self.closes(self.q, self.q.send, 6, "more")

    def test_closed_on_each_connection(self):
        self.begin()
        thread, got = self.blocked(self.q.receive, 7)
        self.q.close()
        thread.join(5)
        self.assertEqual((got, self.relay.requests.count(4)), ([ipc.ExistentialError], 2))

    def test_others_wait_on(self):
        self.begin()
        other = self.keep(ipc.MessageQueue(self.q.name))
        thread, got = self.blocked(self.q.receive, 7)
        self.closes(other, other.receive, 7)
        self.q.send("one")
        thread.join(5)
        self.assertEqual(got, [(b"one", 0)])
        with self.assertRaises(ipc.BusyError):
            self.q.receive(0.1)     # and the connection that was woken does again

    def test_no_message_is_lost(self):
        """Each message that is sent is received, by who closes or by the one after it."""
        self.begin()
        got, sent, failed = [], [str(i).encode() for i in range(100)], []
        before, threading.excepthook = threading.excepthook, failed.append
        self.addCleanup(setattr, threading, "excepthook", before)
        source = ipc.MessageQueue(self.q.name)
        sender = threading.Thread(target=lambda: [source.send(text) for text in sent])
        sender.start()
        while len(got) < len(sent):
            queue = ipc.MessageQueue(self.q.name)
            thread = threading.Thread(target=lambda: got.extend(message for message, _ in queue))
            thread.start()
            time.sleep(0.002)
            queue.close()
            thread.join(5)
        sender.join(5)
        self.assertEqual((sorted(got), failed), (sorted(sent), []))

    def test_without_files(self):
        """Where nothing is left to be woken by, it takes a moment longer."""
        self.begin()
        pair, ipc._connection.dial.pair = ipc._connection.dial.pair, lambda: None
        try:
            self.closes(self.q, self.q.receive, 7)
        finally:
            ipc._connection.dial.pair = pair


class Log(Relayed):
    def test_lost_and_connected(self):
        with self.assertLogs("mqserve", "INFO") as log:
            self.begin()
            ipc._server.home.socket.shutdown(socket.SHUT_RDWR)
            self.assertRaises(ipc.ConnectionLost, self.q.send, "x")
            ipc.Semaphore(self.sem.name).close()
        said = "\n".join(log.output)
        self.assertRegex(said, "WARNING:mqserve:the connection to [0-9.:]+ was lost: .*; 2 objects were open on it")
        self.assertEqual(said.count("INFO:mqserve:connected to"), 2)

    def test_nothing_is_printed(self):
        """Of a program that asked for no log."""
        program = ("import mqserve, mqserve._sessions\nq = mqserve.Semaphore(None, mqserve.O_CREX)\nq.unlink()\n"
                   "mqserve._server.home.lose('as it is')\ntry:\n    q.release()\nexcept mqserve.ConnectionLost:\n    pass\n")
        done = subprocess.run([sys.executable, "-c", program], stderr=subprocess.PIPE, env=dict(os.environ), check=True)
        self.assertEqual(done.stderr, b"")


if __name__ == "__main__":
    unittest.main()
