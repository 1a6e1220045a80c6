"""The tests of mqserve.aio, next to a server: MQSERVE and MQSERVE_KEY, as tests/with_server sets them. CANCELLED: how many receives are cancelled
at random next to a sender, 1,000 by default."""
import asyncio
import contextlib
import gc
import os
import random
import signal
import subprocess
import sys
import threading
import time
import unittest

import mqserve as ipc
from mqserve import aio
from test_mqserve import BUSY_S, Relay, rule_of

CANCELLED = int(os.environ.get("CANCELLED", "1000"))
SEED = int(os.environ.get("SEED", "1"))
ENDS_S = 30         # no test takes as long


class Case(unittest.TestCase):
    """Runs a test's coroutine, each in a loop of its own."""

    def run_it(self, main):
        return asyncio.run(asyncio.wait_for(main(), ENDS_S))

    def queue(self, messages=3, **how):
        queue = ipc.MessageQueue(None, ipc.O_CREX, max_messages=messages, max_message_size=64)
        self.addCleanup(self.end, queue)
        return queue, aio.AsyncQueue(queue.name, **how)

    def semaphore(self, value=0):
        semaphore = ipc.Semaphore(None, ipc.O_CREX, initial_value=value)
        self.addCleanup(self.end, semaphore)
        return semaphore, aio.AsyncSemaphore(semaphore.name)

    @staticmethod
    def end(thing):
        for call in (thing.unlink, thing.close):
            with contextlib.suppress(ipc.ExistentialError):
                call()


async def until(condition):
    while not condition():
        await asyncio.sleep(0.005)


class Queues(Case):
    def test_calls(self):
        async def main():
            async with aio.AsyncQueue(None, ipc.O_CREX, max_messages=3, max_message_size=64) as queue:
                for text, priority in (("a", 1), ("b", 5), ("c", 5)):
                    await queue.send(text, priority=priority)
                self.assertEqual((await queue.current_messages(), queue.max_messages, queue.max_message_size), (3, 3, 64))
                with self.assertRaises(ipc.BusyError):
                    await queue.send("d", timeout=0)
                self.assertEqual([await queue.receive() for _ in range(3)], [(b"b", 5), (b"c", 5), (b"a", 1)])
                with self.assertRaises(ipc.BusyError):
                    await queue.receive(0)
                with self.assertRaises(ipc.ExistentialError):
                    await aio.AsyncQueue(queue.name, ipc.O_CREX)
                await queue.unlink()
                await queue.send("still")
                self.assertEqual(await queue.receive(5), (b"still", 0))
                with self.assertRaises(ipc.ExistentialError):
                    await aio.AsyncQueue(queue.name)
            with self.assertRaises(ipc.ExistentialError):
                await queue.send("closed")
        self.run_it(main)

    def test_refusals(self):
        async def main():
            for words, rule in ((("no slash",), 4), (("/absent",), 13)):
                with self.assertRaises(Exception) as caught:
                    await aio.AsyncQueue(*words)
                self.assertEqual(caught.exception.rule, rule)
            _, queue = self.queue(write=False)
            with self.assertRaises(ipc.PermissionsError):
                await queue.send("x")
            with self.assertRaises(ValueError):
                await queue.receive(-1)
            with self.assertRaises(TypeError):
                await queue.send(3)
            await queue.close()
        self.run_it(main)
        self.assertRaises(ValueError, aio.AsyncQueue, "/x", ipc.O_EXCL)
        self.assertRaises(ValueError, aio.AsyncQueue, "/x", read=False, write=False)

    def test_waits(self):
        async def main():
            other, queue = self.queue(1)
            loop = asyncio.get_running_loop()
            for text in (b"late", b"later"):
                loop.call_later(0.1, other.send, text)
                self.assertEqual(await queue.receive(), (text, 0))
            other.send("full")
            loop.call_later(0.1, other.receive)
            await queue.send("next")
            self.assertEqual(await queue.receive(), (b"next", 0))
            for call, words in ((queue.receive, ()), (queue.send, ("x",))):
                start = time.monotonic()
                with self.assertRaises(ipc.BusyError):
                    await call(*words, timeout=0.2)
                self.assertGreater(time.monotonic() - start, 0.19)
                if call == queue.receive:
                    await until(lambda: not queue._receives.parked)     # its Interrupt may be under way
                    other.send("full")
            await queue.close()
        self.run_it(main)

    def test_loop(self):
        async def receive(queue, got):
            async for message, priority in queue:
                got.append((message, priority))

        async def main():
            other, queue = self.queue()
            got, messages = [], [(b"%d" % i, i) for i in range(9)]
            task = asyncio.ensure_future(receive(queue, got))
            for message, priority in messages:
                await asyncio.get_running_loop().run_in_executor(None, lambda: other.send(message, priority=priority))
            await until(lambda: len(got) == len(messages))
            await queue.close()
            await task
            self.assertEqual(sorted(got), messages)
        self.run_it(main)

    def test_many_tasks(self):
        async def main():
            _, queue = self.queue()
            receivers = [asyncio.ensure_future(queue.receive()) for _ in range(100)]
            await asyncio.gather(*(queue.send(str(i)) for i in range(100)))
            got = [message for message, _ in await asyncio.gather(*receivers)]
            self.assertEqual(sorted(got), sorted(str(i).encode() for i in range(100)))
            await queue.close()
        self.run_it(main)

    def test_close_ends_calls(self):
        async def main():
            other, queue = self.queue(1)
            await queue
            tasks = [asyncio.ensure_future(queue.receive()) for _ in range(2)]
            await until(lambda: len(queue._receives.waiting) == 2 and queue._receives.parked)
            await queue.close()
            for task in tasks:
                with self.assertRaises(ipc.ExistentialError):
                    await task
            other.send("not taken")
            self.assertEqual(other.receive(0), (b"not taken", 0))
        self.run_it(main)

    def test_close_while_it_opens(self):
        async def main():
            other, queue = self.queue()
            keep = await aio.AsyncQueue(other.name)
            for turns in range(12):
                queue = aio.AsyncQueue(other.name)
                task = asyncio.ensure_future(queue.receive())
                for _ in range(turns):
                    await asyncio.sleep(0)
                await queue.close()
                await asyncio.wait([task], timeout=2)
                self.assertTrue(task.cancelled() or isinstance(task.exception(), ipc.ExistentialError), task)
            self.assertEqual(keep._held.home.users, 1)
            await keep.close()
        self.run_it(main)

    def test_dropped(self):
        async def main():
            other, _ = self.queue()
            keep = await aio.AsyncQueue(other.name)
            for _ in range(1100):
                await aio.AsyncQueue(other.name)
                gc.collect(0)
            await keep.close()
        self.run_it(main)

    def test_large(self):
        """Messages that a socket doesn't take at once."""
        async def main():
            root = ipc._server
            ipc.use(os.environ["MQSERVE"], "r00t")
            try:
                async with aio.AsyncQueue(None, ipc.O_CREX, max_messages=4, max_message_size=4000000) as queue:
                    await queue.unlink()
                    texts = [bytes([65 + i]) * 4000000 for i in range(4)]
                    await asyncio.gather(*(queue.send(text) for text in texts))
                    self.assertEqual([(await queue.receive())[0] for _ in texts], texts)
            finally:
                ipc._server = root
        self.run_it(main)


class Cancelled(Case):
    """A task that is cancelled takes nothing with it."""

    def test_wait_for(self):
        async def main():
            other, queue = self.queue()
            for _ in range(3):
                with self.assertRaises(asyncio.TimeoutError):
                    await asyncio.wait_for(queue.receive(), 0.05)
            if hasattr(asyncio, "timeout"):
                with self.assertRaises(TimeoutError):
                    async with asyncio.timeout(0.05):
                        await queue.receive()
            await asyncio.sleep(0.1)
            other.send("kept")
            self.assertEqual(other.receive(0), (b"kept", 0))
            other.send("received")
            self.assertEqual(await asyncio.wait_for(queue.receive(), 5), (b"received", 0))
            await queue.close()
        self.run_it(main)

    def test_answer_that_came_first(self):
        """The Interrupt finds the call served: the next receive has the message, or the task that waits."""
        async def main():
            other, queue = self.queue()
            await queue
            for is_next in (True, False):
                task = asyncio.ensure_future(queue.receive())
                await until(lambda: queue._receives.parked)
                other.send("first")
                time.sleep(0.05)            # the answer is at the socket, and the loop hasn't seen it
                task.cancel()
                waiting = None if is_next else asyncio.ensure_future(queue.receive())
                with self.assertRaises(asyncio.CancelledError):
                    await task
                self.assertEqual(await (waiting or queue.receive(5)), (b"first", 0))
            await queue.close()
        self.run_it(main)

    def test_between_answer_and_task(self):
        """The task is cancelled after its answer was read, and before it goes on."""
        async def main():
            other, queue = self.queue()
            await queue
            link, lane = queue._held.link, queue._receives
            expect, answered = link.expect, lane.answered

            def expecting(*words):
                future = expect(*words)
                future.add_done_callback(lambda _: task.cancel())
                return future

            def answering(*words):
                answered(*words)
                task.cancel()
            for at_home in (True, False):
                other.send("first") if at_home else asyncio.get_running_loop().call_later(0.1, other.send, "first")
                link.expect, lane.answered = (expecting, answered) if at_home else (expect, answering)
                task = asyncio.ensure_future(queue.receive())
                with self.assertRaises(asyncio.CancelledError):
                    await task
                link.expect, lane.answered = expect, answered
                self.assertEqual(await queue.receive(5), (b"first", 0))
            await queue.close()
        self.run_it(main)

    def test_kept_at_a_close(self):
        async def main():
            other, queue = self.queue()
            await queue
            task = asyncio.ensure_future(queue.receive())
            await until(lambda: queue._receives.parked)
            other.send("first", priority=7)
            time.sleep(0.05)
            task.cancel()
            await queue.close()
            self.assertEqual(other.receive(0), (b"first", 7))
        self.run_it(main)

    def test_at_random(self):
        """Each message that is sent is received once."""
        chance = random.Random(SEED)

        async def send(queue, texts):
            for text in texts:
                await queue.send(text)
                if chance.random() < 0.5:
                    await asyncio.sleep(chance.random() * 0.002)

        async def main():
            _, queue = self.queue(10)
            source = await aio.AsyncQueue(queue.name or queue._given_name)
            got, cancelled, texts = [], 0, []
            while cancelled < CANCELLED:
                part = [str(len(texts) + i).encode() for i in range(100)]
                texts += part
                sender, last = asyncio.ensure_future(send(source, part)), time.monotonic()
                while (not sender.done() or len(got) < len(texts)) and time.monotonic() < last + ENDS_S / 3:
                    task = asyncio.ensure_future(queue.receive())
                    await asyncio.sleep(chance.choice((0, 0, chance.random() * 0.002)))
                    task.cancel()
                    with contextlib.suppress(asyncio.CancelledError):
                        got.append((await task)[0])
                        last = time.monotonic()
                        continue
                    cancelled += 1
                self.assertEqual(len(got), len(texts))
            self.assertEqual(sorted(got), sorted(texts))
            self.assertEqual(len(got), len(set(got)))
            await queue.close()
            await source.close()
        asyncio.run(main())

    def test_receivers_at_random(self):
        """The same by many tasks at a time."""
        chance = random.Random(SEED)

        async def main():
            other, queue = self.queue(10)
            got, texts = [], [str(i).encode() for i in range(300)]
            sender = threading.Thread(target=lambda: [other.send(text) for text in texts])
            sender.start()
            while len(got) < len(texts):
                tasks = [asyncio.ensure_future(queue.receive()) for _ in range(5)]
                await asyncio.sleep(chance.random() * 0.003)
                for task in tasks:
                    task.cancel()
                ended = await asyncio.gather(*tasks, return_exceptions=True)
                got += [result[0] for result in ended if not isinstance(result, BaseException)]
            self.assertEqual(sorted(got), sorted(texts))
            await queue.close()
            sender.join()
        self.run_it(main)

    def test_semaphore(self):
        async def main():
            other, semaphore = self.semaphore()
            chance, acquired = random.Random(SEED), 0
            for _ in range(200):
                task = asyncio.ensure_future(semaphore.acquire())
                await asyncio.sleep(chance.random() * 0.002)
                other.release()
                task.cancel()
                with contextlib.suppress(asyncio.CancelledError):
                    await task
                    acquired += 1
            await asyncio.sleep(0.1)
            self.assertEqual(other.value + acquired, 200)
            await semaphore.close()
        self.run_it(main)

    def test_while_it_opens(self):
        """No cancel is swallowed: the task ends at once, with CancelledError."""
        async def main():
            other, _ = self.queue()
            chance, keep = random.Random(SEED), await aio.AsyncQueue(other.name)
            for _ in range(200):
                queue = aio.AsyncQueue(other.name)
                task = asyncio.ensure_future(queue.receive(20))
                await asyncio.sleep(chance.random() * 0.003)
                task.cancel()
                await asyncio.wait([task], timeout=2)
                self.assertTrue(task.cancelled(), task)
                await queue.close()
            await keep.close()
        self.run_it(main)

    def test_send(self):
        async def main():
            other, queue = self.queue(1)
            other.send("full")
            for _ in range(3):
                with self.assertRaises(asyncio.TimeoutError):
                    await asyncio.wait_for(queue.send("withdrawn"), 0.05)
            await asyncio.sleep(0.1)
            self.assertEqual(other.receive(0), (b"full", 0))
            self.assertRaises(ipc.BusyError, other.receive, 0)
            await queue.close()
        self.run_it(main)

    def test_take(self):
        async def main():
            name = f"/aio-{os.getpid()}"
            async with aio.AsyncJobs(name) as jobs:
                for _ in range(20):
                    task = asyncio.ensure_future(jobs.take())
                    await asyncio.sleep(random.random() * 0.005)
                    task.cancel()
                    with contextlib.suppress(asyncio.CancelledError):
                        await task
                await jobs.put("one")
                async with await jobs.take(5) as job:
                    self.assertEqual(job.data, b"one")
                self.assertEqual(await jobs.pending(), 0)
            ipc.unlink_message_queue(name)
        self.run_it(main)


class Semaphores(Case):
    def test_calls(self):
        async def main():
            other, semaphore = self.semaphore(1)
            async with semaphore:
                self.assertEqual(await semaphore.value(), 0)
                with self.assertRaises(ipc.BusyError):
                    await semaphore.acquire(0.1)
                asyncio.get_running_loop().call_later(0.1, other.release)
                await semaphore.acquire(5)
            self.assertEqual(await semaphore.value(), 1)
            await semaphore.close()
        self.run_it(main)


class Jobs(Case):
    def test_calls(self):
        async def main():
            name = f"/aio-jobs-{os.getpid()}"
            jobs = await aio.AsyncJobs(name, tries=1, look=0.2)
            for data in ("one", "two"):
                await jobs.put(data)
            self.assertEqual(await jobs.pending(), 2)
            found = set()
            async with await jobs.take(0) as job:
                found.add(job.data)
            with self.assertRaises(KeyError):
                async with await jobs.take(0) as job:
                    found.add(job.data)
                    raise KeyError
            self.assertEqual((found, await jobs.dead()), ({b"one", b"two"}, [job.name]))
            new = await jobs.revive(job.name)
            await (await jobs.take(0)).give_back()
            self.assertEqual(await jobs.bury(new), job.data)
            with self.assertRaises(ipc.BusyError):
                await jobs.take(0.1)
            waiting = asyncio.ensure_future(jobs.take())
            await asyncio.sleep(0.1)
            await jobs.put("late")
            await (await waiting).done()
            self.assertEqual(await jobs.sweep(), 0)
            await jobs.close()
            with self.assertRaises(ipc.ExistentialError):
                await jobs.put("closed")
            ipc.unlink_message_queue(name)
        self.run_it(main)


class Losses(Case):
    def relayed(self):
        relay, before = Relay(os.environ["MQSERVE"]), ipc._server
        ipc.use(relay.address, os.environ["MQSERVE_KEY"])

        def leave():
            ipc._server = before
            relay.close()
        self.addCleanup(leave)
        return relay

    def test_lost(self):
        async def main():
            queue = aio.AsyncQueue(other.name)
            waiting = asyncio.ensure_future(queue.receive())
            await until(lambda: relay.requests.count(7) == 2)
            for end in relay.ends:
                with contextlib.suppress(OSError):
                    end.shutdown(2)
            with self.assertRaises(ipc.ConnectionLost):
                await waiting
            with self.assertRaises(ipc.ConnectionLost):
                await queue.send("x")
            again = await aio.AsyncQueue(other.name)
            await again.send("x")
            self.assertEqual(await again.receive(), (b"x", 0))
            await again.close()
            await queue.close()
        other, _ = self.queue()
        relay = self.relayed()
        self.run_it(main)

    def test_stands_still(self):
        async def main():
            queue = await aio.AsyncQueue(other.name)
            with self.assertRaises(ipc.BusyError):
                await queue.receive(0.05)
            relay.flowing.clear()
            for seconds, call, error in ((0, queue.receive, ipc.BusyError), (0.3, queue.receive, ipc.BusyError),
                                         (0.3, lambda s: queue.send("x", s), ipc.ConnectionLost)):
                start = time.monotonic()
                with self.assertRaises(error):
                    await call(seconds)
                self.assertLess(time.monotonic() - start, seconds + 2 + BUSY_S)
            other.send("one", priority=1)
            relay.flowing.set()
            self.assertEqual({await queue.receive(5), await queue.receive(5)}, {(b"one", 1), (b"x", 0)})
            await queue.close()
        other, _ = self.queue()
        relay = self.relayed()
        self.run_it(main)

    def test_run_ends(self):
        """Also where tasks wait and nothing is closed; and Ctrl-C ends it."""
        program = ("import asyncio, mqserve, mqserve.aio as aio, os, signal, sys\n"
                   "signal.signal(signal.SIGINT, signal.default_int_handler)\n"     # a shell's job in the background ignores it
                   "async def main():\n"
                   "    queue = await aio.AsyncQueue(None, mqserve.O_CREX)\n"
                   "    await queue.unlink()\n"
                   "    jobs = await aio.AsyncJobs(sys.argv[2])\n"
                   "    tasks = [asyncio.ensure_future(call()) for call in (queue.receive, queue.receive, jobs.take)]\n"
                   "    await asyncio.sleep(0.2)\n"
                   "    if sys.argv[1] == 'interrupted':\n"
                   "        os.kill(os.getpid(), signal.SIGINT)\n"
                   "        await asyncio.sleep(60)\n"
                   "asyncio.run(main())\n")
        name = f"/aio-run-{os.getpid()}"
        for how, status in (("ended", 0), ("interrupted", -signal.SIGINT)):
            done = subprocess.run([sys.executable, "-W", "ignore", "-c", program, how, name], stderr=subprocess.PIPE, timeout=40)
            self.assertEqual((done.returncode, done.stderr if not status else b""), (status, b""), done.stderr)
        ipc.unlink_message_queue(name)

    def test_no_server(self):
        async def main():
            with self.assertRaises(ConnectionRefusedError):
                await aio.AsyncQueue("/x")
            with self.assertRaises(ConnectionRefusedError):
                await aio.AsyncJobs("/x")
        relay = self.relayed()
        relay.close()
        self.run_it(main)

    def test_wrong_key(self):
        async def main():
            await aio.AsyncQueue("/x")
        before = ipc._server
        ipc.use(os.environ["MQSERVE"], "nobody")
        try:
            self.assertEqual(rule_of(self, self.run_it, main), 31)
        finally:
            ipc._server = before


if __name__ == "__main__":
    unittest.main()
