"""The module with names that are too long, with 5,000 names, with 500 processes, with notices by the thousand, and with what is no key's file.
MQSERVE is a server with one thread, and MQSERVE_KEY the key."""
import os
import pathlib
import sys
import tempfile
import time
import unittest

import mqserve as ipc

sys.path.insert(0, str(pathlib.Path(__file__).resolve().parent.parent / "tests"))
from faulty_relay import FloodRelay  # noqa: E402

ADDRESS = os.environ["MQSERVE"]
NAMES, CHILDREN, NOTICES, SECONDS = 5000, 500, 5000, 60


class Names(unittest.TestCase):

    def test_long(self):
        for size in (300, 65535):
            for make in (ipc.MessageQueue, ipc.Semaphore):
                for flags in (0, ipc.O_CREAT):
                    with self.subTest(size=size, make=make, flags=flags), self.assertRaises(ValueError) as caught:
                        make("/" + (size - 1) * "n", flags)
                    self.assertEqual(caught.exception.rule, 5)
        for make in (ipc.MessageQueue, ipc.Semaphore, ipc.unlink_message_queue, ipc.unlink_semaphore):
            self.assertRaises(ValueError, make, "/" + 65535 * "n")

    def test_many(self):
        for number in range(NAMES):
            ipc.Semaphore(f"/many-{number}", ipc.O_CREX).close()
        for number in range(NAMES):
            ipc.unlink_semaphore(f"/many-{number}")
        self.assertRaises(ipc.ExistentialError, ipc.Semaphore, "/many-0")

    def test_more_than_may_be_open(self):
        opened, refused = [], None
        self.addCleanup(ipc.unlink_semaphore, "/many")
        while refused is None and len(opened) < NAMES:
            try:
                opened.append(ipc.Semaphore("/many", ipc.O_CREAT, initial_value=1))
            except OSError as error:
                refused = error
        self.assertEqual(refused.rule, 24)
        self.assertGreaterEqual(len(opened), 1000)
        opened[0].acquire(timeout=0)
        for semaphore in opened:
            semaphore.close()
        ipc.Semaphore("/many").release()


class Processes(unittest.TestCase):

    def test_many(self):
        queue = ipc.MessageQueue("/many", ipc.O_CREX, max_messages=2, max_message_size=16)
        self.addCleanup(queue.unlink)
        children = [self.sender(queue, number) for number in range(CHILDREN)]
        end = time.monotonic() + SECONDS
        came = sorted(int(queue.receive(timeout=end - time.monotonic())[0]) for _ in children)
        self.assertEqual(came, list(range(CHILDREN)))
        self.assertEqual({os.waitpid(child, 0)[1] for child in children}, {0})

    @staticmethod
    def sender(queue, number):
        child = os.fork()
        if child == 0:
            try:
                queue.send(str(number), timeout=SECONDS)
                os._exit(0)
            finally:
                os._exit(1)
        return child


class Notices(unittest.TestCase):

    def test_by_the_thousand(self):
        relay = FloodRelay(ADDRESS, NOTICES)
        self.addCleanup(relay.close)
        self.addCleanup(ipc.use, ADDRESS, os.environ["MQSERVE_KEY"])
        ipc.use(relay.address, os.environ["MQSERVE_KEY"])
        queue = ipc.MessageQueue("/many", ipc.O_CREX)
        for number in range(20):
            queue.send(str(number), priority=number)
            self.assertEqual(queue.receive(timeout=10), (str(number).encode(), number))
        self.assertRaises(ipc.BusyError, queue.receive, 0.05)
        self.assertEqual(queue.current_messages, 0)
        self.assertEqual(queue.server.home.notices, [])
        queue.unlink()


class Keys(unittest.TestCase):

    def test_file_that_is_none(self):
        self.addCleanup(ipc.use, ADDRESS, os.environ["MQSERVE_KEY"])
        self.addCleanup(os.environ.update, MQSERVE_KEY=os.environ.pop("MQSERVE_KEY"))
        self.addCleanup(os.environ.pop, "MQSERVE_KEY_FILE")
        with tempfile.TemporaryDirectory() as room:
            for path, kind in ((room, IsADirectoryError), (f"{room}/absent", FileNotFoundError), (f"{room}/\n" + 300 * "n", OSError)):
                ipc._server = None
                os.environ["MQSERVE_KEY_FILE"] = path
                self.assertRaises(kind, ipc.MessageQueue, "/many")


if __name__ == "__main__":
    unittest.main(warnings="ignore")     # of connections that the tests let go
