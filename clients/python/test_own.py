"""The tests of mqserve at a socket of a user's own, without a key, beside a server for whose users there are sockets: MQSERVE is that of
ann, as tests/with_server sets it with SOCKET=users."""
import os
import unittest

import mqserve as ipc
from mqserve import _connection as connection, _wire as wire

ADDRESS = os.environ["MQSERVE"]
FOLDER = ADDRESS.rpartition("/")[0]
NOBODY = 61199      # no account has this ID


def rule_of(test, *call):
    with test.assertRaises(ipc.Error) as caught:
        call[0](*call[1:])
    return caught.exception.rule


class Own(unittest.TestCase):
    def setUp(self):
        self.before = ipc._server
        self.addCleanup(self.go_back)

    def go_back(self):
        if ipc._server is not None:
            ipc._server.forget()
        ipc._server = self.before

    def owner(self):
        """The user ID by which the server knows who creates a queue."""
        queue = ipc.MessageQueue(None, ipc.O_CREX)
        fields = b"\1\1" + wire.text(queue.name)
        owner = ipc._server.home.ask(wire.STAT_NAME, fields, wire.STAT)[:4]
        queue.unlink()
        queue.close()
        return int.from_bytes(owner, "big")

    def test_variable_alone(self):
        ipc._server = None
        self.assertEqual(self.owner(), 1000)

    def test_no_key_is_looked_at(self):
        for key in (None, "nobody"):
            with self.subTest(key=key):
                ipc.use(ADDRESS, key)
                self.assertEqual(self.owner(), 1000)
                ipc._server.forget()
        os.environ["MQSERVE_KEY_FILE"] = "/absent"
        self.addCleanup(os.environ.pop, "MQSERVE_KEY_FILE")
        ipc._server = None
        self.assertEqual(self.owner(), 1000)

    def test_folder(self):
        ipc.use(FOLDER)
        self.assertEqual(self.owner(), 0)

    def test_another_user_s(self):
        ipc.use(ADDRESS)
        queue = ipc.MessageQueue("/own", ipc.O_CREX, mode=0o600)
        queue.send("x")
        ann = ipc._server
        ipc.use(f"{FOLDER}/bob")
        self.assertEqual(rule_of(self, ipc.MessageQueue, "/own"), 15)
        queue.unlink()
        ann.forget()

    def test_blocking_calls(self):
        ipc.use(ADDRESS)
        queue = ipc.MessageQueue(None, ipc.O_CREX)
        self.assertRaises(ipc.BusyError, queue.receive, 0.05)
        queue.send("x", priority=3)
        self.assertEqual(queue.receive(1), (b"x", 3))
        queue.unlink()

    def test_child_of_fork(self):
        ipc.use(ADDRESS)
        queue = ipc.MessageQueue("/forked", ipc.O_CREX)
        child = os.fork()
        if child == 0:
            queue.send("child")
            os._exit(0)
        self.assertEqual(queue.receive(10), (b"child", 0))
        self.assertEqual(os.waitpid(child, 0)[1], 0)
        queue.unlink()

    def test_wrong_addresses(self):
        self.assertRaises(FileNotFoundError, connection.Connection, f"{FOLDER}/absent", None, 1.0)
        self.assertRaises(ConnectionRefusedError, connection.Connection, "unix-user:/dev/null", None, 1.0)
        for address in ("127.0.0.1:1", "unix:/dev/null"):
            self.assertRaises(ipc.PermissionsError, ipc.use, address)

    def by_nobody(self, address):
        """What an open raises for a user without an account."""
        reading, writing = os.pipe()
        child = os.fork()
        if child == 0:
            os.setgid(NOBODY)
            os.setuid(NOBODY)
            try:
                ipc.use(address)
                ipc.MessageQueue("/own")
            except (ipc.Error, OSError) as error:
                os.write(writing, f"{type(error).__name__}: {error}".encode())
            os._exit(0)
        os.close(writing)
        with open(reading) as told:
            said = told.read()
        os.waitpid(child, 0)
        return said

    def test_nobody(self):
        self.assertIn(f"Error: user {NOBODY} has no passwd entry", self.by_nobody(FOLDER))
        self.assertEqual(self.by_nobody(ADDRESS), "PermissionError: [Errno 13] Permission denied")


if __name__ == "__main__":
    unittest.main()
