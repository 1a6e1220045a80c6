#!/usr/bin/env python3
"""The tests of tools/users: what it prints of this machine's users and of others, and who may read what it writes; what it adds to a file;
and that it reads a file as the server does. Where a built server is there, it reads the files too; and as root the test makes two users and
a third, of which two share a queue without keys, and removes them again. The last line has the counts."""
import atexit
import contextlib
import importlib.machinery
import importlib.util
import io
import os
import pathlib
import pty
import pwd
import random
import re
import secrets
import shutil
import signal
import stat
import subprocess
import sys
import tempfile
import unittest
from unittest import mock

TOP = pathlib.Path(__file__).resolve().parent.parent
PROGRAM = TOP / "tools/users"
EXAMPLE = TOP / "service/users.example"
BUILT = pathlib.Path(os.environ.get("MQSERVED", TOP / "crates/mqserve/out/mqserve")).resolve()
CLIENT = BUILT.parent.parent.parent / "mqctl/out/mqctl"
SECONDS = 60
ENDINGS = {signal.SIGINT, signal.SIGTERM, signal.SIGHUP}
# docs/run/service.md, "The user file".
NUMBER = "(?:0|[1-9][0-9]*)"
LINE = re.compile(rf"([a-z0-9_-]{{1,32}}):([A-Za-z0-9]{{1,64}}):({NUMBER}):({NUMBER}):((?:{NUMBER}(?:,{NUMBER}){{0,63}})?):({NUMBER}?)")

sys.dont_write_bytecode = True
sys.path.insert(0, str(TOP / "clients/python"))
import mqserve  # noqa: E402

loader = importlib.machinery.SourceFileLoader("users", str(PROGRAM))
users = importlib.util.module_from_spec(importlib.util.spec_from_loader("users", loader))
loader.exec_module(users)


def run(*words, **how):
    how = {"stdout": subprocess.PIPE, "stderr": subprocess.PIPE, **how}
    return subprocess.run([sys.executable, str(PROGRAM), *words], stdin=subprocess.DEVNULL, timeout=60, check=False, **how)


def fields(text):
    """The fields of each line. One that isn't of the format fails."""
    lines = text.decode() if isinstance(text, bytes) else text
    assert lines.endswith("\n"), lines
    return [LINE.fullmatch(line).groups() for line in lines.splitlines()]


def person(name, uid, gid=None, shell="/bin/sh"):
    return pwd.struct_passwd((name, "x", uid, uid if gid is None else gid, "", "/", shell))


class Example(unittest.TestCase):
    """service/users.example: nobody gets in by a key that stands in a published file."""

    def setUp(self):
        self.lines = EXAMPLE.read_text().splitlines()

    def test_only_keys_are_wrong(self):
        self.assertGreater(len(self.lines), 1)
        for number, line in enumerate(self.lines):
            with self.subTest(line=line):
                self.assertIsNone(LINE.fullmatch(line))
                name, _, rest = line.split(":", 2)
                self.assertTrue(LINE.fullmatch(f"{name}:key{number}:{rest}"))

    @unittest.skipUnless(BUILT.exists(), "no built server here")
    def test_server_refuses_each_line(self):
        """So a file of which one key was replaced is refused too."""
        for line in self.lines:
            with self.subTest(line=line):
                done = subprocess.run([str(BUILT)], input=line.encode() + b"\n.\n", stdout=subprocess.PIPE, stderr=subprocess.PIPE,
                                      timeout=60, check=False)
                self.assertEqual((done.returncode, done.stdout, done.stderr), (3, b"", b"mqserve: users BadLine 1\n"))


class Made(unittest.TestCase):
    """Of users that the test makes up."""

    def make(self, people, groups=None, names=(), limit="", **where):
        by_name = {user.pw_name: user for user in people}
        groups_of = lambda name, gid: (groups or {}).get(name, []) + [gid]
        with mock.patch.object(users.pwd, "getpwall", lambda: people), mock.patch.object(users.pwd, "getpwnam", by_name.__getitem__), \
                mock.patch.object(users.os, "getgrouplist", groups_of):
            return users.user_file(names, limit, **where)

    def refused(self, *words, **named):
        with self.assertRaises(users.Refused) as caught:
            self.make(*words, **named)
        return str(caught.exception).splitlines()

    def test_who_logs_in(self):
        people = [person("bob", 1001), person("daemon", 1, shell="/usr/sbin/nologin"), person("www", 33),
                  person("ann", 1000, 50, "/bin/zsh"), person("nobody", 65534, shell="/usr/sbin/nologin"),
                  person("off", 1002, shell="/bin/false"), person("plain", 1003, shell=""), person("root", 0), person("bob", 1001)]
        self.assertEqual([(name, uid, gid) for name, _, uid, gid, _, _ in fields(self.make(people))],
                         [("root", "0", "0"), ("ann", "1000", "50"), ("bob", "1001", "1001"), ("plain", "1003", "1003")])

    def test_range(self):
        people = [person("root", 0), person("www", 33), person("off", 34, shell="/bin/false"), person("ann", 1000), person("bob", 1001)]
        for where, wanted in (({"first": 33}, ["root", "www", "ann", "bob"]), ({"last": 1000}, ["root", "ann"]),
                              ({"first": 1001, "last": 1001}, ["root", "bob"]), ({"first": 2, "last": 1}, ["root"])):
            with self.subTest(where=where):
                self.assertEqual([row[0] for row in fields(self.make(people, **where))], wanted)
        self.assertEqual((users.user_id("0"), users.user_id("4294967294")), (0, 4294967294))
        for word in ("", "01", "-1", "+1", "4294967295", "9" * 20, "1\n", "\u0661"):
            self.assertRaises(users.argparse.ArgumentTypeError, users.user_id, word)

    def test_named(self):
        people = [person("root", 0), person("www", 33, shell="/bin/false"), person("ann", 1000)]
        self.assertEqual([row[0] for row in fields(self.make(people, names=["www", "ann", "www"]))], ["www", "ann"])
        self.assertEqual(self.refused(people, names=["no", "ann", "x\n"]), ["'no': there is no such user", r"'x\n': there is no such user"])

    def test_groups(self):
        people = [person("root", 0), person("ann", 1000, 50)]
        self.assertEqual([row[4] for row in fields(self.make(people, {"ann": [51, 50, 9, 51]}))], ["", "9,51"])
        most = list(range(100, 164))
        self.assertEqual(fields(self.make(people, {"ann": most}))[1][4], ",".join(map(str, most)))
        self.assertEqual(self.refused(people, {"ann": most + [7]}),
                         ["ann: it is in 65 groups beside its own, and a user may be in 64"])

    def test_names_that_a_file_cannot_have(self):
        form = "a name has 1 to 32 lower-case letters, digits, _ and -"
        for name in ("First", "first.last", "m\u00fcller", "a" * 33, "a b", "a:b", "", "pc$", "ann\n"):
            people = [person("root", 0), person(name, 1000), person("ann", 1001)]
            with self.subTest(name=name):
                self.assertEqual(self.refused(people, names=["ann", name]), [f"{name!a}: {form}"])
                with contextlib.redirect_stderr(io.StringIO()) as said:
                    self.assertEqual([row[0] for row in fields(self.make(people))], ["root", "ann"])
                self.assertEqual(said.getvalue(), f"{users.os.path.basename(sys.argv[0])}: {name!a} is left out: {form}\n")
        with contextlib.redirect_stderr(io.StringIO()) as said:
            self.assertEqual(len(fields(self.make([person("a" * 32, 1000), person("_0-z", 1001)]))), 2)
        self.assertEqual(said.getvalue(), "")

    def test_each_is_told(self):
        people = [person("root", 0), person("toor", 0), person("A", 1000), person("B", 1001)]
        lines = self.refused(people, names=[user.pw_name for user in people])
        self.assertEqual([line.split(":")[0] for line in lines], ["toor", "'A'", "'B'"])
        self.assertEqual(lines[0], "toor: it has the user ID 0, as root")

    def test_numbers_of_users(self):
        people = [person(f"u{number}", 1000 + number) for number in range(4097)]
        self.assertEqual(len(fields(self.make(people[:4096]))), 4096)
        self.assertEqual(self.refused(people), ["4097 users, and a user file has 4096 at most"])

    def test_keys(self):
        people = [person(f"u{number}", 1000 + number) for number in range(100)]
        keys = [row[1] for _ in range(2) for row in fields(self.make(people))]
        self.assertEqual(len(set(keys)), 200)
        self.assertTrue(all(re.fullmatch("[0-9a-f]{64}", key) for key in keys))

    def test_limits(self):
        self.assertEqual([row[5] for row in fields(self.make([person("root", 0), person("ann", 1000)], limit="104"))], ["104", "104"])
        for word in ("0", "1", "999999999999999", "1000000000000000"):
            self.assertEqual(users.bytes_of(word), word)
        for word in ("", "00", "01", "-1", "+1", "1_0", "1000000000000001", "9" * 20, "1\n", "\u0661"):
            self.assertRaises(users.argparse.ArgumentTypeError, users.bytes_of, word)


class Written(unittest.TestCase):
    """Of this machine's root."""

    def setUp(self):
        room = tempfile.TemporaryDirectory()
        self.addCleanup(room.cleanup)
        self.path = pathlib.Path(room.name, "users")

    def test_new_file(self):
        for mask in (0, 0o22, 0o777):
            with self.subTest(mask=f"{mask:o}"):
                done = run("--output", str(self.path), "--limit", "0", "root", preexec_fn=lambda: os.umask(mask))
                self.assertEqual((done.returncode, done.stdout, done.stderr), (0, b"", b""))
                self.assertEqual(stat.S_IMODE(self.path.stat().st_mode), 0o600)
                [row] = fields(self.path.read_text())
                self.assertEqual((row[0], row[2], row[3], row[5]), ("root", "0", "0", "0"))
                self.path.unlink()

    def test_nobody_reads_it_before(self):
        modes, old = [], os.umask(0)
        with mock.patch.object(users.os, "fchmod", lambda number, mode: modes.append(stat.S_IMODE(os.fstat(number).st_mode))):
            users.write_new(str(self.path), "text")
        os.umask(old)
        self.assertEqual((modes, self.path.read_text()), ([0o600], "text"))

    def test_file_that_is_there(self):
        self.path.write_text("theirs\n")
        link = self.path.with_name("link")
        link.symlink_to(self.path.with_name("absent"))
        for path in (self.path, link):
            done = run("--output", str(path), "root")
            self.assertEqual((done.returncode, done.stdout), (1, b""))
            self.assertIn(b"File exists", done.stderr)
        self.assertEqual((self.path.read_text(), link.exists()), ("theirs\n", False))

    def test_file_without_a_name(self):
        """As of a variable that isn't set: the keys don't go elsewhere."""
        done = run("--output", "", "root")
        self.assertEqual((done.returncode, done.stdout), (1, b""))
        self.assertIn(b"No such file", done.stderr)

    def test_nothing_is_made_where_one_is_refused(self):
        done = run("--output", str(self.path), "root", "no-such-user-here")
        self.assertEqual((done.returncode, done.stdout), (1, b""))
        self.assertEqual(done.stderr, b"users: 'no-such-user-here': there is no such user\n")
        self.assertFalse(self.path.exists())

    def test_range_beside_names(self):
        for words in (("--from", "1", "root"), ("root", "--to", "1")):
            done = run(*words)
            self.assertEqual((done.returncode, done.stdout), (2, b""))
        done = run("--from", "0", "--to", "0")
        self.assertEqual([row[0] for row in fields(done.stdout)], ["root"])

    def test_disk_that_is_full(self):
        with mock.patch.object(users.os, "fchmod", side_effect=OSError(28, "No space left on device")):
            self.assertRaises(OSError, users.write_new, str(self.path), "text")
        self.assertFalse(self.path.exists())
        with open("/dev/full", "wb") as full:
            self.assertEqual(run("root", stdout=full).returncode, 1)

    def test_standard_output_that_is_closed(self):
        done = run("root", stdout=None, preexec_fn=lambda: os.close(1))
        self.assertEqual((done.returncode, done.stderr), (1, b"users: standard output is closed\n"))

    def test_who_may_read_standard_output(self):
        for mode, warns in ((0o600, False), (0o644, True), (0o640, True), (0o604, True)):
            with self.subTest(mode=f"{mode:o}"), open(self.path, "wb") as file:
                os.chmod(self.path, mode)
                done = run("root", stdout=file)
                self.assertEqual(done.stderr, b"users: standard output is a file of mode %04o: others may read the keys\n" % mode if warns
                                 else b"")
                self.assertEqual((done.returncode, len(fields(self.path.read_text()))), (0, 1))
        self.assertEqual(run("root").stderr, b"")

    def test_terminal(self):
        master, slave = pty.openpty()
        done = run("root", stdout=slave)
        said = os.read(master, 65536)
        os.close(master)
        os.close(slave)
        self.assertEqual((done.returncode, done.stderr), (0, b"users: standard output is a terminal, which shows the keys\n"))
        self.assertEqual(len(fields(said.replace(b"\r\n", b"\n"))), 1)

    def test_server_reads_it(self):
        if not BUILT.exists():
            self.skipTest("no built server here")
        script = run("root", "--limit", "104").stdout
        script += b".\na hello %s\n" % script.split(b":")[1]
        done = subprocess.run([str(BUILT)], input=script, stdout=subprocess.PIPE, stderr=subprocess.PIPE, timeout=60, check=False)
        self.assertEqual((done.returncode, done.stdout, done.stderr), (0, b"a started 0\n", b""))


# The user file of the tests below, and its faults: what follows these lines, and what the server says of the whole.
THREE = "root:r00t:0:0::\nann:ka1:1000:1000:50:\nbob:kb1:1001:1001:50,51:104\n"
FAULTS = [
    ("eve:ke1:5:5::", None),
    ("eve:ke1:4294967295:4294967295:0,0:0\n", None),
    ("eve:ke1:5:5::1000000000000000\n", None),
    (f"eve:ke1:5:5:{','.join(['7'] * 64)}:\n", None),
    ("", None),
    ("\n", "BadLine 4"),
    (".\n", "BadLine 4"),
    ("eve:ke1:5:5:\n", "BadLine 4"),
    ("eve:ke1:5:5:::\n", "BadLine 4"),
    ("eve:ke1:5:5::\r\n", "BadLine 4"),
    ("Eve:ke1:5:5::\n", "BadLine 4"),
    (f"{'e' * 33}:ke1:5:5::\n", "BadLine 4"),
    (":ke1:5:5::\n", "BadLine 4"),
    ("eve::5:5::\n", "BadLine 4"),
    ("eve:k-1:5:5::\n", "BadLine 4"),
    ("eve:k\u00e41:5:5::\n", "BadLine 4"),
    (f"eve:{'k' * 65}:5:5::\n", "BadLine 4"),
    ("eve:ke1:05:5::\n", "BadLine 4"),
    ("eve:ke1:+5:5::\n", "BadLine 4"),
    ("eve:ke1:\u0665:5::\n", "BadLine 4"),
    ("eve:ke1:4294967296:5::\n", "BadLine 4"),
    ("eve:ke1:5:4294967296::\n", "BadLine 4"),
    (f"eve:ke1:{'9' * 5000}:5::\n", "BadLine 4"),
    ("eve:ke1:5:5:7,:\n", "BadLine 4"),
    (f"eve:ke1:5:5:{','.join(['7'] * 65)}:\n", "BadLine 4"),
    ("eve:ke1:5:5::1000000000000001\n", "BadLine 4"),
    ("eve:ke1:5:5::\nx\n", "BadLine 5"),
    ("ann:ke1:5:5::\n", "DuplicateName 4"),
    ("eve:ka1:5:5::\n", "DuplicateKey 4"),
    ("eve:ke1:1000:5::\n", "DuplicateUid 4"),
    ("ann:ka1:1000:5::\n", "DuplicateName 4"),
    ("eve:ka1:1000:5::\n", "DuplicateKey 4"),
    ("eve:ke1:5:5::\neve:ke2:6:6::\nx\n", "DuplicateName 5"),
    ("".join(f"u{number}:k{number}:{number}:5::\n" for number in range(2000, 6093)), None),
    ("".join(f"u{number}:k{number}:{number}:5::\n" for number in range(2000, 6094)), "TooMany"),
    ("".join(f"u{number}:k{number}:{number}:5::\n" for number in range(2000, 6093)) + "x\n" * 3000000, "TooMany"),
    ("x" * 5000000, "BadLine 4"),
]


class Checked(unittest.TestCase):
    """Files that are read as the server reads them."""

    def setUp(self):
        room = tempfile.TemporaryDirectory()
        self.addCleanup(room.cleanup)
        self.path = pathlib.Path(room.name, "users")

    def words(self, text):
        """What the tool says of a file of this text: the server's words, or nothing."""
        self.path.write_bytes(text)
        done = run("--check", str(self.path))
        said = done.stderr.decode()
        if done.returncode == 0:
            count = len(text.splitlines())
            self.assertEqual((done.stdout.decode(), said), (f"{count} {'user' if count == 1 else 'users'}\n", ""))
            return None
        self.assertEqual((done.returncode, done.stdout), (3, b""))
        return re.fullmatch(rf"users: {re.escape(str(self.path))}: users (\w+(?: \d+)?): .+\n", said)[1]

    def server_words(self):
        """The same of the server. One that finds nothing wrong there gets no further than its address."""
        done = subprocess.run([str(BUILT), "serve", str(self.path), "unix:/absent/socket", "--one-thread"], stdin=subprocess.DEVNULL,
                              stdout=subprocess.PIPE, stderr=subprocess.PIPE, timeout=SECONDS, check=False)
        said = done.stderr.decode()
        if (done.returncode, said) == (4, "mqserve: net\n"):
            return None
        self.assertEqual(done.returncode, 3)
        return re.fullmatch(r"mqserve: users (\w+(?: \d+)?)\n", said)[1]

    def test_faults(self):
        for more, wanted in FAULTS:
            with self.subTest(more=more[:80]):
                self.assertEqual(self.words((THREE + more).encode()), wanted)
                if BUILT.exists():
                    self.assertEqual(self.server_words(), wanted)

    def test_counts(self):
        for text in ("", "root:r00t:0:0::", "root:r00t:0:0::\n", THREE):
            with self.subTest(text=text):
                self.assertIsNone(self.words(text.encode()))

    @unittest.skipUnless(BUILT.exists(), "no built server here")
    def test_chance(self):
        """Files with some bytes changed."""
        draw, found = random.Random(7), set()
        for _ in range(200):
            text = bytearray(THREE.encode())
            for _ in range(draw.randrange(1, 4)):
                at = draw.randrange(len(text))
                text[at:at + draw.randrange(3)] = bytes(draw.choices(b"\n\r:,0159az_-A ", k=draw.randrange(3)))
            words = self.words(bytes(text))
            found.add((words or "none").split()[0])
            self.assertEqual(words, self.server_words(), bytes(text))
        self.assertLessEqual({"none", "BadLine"}, found)

    def test_reasons(self):
        """The line, and why, and never a key."""
        for more, why in (("eve:se-cret:5:5::\n", "a key has 1 to 64 ASCII letters and digits"),
                          ("eve:ka1:5:5::\n", "line 2 has the same key"), ("ann:secret:5:5::\n", "line 2 has the same name"),
                          ("eve:secret:0:5::\n", "line 1 has the same user ID"),
                          ("secret\n", "a line has 6 fields, parted by colons, and this one 1"),
                          ("eve:secret:5:5::\r\n", "a line ends with a line feed, and this one with a carriage return")):
            with self.subTest(more=more):
                self.path.write_bytes((THREE + more).encode())
                said = run("--check", str(self.path)).stderr.decode()
                self.assertTrue(said.endswith(f": {why}\n"), said)
                self.assertNotIn("cret", said.replace("carriage return", ""))

    def test_no_file(self):
        for path in (self.path, self.path.parent):
            done = run("--check", str(path))
            self.assertEqual((done.returncode, done.stdout), (4, b""))
            self.assertIn(str(path).encode(), done.stderr)

    def test_words_beside_it(self):
        for more in (["ann"], ["--limit", "1"], ["--from", "1"], ["--to", "1"], ["--output", "x"], ["--add", "x"]):
            with self.subTest(more=more):
                self.assertEqual(run("--check", str(self.path), *more).returncode, 2)


class Added(unittest.TestCase):
    """Users who are added to a file that is there."""

    def setUp(self):
        room = tempfile.TemporaryDirectory()
        self.addCleanup(room.cleanup)
        self.room = pathlib.Path(room.name)
        self.path = self.room / "users"
        self.path.write_text(THREE)
        self.new = pwd.getpwnam("daemon")

    def add(self, *words):
        return run("--add", str(self.path), *words)

    def refused(self, status, said, *words):
        """Nothing is changed, and nothing left."""
        before = self.path.read_bytes()
        done = self.add(*words)
        self.assertEqual((done.returncode, done.stdout, done.stderr.decode()), (status, b"", said))
        self.assertEqual((self.path.read_bytes(), os.listdir(self.room)), (before, ["users"]))

    def test_a_user_more(self):
        done = self.add("daemon", "--limit", "104")
        self.assertEqual((done.returncode, done.stdout, done.stderr), (0, b"", b""))
        text = self.path.read_text()
        self.assertEqual(text[:len(THREE)], THREE)
        [row] = fields(text[len(THREE):])
        self.assertEqual((row[0], row[2], row[3], row[5]), ("daemon", str(self.new.pw_uid), str(self.new.pw_gid), "104"))
        self.assertTrue(re.fullmatch("[0-9a-f]{64}", row[1]))
        self.assertEqual(os.listdir(self.room), ["users"])
        self.assertEqual(run("--check", str(self.path)).stdout, b"4 users\n")

    def test_line_feed_at_the_end(self):
        for text in ("", THREE, THREE[:-1]):
            self.path.write_text(text)
            self.assertEqual(self.add("daemon", "bin").returncode, 0)
            self.assertEqual([line.split(":")[0] for line in self.path.read_text().splitlines()],
                             [line.split(":")[0] for line in text.splitlines()] + ["daemon", "bin"])

    def test_mode_and_owner(self):
        for mode in (0o600, 0o640, 0o400):
            with self.subTest(mode=f"{mode:o}"):
                self.path.write_text(THREE)
                if os.geteuid() == 0:
                    os.chown(self.path, 65534, 12)
                self.path.chmod(mode)
                before = self.path.stat()
                self.assertEqual(self.add("daemon").returncode, 0)
                after = self.path.stat()
                self.assertEqual((after.st_uid, after.st_gid, after.st_mode), (before.st_uid, before.st_gid, before.st_mode))
                self.assertEqual(len(fields(self.path.read_text())), 4)
                self.path.chmod(0o600)

    def test_whoever_reads_sees_the_old_file_or_the_new_one(self):
        with open(self.path) as old:
            self.assertEqual(self.add("daemon").returncode, 0)
            self.assertEqual(old.read(), THREE)

    def test_disk_that_fails(self):
        for name in ("fchown", "fchmod", "fsync", "rename"):
            with self.subTest(name=name), mock.patch.object(users.os, name, mock.Mock(side_effect=OSError(5, "no"))):
                with self.assertRaisesRegex(OSError, re.escape(str(self.path))):
                    users.add(str(self.path), ["daemon"], "")
                self.assertEqual((self.path.read_text(), os.listdir(self.room)), (THREE, ["users"]))

    def test_refused(self):
        self.path.write_text(THREE + f"other:ko1:{self.new.pw_uid}:5::\nbin:kp1:7777:5::\n")
        self.refused(1, "users: bin: line 5 of the file has this name\n"
                        f"users: daemon: line 4 of the file has its user ID, {self.new.pw_uid}\n", "daemon", "bin")
        self.refused(1, "users: 'no-such-user-here': there is no such user\n", "no-such-user-here", "sys")

    def test_full_file(self):
        self.path.write_text(THREE + "".join(f"u{number}:k{number}:{number}:5::\n" for number in range(2000, 6093)))
        self.refused(1, "users: 4097 users, and a user file has 4096 at most\n", "daemon")

    def test_file_at_fault(self):
        self.path.write_text(THREE + "x\n")
        self.refused(3, f"users: {self.path}: users BadLine 4: a line has 6 fields, parted by colons, and this one 1\n", "daemon")

    def test_what_is_no_plain_file(self):
        self.path.rename(self.room / "there")
        for make in (lambda: self.path.symlink_to("there"), lambda: os.mkfifo(self.path), self.path.mkdir):
            make()
            done = self.add("daemon")
            self.assertEqual((done.returncode, done.stdout), (1, b""))
            self.assertIn(b"users", done.stderr)
            self.assertEqual(sorted(os.listdir(self.room)), ["there", "users"])
            (os.rmdir if self.path.is_dir() else os.unlink)(self.path)
        self.assertEqual((self.room / "there").read_text(), THREE)
        self.assertEqual(self.add("daemon").returncode, 1)
        self.assertEqual(os.listdir(self.room), ["there"])

    def test_two_at_once(self):
        folder = os.open(self.room, os.O_RDONLY)
        self.addCleanup(os.close, folder)
        users.fcntl.flock(folder, users.fcntl.LOCK_EX)
        self.refused(1, f"users: {self.room}: another run changes a file there\n", "daemon")

    def test_words_beside_it(self):
        for words in ([], ["daemon", "--output", "x"], ["daemon", "--from", "1"]):
            with self.subTest(words=words):
                self.assertEqual(self.add(*words).returncode, 2)

    @unittest.skipUnless(BUILT.exists(), "no built server here")
    def test_trail_of_other_users(self):
        """As service/README.md warns."""
        words = [str(BUILT), "serve", str(self.path), f"unix:{self.room}/socket", "--one-thread", "--trail-file", f"{self.room}/trail"]
        with subprocess.Popen(words, stdout=subprocess.PIPE) as server:
            self.assertTrue(server.stdout.readline().startswith(b"serving"))
            server.kill()
        self.assertEqual(self.add("daemon").returncode, 0)
        done = subprocess.run(words, stdout=subprocess.PIPE, stderr=subprocess.PIPE, timeout=SECONDS, check=False)
        self.assertEqual((done.returncode, done.stdout, done.stderr), (3, b"", b"mqserve: trail head: other users\n"))


@contextlib.contextmanager
def uninterrupted():
    """What ends this program waits, and ends none that it runs."""
    mask = signal.pthread_sigmask(signal.SIG_BLOCK, ENDINGS)
    try:
        yield
    finally:
        signal.pthread_sigmask(signal.SIG_SETMASK, mask)


@contextlib.contextmanager
def accounts(count):
    """So many users of this machine, which are removed at the end."""
    names = [f"mqs-{secrets.token_hex(4)}" for _ in range(count)]
    made = []
    try:
        for name in names:
            with uninterrupted():
                subprocess.run(["useradd", "--no-create-home", "--user-group", name], check=True, timeout=SECONDS, stdout=subprocess.DEVNULL)
                made.append(name)
        yield names
    finally:
        with uninterrupted():
            for name in made:
                subprocess.run(["userdel", name], check=True, timeout=SECONDS, stdout=subprocess.DEVNULL, stderr=subprocess.DEVNULL)


@unittest.skipUnless(BUILT.exists() and os.geteuid() == 0 and shutil.which("useradd"), "it takes a built server, root and useradd")
class WithoutKeys(unittest.TestCase):
    """Users who were made for it, at a server over a folder with a socket for each but the last."""

    def setUp(self):
        self.addCleanup(os.umask, os.umask(0o022))     # folders and queues have the modes that they are given
        self.left = contextlib.ExitStack()
        self.addCleanup(self.left.close)
        atexit.register(self.left.close)    # where the test is interrupted no cleanup is called, and users of the machine would stay
        self.room = pathlib.Path(self.enter(tempfile.TemporaryDirectory()))
        self.room.chmod(0o755)
        self.folder = self.room / "sockets"
        self.folder.mkdir(mode=0o755)
        self.ann, self.bob, self.eve = self.enter(accounts(3))
        file = self.room / "users"
        self.assertEqual(run("--output", str(file), "root", self.ann, self.bob).returncode, 0)
        words = [str(BUILT), "serve", str(file), f"unix-users:{self.folder}", "--one-thread"]
        server = subprocess.Popen(words, stdout=subprocess.PIPE, stderr=subprocess.PIPE)
        self.left.callback(server.communicate)
        self.left.callback(server.kill)
        self.assertEqual(server.stdout.readline(), b"serving unix-users:%s\n" % os.fsencode(self.folder))

    def enter(self, context):
        return self.left.enter_context(context)

    def become(self, name):
        user = pwd.getpwnam(name)
        os.initgroups(name, user.pw_gid)
        os.setgid(user.pw_gid)
        os.setuid(user.pw_uid)

    def ask(self, name, act, place=""):
        """What the function of a client says as this user, or what it raises."""
        reading, writing = os.pipe()
        child = os.fork()
        if child == 0:
            try:
                self.become(name)
                mqserve.use(f"unix-user:{self.folder}{place}")
                said = repr(act())
            except (mqserve.Error, OSError) as error:
                said = f"{type(error).__name__}: {error}"
            os.write(writing, said.encode())
            os._exit(0)
        os.close(writing)
        with open(reading) as told:
            said = told.read()
        os.waitpid(child, 0)
        return said

    def test_two_share_a_queue(self):
        self.assertEqual(self.ask(self.ann, lambda: mqserve.MessageQueue("/shared", mqserve.O_CREX, mode=0o644).send("hi", priority=5)), "None")
        self.assertEqual(self.ask(self.bob, lambda: mqserve.MessageQueue("/shared", write=False).receive(5)), "(b'hi', 5)")
        self.assertEqual(self.ask(self.bob, lambda: mqserve.MessageQueue("/shared")),
                         "PermissionsError: refused by rule 15, ModeDenied")

    def test_others_do_not_connect(self):
        make = lambda: mqserve.MessageQueue(None, mqserve.O_CREX)
        for who, name in ((self.eve, self.ann), (self.eve, self.bob), (self.eve, "root"), (self.bob, self.ann), (self.ann, "root")):
            with self.subTest(who=who, name=name):
                self.assertEqual(self.ask(who, make, f"/{name}"), "PermissionError: [Errno 13] Permission denied")
        self.assertEqual(self.ask(self.eve, make), "FileNotFoundError: [Errno 2] No such file or directory")
        self.assertIn("MessageQueue", self.ask("root", make, f"/{self.ann}"))

    def told(self, name, *words):
        """What the command says as this user, on both streams."""
        done = subprocess.run(words, preexec_fn=lambda: self.become(name), cwd="/", stdin=subprocess.DEVNULL, stdout=subprocess.PIPE,
                              stderr=subprocess.PIPE, timeout=SECONDS, check=False)
        return done.stdout.decode(), done.stderr.decode().strip()

    @unittest.skipUnless(CLIENT.exists(), "it takes a built mqctl")
    def test_mqctl(self):
        client = shutil.copy(CLIENT, self.room)     # the built one may be where others don't get
        own = f"unix-user:{self.folder}"
        self.assertEqual(self.told(self.ann, client, own, "mq-open", "/a", "rw", "--create"), ("opened 0\n", ""))
        self.assertEqual(self.told(self.bob, client, own, "receive", "/a"), ("refused 15 EACCES ModeDenied\n", ""))
        self.assertEqual(self.told("root", client, f"{own}/{self.bob}", "receive", "/a"), ("refused 15 EACCES ModeDenied\n", ""))
        for place in (own, f"{own}/{self.ann}"):
            self.assertEqual(self.told(self.eve, client, place, "receive", "/a"), ("", "mqctl: net"))


if __name__ == "__main__":
    for ending in ENDINGS:
        signal.signal(ending, signal.default_int_handler)
    result = unittest.main(exit=False).result
    print(f"users: {result.testsRun} tests, {len(result.failures) + len(result.errors)} failed, {len(result.skipped)} passed over")
    sys.exit(not result.wasSuccessful())
