"""The tests of mqserve.top: beside a server in memory, which tells how often it was asked, and beside the one of MQSERVE."""
import contextlib
import fcntl
import io
import os
import pty
import select
import struct
import subprocess
import sys
import termios
import time
import unittest

import mqserve
from mqserve import _wire as wire, top
from test_mqserve import Liar

HERE = os.path.dirname(os.path.abspath(__file__))
OWN = f"/top-{os.getpid()}-"


class Object:
    def __init__(self, size, most, access):
        self.size, self.most, self.access, self.mode = size, most, access, 0o600


class InMemory:
    """Names and objects, in place of a Session. `before` has what others do just before a call of an opcode is answered."""

    def __init__(self):
        self.bound, self.open, self.opens, self.most_open = {1: {}, 2: {}}, {}, 0, 0
        self.before, self.asked = {}, []

    def create(self, family, name, size=0, most=10, access=3):
        """By somebody else, whose open is one too."""
        self.opens += 1
        self.bound[family].pop(name, None)
        self.bound[family][name] = Object(size, most, access)

    def list_names(self, family):
        return list(self.bound[family])

    def ask_all(self, requests):
        return [self.answer(opcode, fields) for opcode, fields, _ in requests]

    def answer(self, opcode, fields):
        self.asked.append(opcode)
        self.before.pop(opcode, lambda: None)()
        if opcode in (8, 17):
            o = self.open[struct.unpack(">Q", fields)[0]]
            return struct.pack(">BIII", 0, o.most, 100, o.size) if opcode == 8 else struct.pack(">I", o.size)
        if opcode in (4, 12):
            del self.open[struct.unpack(">Q", fields)[0]]
            return b""
        family, text = (fields[0], fields[2:]) if opcode == 19 else (1 if opcode == 3 else 2, fields)
        size = int.from_bytes(text[:2], "big")
        o = self.bound[family].get(text[2:2 + size])
        if o is None:
            return 13
        if opcode == 19:
            return struct.pack(">IIH", 4000000000, 0, o.mode)
        return self.opened(o, text[2 + size] if family == 1 else 3)

    def opened(self, o, access):
        if o.access & access != access:
            return 15
        self.open[self.opens] = o
        self.opens += 1
        self.most_open = max(self.most_open, len(self.open))
        return struct.pack(">Q", self.opens - 1)


class Looks(unittest.TestCase):
    def setUp(self):
        self.server = InMemory()
        self.watch = top.Watch(self.server)

    def seen(self):
        """The lengths by name, of a further look, and the opcodes that it took."""
        self.server.asked.clear()
        return {entry.name: top.length(entry) for entry in self.watch.look()}

    def opens(self):
        return sum(self.server.asked.count(opcode) for opcode in (3, 11))

    def test_both_families(self):
        self.server.create(2, b"/a", 7)
        self.server.create(1, b"/a", 3)
        self.server.create(1, b"/b", 0, 5)
        shown = top.rows(self.watch.look(), "created")
        self.assertEqual([row[:5] for row in shown], [("mq", "/a", "4000000000", "0600", "3/10"), ("mq", "/b", "4000000000", "0600", "0/5"),
                                                      ("sem", "/a", "4000000000", "0600", "7")])

    def test_opened_once(self):
        for name in (b"/a", b"/b", b"/c"):
            self.server.create(1, name)
        self.seen()
        self.assertEqual(self.opens(), 3)
        for _ in range(3):
            self.seen()
            self.assertEqual(self.opens(), 1)   # which tells how many opens others made
            self.assertEqual(len(self.server.asked), 2 + 2 * 3)
            self.assertEqual(len(self.server.open), 3)

    def test_name_that_went(self):
        self.server.create(1, b"/a")
        self.server.create(1, b"/b", 4)
        self.seen()
        del self.server.bound[1][b"/a"]
        self.assertEqual(self.seen(), {b"/b": "4/10"})
        self.assertEqual(list(self.server.open.values()), [self.server.bound[1][b"/b"]])

    def test_goes_between_two_calls(self):
        for opcode in (19, 3):
            with self.subTest(before=opcode):
                self.server.create(1, b"/a")
                self.server.before[opcode] = lambda: self.server.bound[1].clear()
                self.assertEqual(self.seen(), {})
                self.assertEqual(self.server.open, {})

    def test_goes_before_it_is_measured(self):
        self.server.create(1, b"/a", 2)
        self.server.before[8] = lambda: self.server.bound[1].clear()
        self.assertEqual(self.seen(), {b"/a": "2/10"})
        self.assertEqual(self.seen(), {})
        self.assertEqual(self.server.open, {})

    def test_goes_before_a_later_look_asks(self):
        for opcode in (19, 3):
            with self.subTest(before=opcode):
                self.server.create(1, b"/a")
                self.seen()
                self.server.before[opcode] = lambda: self.server.bound[1].clear()
                self.assertEqual(self.seen(), {})
                self.assertEqual(self.server.open, {})

    def test_name_of_another_object(self):
        """Made anew with the same owner and mode, and the newest as it was before: the list is the same, and so are the facts."""
        self.server.create(1, b"/old", 1)
        self.server.create(1, b"/a", 2)
        self.seen()
        self.server.create(1, b"/a", 5)
        self.assertEqual(self.seen(), {b"/old": "1/10", b"/a": "5/10"})
        self.assertEqual({o.size for o in self.server.open.values()}, {1, 5})
        self.assertEqual(self.opens(), 1)

    def test_names_of_other_objects(self):
        names = [b"/%d" % number for number in range(10)]
        for name in names:
            self.server.create(1, name)
        for number in range(1, 6):
            self.seen()
            for name in names[2:2 + number]:
                self.server.create(1, name, number)
            self.server.opens += number % 2     # of what exists
            wanted = {name: f"{o.size}/10" for name, o in self.server.bound[1].items()}
            self.assertEqual(self.seen(), wanted)
            self.assertEqual(set(self.server.open.values()), set(self.server.bound[1].values()))
        self.seen()
        self.assertEqual(self.opens(), 1)       # nobody else opened anything since

    def test_renewed_while_it_looks(self):
        """Between the list and a question about a name, or the open that tells how many there were: the next look finds it."""
        for name in (b"/a", b"/b", b"/c", b"/d"):
            self.server.create(1, name, 1)
        self.seen()
        for opcode, names in ((19, (b"/a", b"/b")), (3, (b"/c", b"/d"))):
            with self.subTest(before=opcode):
                self.server.before[opcode] = lambda: [self.server.create(1, name, 9) for name in names]
                self.assertEqual(set(self.seen()), {b"/a", b"/b", b"/c", b"/d"})
                found = self.seen()
                self.assertEqual([found[name] for name in names], ["9/10", "9/10"])
                self.assertEqual(set(self.server.open.values()), set(self.server.bound[1].values()))

    def test_listed_twice(self):
        """Made anew while pages came: it is the newest."""
        self.server.create(1, b"/b", 1)
        self.server.create(1, b"/a", 2)
        self.server.list_names = lambda family: [b"/a", b"/b", b"/a"] if family == 1 else []
        self.assertEqual(list(self.seen()), [b"/b", b"/a"])

    def test_opens_of_others(self):
        """They don't add up: at each look those of the last two count, and so few of the newest are opened anew."""
        for number in range(20):
            self.server.create(1, b"/%d" % number)
        self.seen()
        for _ in range(30):
            self.server.opens += 1
            self.seen()
            self.assertLessEqual(self.opens(), 2)

    def test_denied(self):
        self.server.create(1, b"/none", access=0)
        self.server.create(1, b"/write", 6, access=2)
        self.server.create(2, b"/sem", access=1)
        for opens in (5, 1, 1):
            self.assertEqual(self.seen(), {b"/none": "-", b"/write": "6/10", b"/sem": "-"})
            self.assertEqual(self.opens(), opens)
        self.server.bound[1][b"/none"].access, self.server.bound[1][b"/none"].mode = 1, 0o644
        self.assertEqual(self.seen()[b"/none"], "0/10")

    def test_no_longer_granted(self):
        self.server.create(1, b"/a", 3)
        self.seen()
        self.server.bound[1][b"/a"].access, self.server.bound[1][b"/a"].mode = 0, 0
        self.assertEqual(self.seen(), {b"/a": "-"})
        self.assertEqual(self.server.open, {})

    def test_more_than_a_session_holds(self):
        for number in range(2500):
            self.server.create(1 + number % 2, b"/%d" % number, number)
        for _ in range(2):
            self.assertEqual(self.seen(), {b"/%d" % number: f"{number}" if number % 2 else f"{number}/10" for number in range(2500)})
            self.assertEqual(len(self.server.open), top._HELD_MOST)
        self.assertLess(self.server.most_open, 1024)

    def test_list_is_refused(self):
        self.server.create(1, b"/a")
        self.server.create(2, b"/a")
        self.seen()
        self.server.list_names = lambda family: 12 if family == 1 else [b"/a"]
        entries = self.watch.look()
        self.assertEqual([entry.family for entry in entries], ["sem"])
        self.assertIn("mq not listed: rule 12, DirRead", top.summary("here", entries, self.watch))
        self.assertEqual(len(self.server.open), 1)


class Texts(unittest.TestCase):
    def test_bytes_of_others(self):
        self.assertEqual(top.visible(b"/jobs_1.~!"), "/jobs_1.~!")
        self.assertEqual(top.visible(b"/\x1b[2J\x07\r\n\x00\x7f\x9b ") + top.visible("/\u4e2d\u202e\\".encode()),
                         r"/\x1b[2J\x07\x0d\x0a\x00\x7f\x9b\x20/\xe4\xb8\xad\xe2\x80\xae\x5c")
        shown = [top.visible(bytes([byte])) for byte in range(256)]
        self.assertEqual(len(set(shown)), 256)
        self.assertTrue(all("!" <= letter <= "~" for letter in "".join(shown)))
        self.assertEqual([text for text in shown if len(text) > 1 and "!" <= chr(int(text[2:], 16)) <= "~"], [r"\x5c"])

    def test_rates(self):
        entry = top.Entry("sem", b"/a")
        told = []
        for value, moment in ((10, 1.0), (13, 3.0), (13, 4.0), (None, 5.0), (9, 6.0), (0, 6.5), (0, 6.5)):
            entry.learn(None if value is None else struct.pack(">I", value), moment)
            told.append(top.change(entry))
        self.assertEqual(told, ["-", "+1.5", "0", "-", "-", "-18.0", "-"])

    def test_refused_answers_tell_nothing(self):
        entry = top.Entry("mq", b"/a")
        entry.learn(8, 1.0)
        self.assertEqual((top.length(entry), top.change(entry)), ("-", "-"))

    def test_table(self):
        rows = [("mq", "/a", "ann", "0600", "3/10", "+1.5"), ("sem", "/" + 30 * "b", "bob", "-", "-", "-")]
        self.assertEqual(top.table(rows), ["FAMILY  NAME                             OWNER  MODE  LENGTH  CHANGE/S",
                                           "mq      /a                               ann    0600    3/10      +1.5",
                                           "sem     /bbbbbbbbbbbbbbbbbbbbbbbbbbbbbb  bob    -          -         -"])
        cut = top.table(rows, 50)
        self.assertEqual(cut[2], "sem     /bbbbbbbbb>  bob    -          -         -")
        self.assertEqual(max(map(len, cut)), 50)

    def test_sorts(self):
        entries = [top.Entry("mq", name) for name in (b"/c", b"/a", b"/b")]
        for entry, size, change in zip(entries, (4, None, 9), (1.0, None, -3.0)):
            entry.size, entry.change = size, change
        names = {sort: "".join(row[1][1] for row in top.rows(entries, sort)) for sort in top._SORTS}
        self.assertEqual(names, {"created": "cab", "name": "abc", "owner": "cab", "length": "bca", "change": "bca"})

    def test_arguments(self):
        for words in ([], ["bottom"], ["top", "--interval", "0"], ["top", "--interval", "nan"], ["top", "--sort", "x"], ["top", "a", "b"]):
            with self.subTest(words=words), contextlib.redirect_stderr(io.StringIO()):
                self.assertRaises(SystemExit, top.main, words)


class Paged(top.Session):
    """Pages that are given, of a connection that isn't there."""

    def __init__(self, *pages):
        self.pages, self.starts = list(pages), []

    def page(self, family, start):
        self.starts.append(start)
        return self.pages.pop(0)


class Pages(unittest.TestCase):
    names = [b"/%d" % number for number in range(2500)]

    def test_overlap(self):
        session = Paged(self.names[:1000], self.names[999:1999], self.names[1998:])
        self.assertEqual(session.list_names(1), self.names)
        self.assertEqual(session.starts, [0, 999, 1998])

    def test_removed_between_pages(self):
        """One of the first page went: what stood at 1,000 stands at 999."""
        session = Paged(self.names[:1000], self.names[1000:2000], self.names[1:1001], self.names[1000:1500])
        self.assertEqual(session.list_names(1), self.names[1:1500])

    def test_all_removed_between_pages(self):
        self.assertEqual(Paged(self.names[:1000], [], []).list_names(1), [])

    def test_refused(self):
        self.assertEqual(Paged(self.names[:1000], 12).list_names(1), 12)

    def test_pages_without_end(self):
        session = Paged(*[[b"/a"] * 1000] * 600)
        session.list_names(1)
        self.assertEqual(len(session.starts), top._PAGES_MOST)

    def test_lies(self):
        for answer in (b"", b"\0\0\0\x01I", b"\0\0\0\x02I\0", b"\0\0\0\x03I\0\1", b"\0\0\0\x04I\0\1\0", b"\0\0\0\x05I\0\1\0\2",
                       b"\0\0\0\x05I\0\0\0\0", b"\xff\xff\xff\xffI", struct.pack(">IBH", 3 + 2 * 1001, 73, 1001) + bytes(2 * 1001),
                       b"\0\0\0\x02J\0", b"\0\0\0\x01B"):
            with self.subTest(answer=answer[:12]):
                liar = Liar(answer)
                session = top.Session(liar.address, "key", 5.0)
                session.bound = 0.3
                self.assertRaises(mqserve.ConnectionLost, session.page, 1, 0)
                liar.listener.close()


class Terminal:
    """The program at a terminal of its own."""

    def __init__(self, term, *words):
        self.master, self.slave = pty.openpty()
        fcntl.ioctl(self.slave, termios.TIOCSWINSZ, struct.pack("HHHH", 24, 200, 0, 0))
        self.before, self.said = termios.tcgetattr(self.slave), b""
        self.program = subprocess.Popen([sys.executable, "-m", "mqserve", "top", "--interval", "0.2", *words], stdin=self.slave,
                                        stdout=self.slave, stderr=self.slave, cwd=HERE, env=dict(os.environ, TERM=term),
                                        start_new_session=True, preexec_fn=lambda: fcntl.ioctl(0, termios.TIOCSCTTY, 0))

    def read_until(self, text, times=1, seconds=20):
        end = time.monotonic() + seconds
        while self.said.count(text) < times and time.monotonic() < end:
            if select.select([self.master], [], [], 0.1)[0]:
                self.said += os.read(self.master, 65536)
        return self.said.count(text) >= times

    def end(self):
        """The status, and the terminal's settings afterwards."""
        try:
            status = self.program.wait(10)
        finally:
            self.program.kill()
            self.program.wait()
        while select.select([self.master], [], [], 0.1)[0]:
            self.said += os.read(self.master, 65536)
        after = termios.tcgetattr(self.slave)
        os.close(self.master)
        os.close(self.slave)
        return status, after


class Served(unittest.TestCase):
    """Beside the server of MQSERVE, which may have other names too."""

    @classmethod
    def setUpClass(cls):
        cls.session = top.Session(os.environ["MQSERVE"], os.environ["MQSERVE_KEY"], 5.0)
        cls.other = top.Session(os.environ["MQSERVE"], "kb1", 5.0)

    @classmethod
    def tearDownClass(cls):
        cls.session.close()
        cls.other.close()

    def create(self, family, name, session=None, mode=0o600, value=0):
        """Gives the description; the name goes with the test."""
        session, text = session or self.session, wire.text(OWN.encode() + name)
        opcode, rest = (3, struct.pack(">BBHB", 3, 3, mode, 0)) if family == 1 else (11, struct.pack(">BHI", 3, mode, value))
        [answer] = session.ask_all([(opcode, text + rest, 67)])
        self.assertIsInstance(answer, bytes)
        self.addCleanup(session.ask_all, [(4 if family == 1 else 12, answer, 66), (5 if family == 1 else 13, text, 66)])
        return answer

    def own(self, entries):
        return {(entry.family, entry.name[len(OWN):]): (top.length(entry), top.change(entry)) for entry in entries
                if entry.name.startswith(OWN.encode())}

    def test_lengths_and_changes(self):
        queue, semaphore = self.create(1, b"q"), self.create(2, b"s", value=4)
        watch = top.Watch(top.Session(os.environ["MQSERVE"], os.environ["MQSERVE_KEY"], 5.0))
        self.assertEqual(self.own(watch.look()), {("mq", b"q"): ("0/10", "-"), ("sem", b"s"): ("4", "-")})
        time.sleep(0.1)
        self.session.ask_all([(6, queue + bytes(4) + b"x", 70)] * 3 + [(16, semaphore, 66)])
        found = self.own(watch.look())
        self.assertEqual({key: told[0] for key, told in found.items()}, {("mq", b"q"): "3/10", ("sem", b"s"): "3"})
        self.assertGreater(float(found["mq", b"q"][1]), 0)
        self.assertLess(float(found["sem", b"s"][1]), 0)
        self.assertEqual({told[1] for told in self.own(watch.look()).values()}, {"0"})
        watch.session.close()

    def test_rights(self):
        for name, mode in ((b"closed", 0o600), (b"read", 0o604), (b"write", 0o602)):
            self.create(1, name, self.other, mode)
        self.create(2, b"half", self.other, 0o604)
        found = self.own(top.Watch(self.session).look())
        self.assertEqual({key[1]: told[0] for key, told in found.items()},
                         {b"closed": "-", b"read": "0/10", b"write": "0/10", b"half": "-"})

    def test_made_anew(self):
        """The old queue ends with what the watch held of it: the limit of bytes lets no more than nine such queues be."""
        first = self.create(1, b"anew")
        self.session.ask_all([(6, first + bytes(4) + b"x", 70)])
        watch = top.Watch(top.Session(os.environ["MQSERVE"], os.environ["MQSERVE_KEY"], 5.0))
        self.assertEqual(self.own(watch.look()), {("mq", b"anew"): ("1/10", "-")})
        for _ in range(12):
            self.doCleanups()
            self.create(1, b"anew")
            self.assertEqual(self.own(watch.look())["mq", b"anew"][0], "0/10")
        watch.session.close()

    def test_more_than_a_page(self):
        names = [b"%d" % number for number in range(1100)]
        text = {name: wire.text(OWN.encode() + name) for name in names}
        opened = self.session.ask_all([(11, text[name] + struct.pack(">BHI", 3, 0o600, 1), 67) for name in names[:1000]])
        self.session.ask_all([(12, answer, 66) for answer in opened])
        opened = self.session.ask_all([(11, text[name] + struct.pack(">BHI", 3, 0o600, 1), 67) for name in names[1000:]])
        self.session.ask_all([(12, answer, 66) for answer in opened])
        self.addCleanup(self.session.ask_all, [(13, text[name], 66) for name in names])
        watch = top.Watch(top.Session(os.environ["MQSERVE"], os.environ["MQSERVE_KEY"], 5.0))
        for _ in range(2):
            found = self.own(watch.look())
            self.assertEqual(list(found), [("sem", name) for name in names])
            self.assertEqual({told[0] for told in found.values()}, {"1"})
        watch.session.close()

    def test_printed_once(self):
        self.create(1, b"\x1b[2J\xe4\xb8\xad \n")
        done = subprocess.run([sys.executable, "-m", "mqserve", "top", "--once", "--sort", "name"], stdout=subprocess.PIPE,
                              stderr=subprocess.PIPE, cwd=HERE, timeout=30)
        self.assertEqual((done.returncode, done.stderr), (0, b""))
        self.assertEqual(set(done.stdout) - set(range(0x20, 0x7F)), {10})
        [line] = [line.split() for line in done.stdout.decode().splitlines() if OWN in line]
        self.assertEqual([line[0], line[1], *line[3:]], ["mq", OWN + r"\x1b[2J\xe4\xb8\xad\x20\x0a", "0600", "0/10", "-"])

    def test_no_server_and_no_key(self):
        for words, variables, wanted in (([f"unix:{HERE}/absent"], {}, b"mqserve top: "), ([], {"MQSERVE_KEY": "nobody"}, b"rule 31"),
                                         (["--key-file", f"{HERE}/absent"], {}, b"absent")):
            done = subprocess.run([sys.executable, "-m", "mqserve", "top", "--once", *words], stdout=subprocess.PIPE,
                                  stderr=subprocess.PIPE, cwd=HERE, env=dict(os.environ, **variables), timeout=30)
            self.assertEqual((done.returncode, done.stdout), (1, b""))
            self.assertIn(wanted, done.stderr)

    def test_terminal(self):
        name = self.create(1, b"shown") and (OWN + "shown").encode()
        for key, status in ((b"q", 0), (b"\x03", 0)):
            with self.subTest(key=key):
                terminal = Terminal("xterm")
                self.assertTrue(terminal.read_until(name), terminal.said)
                os.write(terminal.master, key)
                self.assertEqual(terminal.end(), (status, terminal.before))
                self.assertIn(b"\x1b[?1049h", terminal.said)
                self.assertIn(b"\x1b[?1049l", terminal.said.split(name)[-1])

    def test_ended_by_a_signal(self):
        terminal = Terminal("xterm")
        self.assertTrue(terminal.read_until(b"FAMILY"), terminal.said)
        terminal.program.terminate()
        self.assertEqual(terminal.end(), (143, terminal.before))
        self.assertIn(b"\x1b[?1049l", terminal.said)

    def test_dumb_terminal(self):
        name = self.create(1, b"shown") and (OWN + "shown").encode()
        for term in ("dumb", "", "no-such-terminal"):
            with self.subTest(term=term):
                terminal = Terminal(term)
                self.assertTrue(terminal.read_until(name, 2), terminal.said)
                os.write(terminal.master, b"\x03")
                self.assertEqual(terminal.end(), (0, terminal.before))
                self.assertNotIn(b"\x1b", terminal.said)

    def test_nobody_reads(self):
        program = subprocess.Popen([sys.executable, "-m", "mqserve", "top", "--interval", "0.1"], stdout=subprocess.PIPE,
                                   stderr=subprocess.PIPE, cwd=HERE)
        self.assertIn(os.environ["MQSERVE"].encode(), program.stdout.readline())
        program.stdout.close()
        self.assertEqual((program.wait(20), program.stderr.read()), (0, b""))
        program.stderr.close()

    def test_closed_streams(self):
        """Python has none then. Without keys it prints the tables one below the other; where nothing can be printed it says so."""
        command = [sys.executable, "-m", "mqserve", "top", "--interval", "0.1"]
        program = subprocess.Popen(command, stdout=subprocess.PIPE, stderr=subprocess.PIPE, cwd=HERE, preexec_fn=lambda: os.close(0))
        self.addCleanup(program.communicate)
        self.addCleanup(program.kill)
        self.assertIn(os.environ["MQSERVE"].encode(), program.stdout.readline())
        done = subprocess.run([*command, "--once"], stderr=subprocess.PIPE, cwd=HERE, timeout=30, preexec_fn=lambda: os.close(1))
        self.assertEqual((done.returncode, done.stderr), (1, b"mqserve top: standard output is closed\n"))

    def test_full_disk(self):
        with open("/dev/full", "wb") as full:
            done = subprocess.run([sys.executable, "-m", "mqserve", "top", "--once"], stdout=full, stderr=subprocess.PIPE, cwd=HERE)
        self.assertEqual((done.returncode, done.stderr), (1, b"mqserve top: [Errno 28] No space left on device\n"))


if __name__ == "__main__":
    unittest.main()
