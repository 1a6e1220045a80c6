#!/usr/bin/env python3
"""Runs the built server on one thread with its trail in a file, reads the file as docs/ref/trail-format.md says, and has it replayed. Prints a line
for each case and a last line with the counts; the status is 1 where one is not as it must be.

`--programs FOLDER` takes `mqserve` and `mqctl` from there, `--calls COMMAND` puts words in front of each, and the variable KILLS says how
often a server is killed under load, 20 times if it isn't set."""

import contextlib
import os
import pathlib
import random
import resource
import shutil
import signal
import struct
import subprocess
import sys
import tempfile
import threading
import time

sys.dont_write_bytecode = True
import servers  # noqa: E402
import trail_files  # noqa: E402
import trails  # noqa: E402
from calls import MQ_OPEN, MQ_RECEIVE, MQ_SEND, UMASK, frame  # noqa: E402
from servers import (HELLO, MASK, ONE_THREAD, OPENED, RECEIVED, SECONDS, SENT, STARTED, USERS, Wrong, answer, connect, ends,  # noqa: E402
                     is_answer, is_same, is_silent, serving, told)
from trail_files import AROUND, BEFORE_FIELDS, HEAD_LEN, MAGIC, crc32c, records_in  # noqa: E402

KILLS = int(os.environ.get("KILLS", "20"))
LOAD = 3


# ---- the file, as its page says


def records_of(path, first=0):
    """The verdict, kind and fields of each record from the first place on, and whether bytes of one more follow."""
    data = path.read_bytes()
    records, end = records_in(data, first)
    return records, end < len(data)


def calls_of(records, opcode):
    """The session and fields of each accepted call of this opcode."""
    for verdict, kind, fields in records:
        if verdict == 0 and kind == trail_files.CALL and fields[12] == opcode:
            yield int.from_bytes(fields[:8], "big"), fields[13:]


# ---- servers


@contextlib.contextmanager
def recording(programs, place, *words, **how):
    """A server whose trail goes into a file."""
    with serving(programs, place.address, *ONE_THREAD, "--trail-file", str(place.trail), *words, **how) as server:
        yield server


def replayed(programs, *files):
    """What a replay of these files prints, on both streams, and its status."""
    command = programs.command("mqserve", ["replay", str(USERS), *map(str, files)])
    ended = subprocess.run(command, stdout=subprocess.PIPE, stderr=subprocess.PIPE, timeout=SECONDS)
    return ended.stdout.decode().splitlines(), ended.stderr, ended.returncode


def is_legal(programs, *paths):
    lines, err, status = replayed(programs, *paths)
    is_same("faults and status of the replay", (err, status), (b"", 0))
    is_same("the last line of the replay", lines[-1:], ["legal"])
    return lines


class Place:
    """Where a server listens, and its trail."""

    def __init__(self, room):
        self.room = pathlib.Path(room)
        self.address, self.trail = f"unix:{room}/socket", self.room / "trail"

    def files(self):
        """The trail's files, in their order."""
        return [self.trail, *sorted(self.room.glob(f"{self.trail.name}.*"), key=lambda path: int(path.suffix[1:]))]

    def records(self):
        """The records of all its files, of which the last alone may be torn."""
        records, is_torn = [], False
        for path in self.files():
            is_same(f"whether what stands before {path.name} is torn", is_torn, False)
            more, is_torn = records_of(path, len(records))
            records += more
        return records


# ---- cases


def all_is_there(programs, place, *words):
    """Each event of two sessions is in the file, also a refused one, with its verdict."""
    with recording(programs, place, "--stop-after", "3", *words) as server:
        is_same("opened", told(programs, place.address, "ka1", "mq-open", "/jobs", "rw", "--create"), b"opened 0\n")
        is_same("refused", told(programs, place.address, "r00t", "mq-getattr", "0"), b"refused 8 EBADF BadDescr\n")
        is_same("refused", told(programs, place.address, "zz", "umask", "0"), b"refused 31 EACCES BadKey\n")
        ends(server, 3)
    records, is_torn = records_of(place.trail)
    is_same("whether it is torn", is_torn, False)
    is_same("verdicts and kinds", [record[:2] for record in records],
            [(0, 1), (0, 2), (0, 3), (0, 1), (8, 2), (0, 3), (31, 1)])
    is_same("mode", place.trail.stat().st_mode & 0o777, 0o600)
    is_legal(programs, place.trail)


def parked(programs, place, *words):
    """A call that is answered later stands in the file at once, and a record more of who leaves."""
    with recording(programs, place, "--stop-after", "1", *words) as server:
        with connect(place.address) as stream:
            stream.sendall(frame(HELLO, b"\0\3ka1") + frame(MQ_OPEN, b"\0\2/t\3\1\1\x80\0") + frame(MQ_RECEIVE, struct.pack(">QI", 0, 8192)))
            is_answer(stream, STARTED)
            is_answer(stream, OPENED)
            is_silent("a receive", stream)
            is_same("how many records", len(records_of(place.trail)[0]), 3)
        ends(server, 1)
    is_same("the last kind", records_of(place.trail)[0][3][1], 3)
    is_legal(programs, place.trail)


def refuses(programs, place, message, status, *words, users=USERS):
    """A server that doesn't start, changes no file and leaves none behind."""
    before = {name: (place.room / name).read_bytes() for name in os.listdir(place.room)}
    command = programs.command("mqserve", ["serve", str(users), place.address, *ONE_THREAD, "--trail-file", str(place.trail), *words])
    ended = subprocess.run(command, stdout=subprocess.PIPE, stderr=subprocess.PIPE, timeout=SECONDS)
    is_same("output, fault and status", (ended.stdout, ended.stderr, ended.returncode), (b"", b"mqserve: trail" + message + b"\n", status))
    is_same("what is left", {name: (place.room / name).read_bytes() for name in os.listdir(place.room)}, before)


def no_trail(programs, place, *words):
    """A file that is no trail isn't written over, nor is what is no plain file."""
    for data, message in ((b"", b" no head"), (b"kept", b" no head"), (b"kept as it is", b" head: not a trail of this version")):
        place.trail.write_bytes(data)
        refuses(programs, place, message, 6, *words)
    place.trail.unlink()
    place.trail = pathlib.Path("/dev/null")
    refuses(programs, place, b"", 4, *words)


def full_disk(programs, place, *words):
    """Where the file takes no more nobody is answered, and standard error is told once; once it takes more all are."""

    def prepare():
        signal.signal(signal.SIGXFSZ, signal.SIG_IGN)
        resource.setrlimit(resource.RLIMIT_FSIZE, (300, resource.RLIM_INFINITY))

    with servers.started(programs, place.address, *ONE_THREAD, "--trail-file", str(place.trail), *words, prepare=prepare) as server:
        servers.says_so(server, place.address)
        streams = [connect(place.address) for _ in range(LOAD)]
        for stream in streams:
            stream.sendall(frame(HELLO, b"\0\3ka1"))
            is_answer(stream, STARTED)
        for stream in streams:
            stream.sendall(frame(UMASK, b"\0\0") * 5)
        for stream in streams:
            is_silent("who asked while the file is full", stream)
        is_same("how large the file is", place.trail.stat().st_size, 300)
        resource.prlimit(server.pid, resource.RLIMIT_FSIZE, (resource.RLIM_INFINITY, resource.RLIM_INFINITY))
        for stream in streams:
            for _ in range(5):
                is_answer(stream, MASK)
            stream.close()
        is_same("how many records", len(settled(place.trail, 7 * LOAD)), 7 * LOAD)
        server.kill()
        is_same("standard error", server.stderr.read(), b"mqserve: trail\n")
    is_legal(programs, place.trail)


def no_sync(programs, place, *words):
    """A sync that fails ends the server, and what it was to keep isn't answered."""
    source, library = place.room / "no_sync.c", place.room / "no_sync.so"
    source.write_text("int fdatasync(int fd);\nint calls;\nint fdatasync(int fd) { (void)fd; return ++calls > 2 ? -1 : 0; }\n")
    subprocess.run(["cc", "-shared", "-fPIC", "-o", library, source], check=True)
    front = servers.Programs(None, [*programs.front, "env", f"LD_PRELOAD={library}"])
    front.files = programs.files
    with recording(front, place, "--trail-sync") as server, connect(place.address) as stream:
        stream.sendall(frame(HELLO, b"\0\3ka1"))
        is_answer(stream, STARTED)
        stream.sendall(frame(UMASK, b"\0\0"))
        is_same("what comes behind a failed sync", stream.recv(1), b"")
        is_same("standard error and status", (server.communicate(timeout=SECONDS)[1], server.returncode), (b"mqserve: trail\nmqserve: net\n", 4))


def settled(path, count):
    """The records, once there are so many."""
    for _ in range(SECONDS * 20):
        records = records_of(path)[0]
        if len(records) >= count:
            break
        time.sleep(0.05)
    return records


class Client(threading.Thread):
    """Sends and receives as fast as it can until the server is gone, and keeps what it was answered."""

    def __init__(self, address, number):
        super().__init__(daemon=True)
        self.stream, self.number = connect(address), number
        self.sent, self.received = [], []

    def run(self):
        with contextlib.suppress(OSError, Wrong):
            self.stream.sendall(frame(HELLO, b"\0\3ka1") + frame(MQ_OPEN, b"\0\2/q\3\1\1\x80\0"))
            is_answer(self.stream, STARTED)
            description = is_answer(self.stream, OPENED)
            for count in range(1 << 30):
                text = b"%d.%d" % (self.number, count)
                self.stream.sendall(frame(MQ_SEND, description + bytes(4) + text) + frame(MQ_RECEIVE, description + struct.pack(">I", 8192)))
                self.take(text)
                self.take(text)

    def take(self, text):
        opcode, fields = answer(self.stream)
        if opcode == SENT:
            self.sent.append(text)
        elif opcode == RECEIVED:
            self.received.append(fields[4:])


def killed(programs, place, *words):
    """A server is killed at a moment of its load: what was answered stands in the file, and the file is legal."""
    chance = random.Random(20261128)
    answered = 0
    for kill in range(KILLS):
        place.trail = place.room / f"trail{kill}"
        with recording(programs, place, *words) as server:
            clients = [Client(place.address, number) for number in range(LOAD)]
            for client in clients:
                client.start()
            time.sleep(chance.uniform(0.005, 0.08))
            server.send_signal(signal.SIGKILL)
            server.wait()
            for client in clients:
                client.join(SECONDS)
        records = records_of(place.trail)[0]
        sends = [fields[12:] for _, fields in calls_of(records, MQ_SEND)]
        lost = {text for client in clients for text in client.sent + client.received} - set(sends)
        is_same("answered, and not in the file", lost, set())
        receives = len(list(calls_of(records, MQ_RECEIVE)))
        is_same("more receives answered than recorded", max(0, sum(len(client.received) for client in clients) - receives), 0)
        answered += sum(len(client.sent) for client in clients)
        is_legal(programs, place.trail)
        place.trail.unlink()
        os.unlink(place.room / "socket")
    is_same("whether something was answered", answered > 0, True)


# ---- a file that is gone on with


def crash(server):
    server.send_signal(signal.SIGKILL)
    server.wait()


def asked(programs, place, key, *commands):
    """What a client prints to each of these commands, each in a session of its own."""
    return [told(programs, place.address, key, *command.split()) for command in commands]


def opened_by(stream, key, name):
    """A session with a description of a queue that it may make. Its number, and the description."""
    stream.sendall(frame(HELLO, struct.pack(">H", len(key)) + key) + frame(MQ_OPEN, struct.pack(">H", len(name)) + name + b"\3\1\1\x80\0"))
    return int.from_bytes(is_answer(stream, STARTED), "big"), is_answer(stream, OPENED)


MADE = ["mq-open /jobs rw --create --mode 0640 --maxmsg 5 --msgsize 100", "send /jobs 3 low", "send /jobs 7 high", "send /jobs 3 next",
        "sem-open /lock --create --value 3", "wait /lock", "chmod 0660 sem /lock"]
CHANGED = ["set-limit 1000 90000", "chmod 1773 mq", "chown 1000 50 sem"]
SHOWN = ["list", "stat mq", "stat sem", "stat mq /jobs", "stat sem /lock"]


def as_it_was(programs, place, *words):
    """What has a name is as it was, and so are limits and numbers; what has none is gone, and so is who waited."""
    with recording(programs, place, *words) as server, connect(place.address) as waits, connect(place.address) as holds:
        is_same("whether something is refused", b"refused" in b"".join(asked(programs, place, "ka1", *MADE) + asked(programs, place, "r00t", *CHANGED)), False)
        _, empty = opened_by(waits, b"ka1", b"/empty")
        waits.sendall(frame(MQ_RECEIVE, empty + struct.pack(">I", 8192)))
        opened_by(holds, b"r00t", b"/gone")
        asked(programs, place, "r00t", "mq-unlink /gone")
        before = asked(programs, place, "r00t", *SHOWN)
        is_silent("a receive", waits)
        crash(server)
    count = len(records_of(place.trail)[0])
    sessions = sum(1 for verdict, kind, _ in records_of(place.trail)[0] if (verdict, kind) == (0, 1))
    with recording(programs, place, *words) as server:
        hang_ups = [record for record in records_of(place.trail)[0][count:] if record[:2] == (0, 3)]
        is_same("how many hang up", len(hang_ups), 2)
        with connect(place.address) as stream:
            is_same("number of the next session", opened_by(stream, b"r00t", b"/more")[0], sessions)
        asked(programs, place, "r00t", "mq-unlink /more")
        is_same("what is shown", asked(programs, place, "r00t", *SHOWN), before)
        is_same("limit", asked(programs, place, "ka1", "mq-open /large rw --create"), [b"refused 23 EMFILE ByteLimit\n"])
        is_same("messages", asked(programs, place, "ka1", *["receive /jobs"] * 3), [b"received 7 high\n", b"received 3 low\n", b"received 3 next\n"])
        is_same("value", asked(programs, place, "ka1", *["wait /lock"] * 2), [b"done\n"] * 2)
        is_same("nobody waits", asked(programs, place, "ka1", "send /empty 1 kept", "receive /empty"), [b"sent\n", b"received 1 kept\n"])
        audit = told(programs, place.address, "r00t", "audit", "0", "1").split()
        is_same("where an audit begins", audit[2].split(b":")[0], b"%d" % count)
    is_legal(programs, place.trail)


def torn(programs, place, *words):
    """A last record that isn't whole is cut off, wherever it ends."""
    with recording(programs, place, "--stop-after", "1", *words) as server:
        asked(programs, place, "ka1", "mq-open /jobs rw --create")
        ends(server, 1)
    whole, records = place.trail.read_bytes(), records_of(place.trail)[0]
    last = AROUND + BEFORE_FIELDS + len(records[-1][2])
    for cut in (1, last // 2, last - 1):
        place.trail.write_bytes(whole[:-cut])
        with recording(programs, place, "--stop-after", "0", *words) as server:
            ends(server, 0)
        is_same("the file", place.trail.read_bytes() == whole, True)
    is_legal(programs, place.trail)


def end_of(records):
    """The byte at which so many records of a first file end."""
    return HEAD_LEN + sum(AROUND + BEFORE_FIELDS + len(fields) for _, _, fields in records)


def torn_send(programs, place, *words):
    """A long send that is torn is cut off whole: what is written next is shorter."""
    with recording(programs, place, *words) as server:
        asked(programs, place, "ka1", "mq-open /jobs rw --create", f"send /jobs 1 {'x' * 3_000}")
        crash(server)
    whole, records = place.trail.read_bytes(), place.records()
    at = next(at for at, (_, kind, fields) in enumerate(records) if kind == 2 and fields[12] == MQ_SEND)
    place.trail.write_bytes(whole[:end_of(records[:at]) + 1_500])
    with recording(programs, place, *words) as server:
        is_same("sent", asked(programs, place, "ka1", "send /jobs 1 short", "receive /jobs"), [b"sent\n", b"received 1 short\n"])
        crash(server)
    is_same("what stood before it", place.records()[:at], records[:at])
    is_legal(programs, place.trail)


def forged(data, at, size, change):
    """The record of this size at this byte, with a byte of its body changed, and its sum."""
    body = bytearray(data[at + 8:at + 8 + size])
    body[change] ^= 1
    return data[:at + 8] + bytes(body) + crc32c(body).to_bytes(4, "big") + data[at + AROUND + size:]


def not_started_from(programs, place, *words):
    """A file with a byte changed, of another verdict, of other users or limits isn't started from, and stays as it is."""
    with recording(programs, place, "--stop-after", "1", *words) as server:
        asked(programs, place, "ka1", "mq-open /jobs rw --create")
        ends(server, 1)
    whole = place.trail.read_bytes()
    size = int.from_bytes(whole[HEAD_LEN:HEAD_LEN + 4], "big")
    second = HEAD_LEN + AROUND + size
    place.trail.write_bytes(whole[:second + 8] + bytes([whole[second + 8] ^ 1]) + whole[second + 9:])
    refuses(programs, place, b" record 1: sum of other bytes", 6, *words)
    place.trail.write_bytes(forged(whole, second, int.from_bytes(whole[second:second + 4], "big"), 8))
    refuses(programs, place, b" record 1: other verdict", 6, *words)
    place.trail.write_bytes(whole)
    others = place.room / "users"
    others.write_text("root:r00t:0:0::\nann:ka1:1001:1000:50:\n")
    refuses(programs, place, b" head: other users", 3, *words, users=others)
    refuses(programs, place, b" head: other limits", 3, "--msg-max", "11", *words)


def one_at_a_time(programs, place, *words):
    """A second server isn't started with the file of one that serves, which isn't told of it."""
    with recording(programs, place, *words):
        is_same("opened", asked(programs, place, "ka1", "mq-open /jobs rw --create"), [b"opened 0\n"])
        second = Place(place.room)
        second.address = f"unix:{place.room}/other"
        settled(place.trail, 3)     # the client's hang-up is recorded behind its end
        files = place.trail.read_bytes()
        command = programs.command("mqserve", ["serve", str(USERS), second.address, *ONE_THREAD, "--trail-file", str(place.trail), *words])
        ended = subprocess.run(command, stdout=subprocess.PIPE, stderr=subprocess.PIPE, timeout=SECONDS)
        is_same("output, fault and status", (ended.stdout, ended.stderr, ended.returncode), (b"", b"mqserve: trail\n", 4))
        is_same("whether the file is as it was", place.trail.read_bytes() == files, True)
        is_same("sent", asked(programs, place, "ka1", "send /jobs 1 on"), [b"sent\n"])
    is_legal(programs, place.trail)


def without_streams(programs, place, *words):
    """What is printed goes into no file, also where a standard stream was closed at the start: without an output no server starts, and
    without an error one serves."""
    command = programs.command("mqserve", ["serve", str(USERS), place.address, *ONE_THREAD, "--trail-file", str(place.trail), *words])
    for count in (0, 3):
        closed = subprocess.run(command, stderr=subprocess.PIPE, timeout=SECONDS, preexec_fn=lambda: os.close(1))
        is_same("fault and status", (closed.stderr, closed.returncode), (b"mqserve: write\n", 4))
        is_same("how many records", len(place.records()), count)
        with subprocess.Popen(command + ["--stop-after", "1"], stdout=subprocess.PIPE, preexec_fn=lambda: os.close(2)) as server:
            try:
                is_same("what it says", server.stdout.readline().split()[:1], [b"serving"])
                asked(programs, place, "ka1", "umask 0")
                is_same("the last line and status", (server.communicate(timeout=SECONDS)[0], server.returncode), (b"served 1\n", 0))
            finally:
                server.kill()
        is_same("how many records", len(place.records()), count + 3)
    is_legal(programs, *place.files())


class Both(Client):
    """Sends, and receives each third time, so that messages gather."""

    def __init__(self, address, number, round_number):
        super().__init__(address, number)
        self.round_number = round_number

    def run(self):
        with contextlib.suppress(OSError, Wrong):
            _, description = opened_by(self.stream, b"ka1", b"/q")
            for count in range(1 << 30):
                text = b"%d.%d.%d" % (self.round_number, self.number, count)
                self.stream.sendall(frame(MQ_SEND, description + bytes(4) + text))
                self.take(text)
                if count % 3 == 0:
                    self.stream.sendall(frame(MQ_RECEIVE, description + struct.pack(">I", 16)))
                    self.take(text)


def taken_out(programs, place):
    """All messages of the queue."""
    line = next(line for line in told(programs, place.address, "r00t", "list").splitlines() if line.startswith(b"mq /q "))
    with connect(place.address) as stream:
        _, description = opened_by(stream, b"ka1", b"/q")
        count = int(line.split()[-1])
        stream.sendall(frame(MQ_RECEIVE, description + struct.pack(">I", 16)) * count)
        return [is_answer(stream, RECEIVED)[4:] for _ in range(count)]


def killed_and_gone_on(programs, place, *words):
    """A server is killed under load and goes on, again and again. Each message whose send was answered is there once, but for those
    that were received: by an answer, or by a receive of the last moment whose answer was lost."""
    chance, limits = random.Random(20261129), ["--msg-max", "65536"]
    sent, received, lost = set(), [], set()
    with recording(programs, place, *limits, *words) as server:
        asked(programs, place, "r00t", "set-limit 1000 100000000")
        asked(programs, place, "ka1", "mq-open /q rw --create --maxmsg 60000 --msgsize 16")
        crash(server)
    for kill in range(KILLS):
        with recording(programs, place, *limits, *words) as server:
            clients = [Both(place.address, number, kill) for number in range(LOAD)]
            for client in clients:
                client.start()
            time.sleep(chance.uniform(0.005, 0.08))
            crash(server)
            for client in clients:
                client.join(SECONDS)
        sent.update(text for client in clients for text in client.sent)
        received += [text for client in clients for text in client.received]
        with recording(programs, place, *limits, *words) as server:
            received += taken_out(programs, place)
            crash(server)
        is_same("how many are received twice", len(received) - len(set(received)), 0)
        missing = sent - set(received) - lost
        is_same("more lost than receives were on their way", max(0, len(missing) - LOAD), 0)
        lost |= missing
    receives = len(list(calls_of(place.records(), MQ_RECEIVE)))
    is_same("receives recorded, and messages received or lost", receives - len(received) >= len(lost), True)
    is_same("whether something was answered", len(sent) > 0, True)
    is_legal(programs, *place.files())


SEGMENT = ["--trail-segment", "4096"]
CALLS = 500


def killed_in_more_files(programs, place, *words):
    """The same, with a trail in more than one file."""
    killed_and_gone_on(programs, place, *SEGMENT, *words)
    is_same("whether there is more than one file", len(place.files()) > 1, True)


def calls_many(place):
    """So many calls that they take several files."""
    with connect(place.address) as stream:
        stream.sendall(frame(HELLO, b"\0\3ka1") + frame(UMASK, b"\0\0") * CALLS)
        is_answer(stream, STARTED)
        for _ in range(CALLS):
            is_answer(stream, MASK)


def in_more_files(programs, place, *words):
    """A trail goes on in another file after so many bytes. A start finds them all, and is none where one is missing."""
    for start in range(1, 3):
        with recording(programs, place, "--stop-after", "1", *SEGMENT, *words) as server:
            calls_many(place)
            ends(server, 1)
        is_same("how many calls", sum(kind == 2 for _, kind, _ in place.records()), start * CALLS)
        is_legal(programs, *place.files())
    files = place.files()
    is_same("whether there are enough files", len(files) > 2, True)
    is_same("whether each before the last has so many bytes", all(path.stat().st_size >= 4096 for path in files[:-1]), True)
    for missing, other in zip(files[:2], files[1:]):
        aside = missing.rename(place.room / "aside")
        refuses(programs, place, b" head: begins at %d" % int(other.suffix[1:]), 6, *SEGMENT, *words)
        aside.rename(missing)
    other = place.room / f"trail.{len(place.records())}"
    other.write_bytes(MAGIC)
    with recording(programs, place, "--stop-after", "0", *words) as server:
        ends(server, 0)
    is_same("whether a file without a whole head is left", other.exists(), False)
    is_same("the files", place.files(), files)


def last_file_at_fault(programs, place, *words):
    """The last of several files stays as it is where a byte of it is changed, and nothing is started from it; where its last record is torn,
    that is cut off."""
    with recording(programs, place, "--stop-after", "1", *SEGMENT, *words) as server:
        calls_many(place)
        ends(server, 1)
    last = place.files()[-1]
    first, whole = int(last.suffix[1:]), last.read_bytes()
    records = records_of(last, first)[0]
    last.write_bytes(whole[:HEAD_LEN + 8] + bytes([whole[HEAD_LEN + 8] ^ 1]) + whole[HEAD_LEN + 9:])
    refuses(programs, place, b" record %d: sum of other bytes" % first, 6, *SEGMENT, *words)
    last.write_bytes(whole[:-3])
    with recording(programs, place, "--stop-after", "0", *words) as server:
        ends(server, 0)
    is_same("whether the last file is whole again", (records_of(last, first), last.read_bytes() == whole), ((records, False), True))
    is_legal(programs, *place.files())


NOTING = r"""
#define _GNU_SOURCE
#include <fcntl.h>
#include <stdio.h>
#include <stdlib.h>
#include <unistd.h>

static int note(const char *call, int fd)
{
    char link[64], path[4096];
    snprintf(link, sizeof link, "/proc/self/fd/%d", fd);
    ssize_t size = readlink(link, path, sizeof path);
    int out = open(getenv("NOTED"), O_WRONLY | O_CREAT | O_APPEND, 0600);
    dprintf(out, "%s %.*s\n", call, (int)(size < 0 ? 0 : size), path);
    return close(out);
}

int fsync(int fd) { return note("fsync", fd); }
int fdatasync(int fd) { return note("fdatasync", fd); }
"""


def synced_by(programs, place, clients, *words):
    """What a server syncs in a life with so many clients: each call and path once in a row."""
    source, library, noted = (place.room.parent / f"{place.room.name}.{kind}" for kind in ("c", "so", "noted"))
    source.write_text(NOTING)
    try:
        subprocess.run(["cc", "-shared", "-fPIC", "-o", library, source], check=True)
        front = servers.Programs(None, [*programs.front, "env", f"LD_PRELOAD={library}", f"NOTED={noted}"])
        front.files = programs.files
        with recording(front, place, "--stop-after", str(clients), *words) as server:
            for _ in range(clients):
                calls_many(place)
            ends(server, clients)
        lines = noted.read_text().splitlines() if noted.exists() else []
        return [tuple(line.split(" ", 1)) for line, before in zip(lines, [None, *lines]) if line != before]
    finally:
        for path in (source, library, noted):
            path.unlink(missing_ok=True)


def what_is_synced(programs, place, *words):
    """A file is synced before the next one is made; with --trail-sync each file and its folder before anything goes out by it, and at the
    next start the last one and the folder. That a file without a head is gone is synced in any case."""
    data, folder = (lambda path: ("fdatasync", str(path))), ("fsync", str(place.room))
    found, files = synced_by(programs, place, 2, *SEGMENT, *words), place.files()
    is_same("whether there are enough files", len(files) > 2, True)
    if not words:
        is_same("what is synced", found, [data(path) for path in files[:-1]])
    else:
        wanted = [call for path in files for call in (data(path), folder, data(path))]
        is_same("what is synced", found in (wanted, wanted[:-1]), True)
    is_same("what a start syncs", synced_by(programs, place, 0, *words), [data(files[-1]), folder] if words else [])
    (place.room / f"trail.{len(place.records())}").write_bytes(MAGIC)
    is_same("what it syncs that removes a file", synced_by(programs, place, 0, *words)[:1], [folder])


def no_next_file(programs, place, *words):
    """Where no other file can be made, the one that there is goes on, and standard error is told."""
    with recording(programs, place, "--stop-after", "1", *SEGMENT, *words) as server:
        others = [place.room / f"trail.{number}" for number in range(1, CALLS + 3)]
        for other in others:
            other.touch()
        calls_many(place)
        out, err = server.communicate(timeout=SECONDS)
    is_same("output and status", (out, server.returncode), (b"served 1\n", 0))
    is_same("what standard error is told", set(err.splitlines()), {b"mqserve: next trail file"})
    for other in others:
        other.unlink()
    is_same("how many calls", sum(kind == 2 for _, kind, _ in records_of(place.trail)[0]), CALLS)
    is_legal(programs, place.trail)


def told_of(programs, users, path, data):
    """The status of the replay of these bytes, standard error, and how many records it tells, whether one is cut off, and that all are legal."""
    path.write_bytes(data)
    command = programs.command("mqserve", ["replay", str(users), str(path)])
    ended = subprocess.run(command, stdout=subprocess.PIPE, stderr=subprocess.PIPE, timeout=SECONDS)
    told = [line for line in ended.stdout.decode().splitlines() if line.split()[0] in ("records", "torn", "legal")]
    return ended.returncode, ended.stderr.decode(), told


# The files of a trail, in their order, and its fault.
FAULTS = [
    (["first", "second_forged"], "record 9: other verdict"),
    (["first", "later"], "head: begins at 8"),
    (["first", "other_limits"], "head: other limits"),
    (["first", "other_users"], "head: other users"),
    (["first", "other_retelling"], "head: other retelling"),
    (["first", "first"], "head: begins at 0"),
    (["first", "no_head"], "no head"),
    (["second"], "head: begins at 7"),
    (["other_users"], "head: other users"),
    (["no_limit"], "head: config MsgMax"),
    (["no_head"], "no head"),
    (["earlier_version"], "head: not a trail of this version"),
    (["later_version"], "head: not a trail of this version"),
    (["forged_refusal"], "record 5: other verdict"),
    (["forged_acceptance"], "record 14: other verdict"),
    (["missing"], "record 5: record of another place"),
    (["twice"], "record 6: record of another place"),
    (["too_long"], "record 5: record too long"),
    (["byte_behind"], "record 5: bad field"),
    (["unknown_rule"], "record 5: bad field"),
    (["retold_cut"], "record 8: cut off"),
    (["unfinished"], f"record {len(trails.RETOLD)}: cut off"),
    (["retold_first", "second"], "head: other retelling"),
    (["retold_first", "retold_otherwise"], "head: other retelling"),
]
LEGAL = [["life"], ["long"], ["empty"], ["first", "second"], ["kept"], ["kept_torn"], ["retold"], ["retold_torn"], ["retold_first", "retold_second"], ["of_no_file"],
         ["differs"], ["somebody_lives"]]


def known(programs, place):
    """Trails whose fault is known, or that have none."""
    users = place.room / "users"
    users.write_bytes(trails.user_file(trails.USERS))
    for name, content in trails.trails().items():
        (place.room / name).write_bytes(content)
    for names, fault in [*FAULTS, *((names, None) for names in LEGAL)]:
        command = programs.command("mqserve", ["replay", str(users), *(str(place.room / name) for name in names)])
        ended = subprocess.run(command, stdout=subprocess.PIPE, stderr=subprocess.PIPE, timeout=SECONDS)
        is_same(f"the fault of {names}", ended.stderr.decode(), f"mqserve: trail {fault}\n" if fault else "")
        is_same(f"whether {names} is legal", ended.stdout.decode().endswith("legal\n"), not fault)
    for name, others in trails.USER_FILES.items():
        users.write_bytes(trails.user_file(others))
        wanted = (0, "") if name in ("users", "renamed.users") else (3, "mqserve: trail head: other users\n")
        is_same(f"status and fault by {name}", told_of(programs, users, place.trail, trails.trails()["life"])[:2], wanted)


def damaged(programs, place):
    """A file that is cut at any byte has the records that are whole, and is legal; one with any byte changed has a fault with its place."""
    users = place.room / "users"
    users.write_bytes(trails.user_file(trails.USERS))
    life, ends = trails.trails()["life"], [len(trails.head())]
    for part in trails.entries(trails.LIFE):
        ends.append(ends[-1] + len(part))
    for at in range(len(life) + 1):
        whole = sum(end <= at for end in ends) - 1
        wanted = (6, "mqserve: trail no head\n", [])
        if whole >= 0:
            wanted = 0, "", [f"records {whole}", *[f"torn {whole}"] * (at not in ends), "legal"]
        is_same(f"what is told of a file that is cut at {at}", told_of(programs, users, place.trail, life[:at]), wanted)
    for at, byte in enumerate(life):
        place_of = sum(end <= at for end in ends) - 1
        fault = f"record {place_of}: sum of other bytes" if place_of >= 0 else "head: sum of other bytes"
        wanted = 6, f"mqserve: trail {fault if at >= 8 else 'head: not a trail of this version'}\n", []
        changed = life[:at] + bytes([byte ^ 1]) + life[at + 1:]
        is_same(f"what is told of a file with byte {at} changed", told_of(programs, users, place.trail, changed), wanted)


CASES = {
    "trails that are known": known,
    "a file that is cut or changed": damaged,
    "all that happens": all_is_there,
    "a parked call": parked,
    "a file that is no trail": no_trail,
    "a full disk": full_disk,
    "a sync that fails": no_sync,
    "kills under load": killed,
    "what goes on": as_it_was,
    "a torn file": torn,
    "a long send that is torn": torn_send,
    "files that are not started from": not_started_from,
    "a second server": one_at_a_time,
    "closed streams": without_streams,
    "kills, and going on": killed_and_gone_on,
    "more than one file": in_more_files,
    "the last of several files": last_file_at_fault,
    "what is synced": what_is_synced,
    "no next file": no_next_file,
    "kills, and going on in more files": killed_in_more_files,
}
# Those to which --trail-sync says nothing, and the one that is nothing without it.
WITHOUT_SYNC, WITH_SYNC = {known, damaged}, {no_sync}
WITH_A_COMPILER = {no_sync, what_is_synced}


def ways_of(case):
    """The words of the servers that the case is tried with."""
    ways = [] if case in WITH_SYNC else [[]]
    return ways if case in WITHOUT_SYNC else [*ways, ["--trail-sync"]]


def judged(programs, case, words):
    """Returns what is other than it must be, or nothing."""
    with tempfile.TemporaryDirectory() as room:
        try:
            case(programs, Place(room), *words)
        except (Wrong, OSError, ValueError, TypeError, subprocess.TimeoutExpired) as fault:
            return f"{type(fault).__name__}: {fault}"
    return ""


def main():
    programs = servers.programs_given(__doc__)
    failed = count = 0
    for name, case in CASES.items():
        if case in WITH_A_COMPILER and not shutil.which("cc"):
            print(f"trail: {name}: no C compiler here; passed over")
            continue
        for words in ways_of(case):
            difference = judged(programs, case, words)
            failed, count = failed + bool(difference), count + 1
            print(f"trail: {' '.join([name, *words])}: {difference or 'as it must be'}", flush=True)
    print(f"{count - failed} as they must be, {failed} not")
    return 1 if failed else 0


if __name__ == "__main__":
    sys.exit(main())
