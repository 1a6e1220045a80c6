#!/usr/bin/env python3
"""mock.py serve USERS ADDRESS [--workers N | --one-thread] [--trail-file FILE]: answers as docs/dev/policy.md says, for tests where no server is
built. ADDRESS is HOST:PORT, unix:PATH or unix-users:DIR. A FILE that is there is stepped again first, so that names go on after a restart; its
format is none of the product's. Not the product: nothing here is proved, and audit is left out. DIES_BEFORE=OPCODE:COUNT: it is killed when so
many answers have this opcode, before the last of them leaves."""
import json
import os
import select
import signal
import socket
import struct
import sys
import threading
import time

QUEUES, SEMAPHORES = 1, 2
READ, WRITE = 4, 2
CREATE, EXCLUSIVE, NONBLOCK = 1, 2, 4
lock = threading.Lock()
sessions, names, limits = {}, {QUEUES: {}, SEMAPHORES: {}}, {}
count = {"sessions": 0, "descriptions": 0}
trail = None
dies_before, lives = map(int, os.environ.get("DIES_BEFORE", "0:0").split(":"))
timed, last_tick = [], 0    # the sessions whose parked call has a deadline, in the order in which they parked


class Refused(Exception):
    """A refusal; its argument is the rule's number."""


class Object:
    def __init__(self, family, owner, group, mode):
        self.family, self.owner, self.group, self.mode, self.creator = family, owner, group, mode, owner
        self.messages, self.waiters, self.registered, self.uses, self.bound = [], [], None, 0, True
        self.max_messages = self.max_size = self.value = 0

    def bytes(self):
        return self.max_messages * (96 + self.max_size) if self.family == QUEUES else 0


directories = {family: Object(family, 0, 0, 0o1777) for family in (QUEUES, SEMAPHORES)}
living = []


class Session:
    def __init__(self, connection, user):
        self.connection, self.user, self.mask, self.held, self.parked, self.deadline = connection, user, 0o22, {}, None, None
        self.number = count["sessions"]
        count["sessions"] += 1
        sessions[self.number] = self

    def answer(self, opcode, fields=b""):
        global lives
        if opcode == dies_before and not isinstance(self.connection, Nobody):
            lives -= 1
            if lives == 0:
                os.kill(os.getpid(), signal.SIGKILL)
        try:
            self.connection.sendall(struct.pack(">IB", len(fields) + 1, opcode) + fields)
        except OSError:
            pass

    def grants(self, thing, wanted):
        uid, gid, groups = self.user
        shift = 6 if uid == thing.owner else 3 if thing.group in [gid] + groups else 0
        return uid == 0 or (thing.mode >> shift) & 7 & wanted == wanted


class Fields:
    def __init__(self, data):
        self.data = data

    def number(self, size):
        value, self.data = int.from_bytes(self.data[:size], "big"), self.data[size:]
        return value

    def text(self):
        size = self.number(2)
        value, self.data = self.data[:size], self.data[size:]
        return value

    def target(self):
        return self.number(1), self.text() if self.number(1) else None


def check_name(s, family, name):
    if name[:1] != b"/" or len(name) < 2 or b"/" in name[1:] or b"\0" in name or name in (b"/.", b"/.."):
        raise Refused(4)
    if len(name) > (256 if family == QUEUES else 252):
        raise Refused(5)
    if not s.grants(directories[family], 1):
        raise Refused(11)


def bound(s, family, name):
    check_name(s, family, name)
    if name not in names[family]:
        raise Refused(13)
    return names[family][name]


def held(s, description, family):
    if description not in s.held or s.held[description][0].family != family:
        raise Refused(8)
    return s.held[description]


def let_go(s, description):
    o = s.held.pop(description)[0]
    o.uses -= 1
    if o.registered == (s, description):
        o.registered = None
    end_if_gone(o)


def end_if_gone(o):
    if not o.bound and not o.uses and o in living:
        living.remove(o)


def open_object(s, family, name, wanted, flags, mode, check):
    check_name(s, family, name)
    o = names[family].get(name)
    if o is None and not flags & CREATE:
        raise Refused(13)
    if o is not None and flags & CREATE and flags & EXCLUSIVE:
        raise Refused(14)
    if o is not None and not s.grants(o, wanted):
        raise Refused(15)
    if o is None:
        if not s.grants(directories[family], WRITE):
            raise Refused(16)
        o = Object(family, s.user[0], s.user[1], mode & 0o777 & ~s.mask)
        check(o)
    if len(s.held) >= 1024:
        raise Refused(24)
    if name not in names[family]:
        names[family][name] = o
        living.append(o)
    description = count["descriptions"]
    count["descriptions"] += 1
    o.uses += 1
    s.held[description] = [o, wanted, bool(flags & NONBLOCK)]
    s.answer(67, struct.pack(">Q", description))


def open_queue(s, fields):
    name, access, flags, mode = fields.text(), fields.number(1), fields.number(1), fields.number(2)
    messages, size = (fields.number(4), fields.number(4)) if fields.number(1) else (10, 8192)

    def check(o):
        is_root = s.user[0] == 0
        most = (65536, 16777216) if is_root else (10, 8192)
        if not 1 <= messages <= most[0] or not 1 <= size <= most[1]:
            raise Refused(20)
        queues = [q for q in living if q.family == QUEUES]
        if len(queues) >= 256 and not is_root:
            raise Refused(22)
        o.max_messages, o.max_size = messages, size
        if sum(q.bytes() for q in queues if q.creator == s.user[0]) + o.bytes() > limits[s.user[0]]:
            raise Refused(23)
    open_object(s, QUEUES, name, {1: READ, 2: WRITE, 3: READ | WRITE}[access], flags, mode, check)


def open_semaphore(s, fields):
    name, flags, mode, value = fields.text(), fields.number(1), fields.number(2), fields.number(4)

    def check(o):
        if value > 2147483647:
            raise Refused(21)
        o.value = value
    open_object(s, SEMAPHORES, name, READ | WRITE, flags, mode, check)


def unlink(s, family, name):
    o = bound(s, family, name)
    directory = directories[family]
    if not s.grants(directory, WRITE):
        raise Refused(16)
    if directory.mode & 0o1000 and s.user[0] not in (0, o.owner, directory.owner):
        raise Refused(17)
    del names[family][name]
    o.bound = False
    end_if_gone(o)
    s.answer(66)


def park(s, o, kind, deadline, message=None):
    if deadline is not None and deadline <= last_tick:
        raise Refused(32)
    s.parked, s.deadline = (o, kind, message), deadline
    o.waiters.append(s)
    if deadline is not None:
        timed.append(s)


def unpark(s):
    s.parked[0].waiters.remove(s)
    if s.deadline is not None:
        timed.remove(s)
    s.parked = s.deadline = None


def tick(now):
    """Ends the calls whose deadlines have come, the earliest call first. The time never goes back."""
    global last_tick
    ending = [s for s in timed if s.deadline <= now]
    if ending:
        record(now, "tick")
    for s in ending:
        last_tick = max(last_tick, now)
        unpark(s)
        s.answer(76, struct.pack(">H", 32))


def keep_time():
    while True:
        time.sleep(0.01)
        with lock:
            tick(int(time.time() * 1000))


def first_waiter(o, kind):
    return next((w for w in o.waiters if w.parked[1] == kind), None)


def send(s, description, priority, data, deadline=None):
    o, wanted, nonblock = held(s, description, QUEUES)
    if not wanted & WRITE:
        raise Refused(9)
    if priority >= 32768:
        raise Refused(25)
    if len(data) > o.max_size:
        raise Refused(26)
    receiver = first_waiter(o, "receive")
    if receiver:
        unpark(receiver)
        s.answer(70)
        return receiver.answer(71, struct.pack(">I", priority) + data)
    if len(o.messages) >= o.max_messages:
        if nonblock:
            raise Refused(29)
        return park(s, o, "send", deadline, (priority, data))
    registered = None if o.messages else o.registered
    o.messages.append((priority, data))
    s.answer(70)
    if registered:
        o.registered = None
        registered[0].answer(78, struct.pack(">Q", registered[1]))


def receive(s, description, size, deadline=None):
    o, wanted, nonblock = held(s, description, QUEUES)
    if not wanted & READ:
        raise Refused(10)
    if size < o.max_size:
        raise Refused(27)
    if not o.messages:
        if nonblock:
            raise Refused(29)
        return park(s, o, "receive", deadline)
    best = max(range(len(o.messages)), key=lambda i: (o.messages[i][0], -i))
    priority, data = o.messages.pop(best)
    s.answer(71, struct.pack(">I", priority) + data)
    sender = first_waiter(o, "send")
    if sender:
        o.messages.append(sender.parked[2])
        unpark(sender)
        sender.answer(70)


def wait(s, description, may_park, deadline=None):
    o = held(s, description, SEMAPHORES)[0]
    if o.value:
        o.value -= 1
        return s.answer(66)
    if not may_park:
        raise Refused(29)
    park(s, o, "wait", deadline)


def post(s, description):
    o = held(s, description, SEMAPHORES)[0]
    if o.value == 2147483647:
        raise Refused(30)
    waiter = first_waiter(o, "wait")
    s.answer(66)
    if waiter:
        unpark(waiter)
        waiter.answer(66)
    else:
        o.value += 1


def notify(s, description, on):
    o = held(s, description, QUEUES)[0]
    if on and o.registered:
        raise Refused(28)
    if on:
        o.registered = (s, description)
    elif o.registered == (s, description):
        o.registered = None
    s.answer(66)


def give(s, description, number):
    o = held(s, description, QUEUES)[0]
    taker = sessions.get(number)
    if taker is None or taker is s:
        raise Refused(33)
    if len(taker.held) >= 1024:
        raise Refused(24)
    if o.registered == (s, description):
        o.registered = None
    taker.held[description] = s.held.pop(description)
    s.answer(66)
    taker.answer(79, struct.pack(">Q", description))


def state(s, description, nonblock=None):
    row = held(s, description, QUEUES)
    s.answer(69, struct.pack(">BIII", row[2], row[0].max_messages, row[0].max_size, len(row[0].messages)))
    if nonblock is not None:
        row[2] = bool(nonblock)


def meant(s, family, name):
    return directories[family] if name is None else bound(s, family, name)


def stat(s, fields):
    o = meant(s, *fields.target())
    s.answer(74, struct.pack(">IIH", o.owner, o.group, o.mode))


def chmod(s, fields):
    mode = fields.number(2)
    family, name = fields.target()
    o = meant(s, family, name)
    if s.user[0] not in (0, o.owner):
        raise Refused(18)
    o.mode = mode & (0o1777 if name is None else 0o777)
    s.answer(66)


def chown(s, fields):
    owner, group = [fields.number(4) if fields.number(1) else None for _ in range(2)]
    o = meant(s, *fields.target())
    uid, gid, groups = s.user
    if uid != 0 and (uid != o.owner or owner not in (None, uid) or group not in [None, gid] + groups):
        raise Refused(19)
    o.owner, o.group = o.owner if owner is None else owner, o.group if group is None else group
    s.answer(66)


def list_names(s, fields):
    family, start, most = fields.number(1), fields.number(4), fields.number(2)
    if not s.grants(directories[family], READ):
        raise Refused(12)
    page = list(names[family])[start:start + min(most, 1000)]
    s.answer(73, struct.pack(">H", len(page)) + b"".join(struct.pack(">H", len(n)) + n for n in page))


def set_limit(s, user, size):
    if s.user[0] != 0:
        raise Refused(6)
    if user not in limits:
        raise Refused(7)
    limits[user] = size
    s.answer(66)


def interrupt(s):
    if not s.parked:
        raise Refused(3)
    unpark(s)
    s.answer(77)
    s.answer(66)


def umask(s, mask):
    s.answer(68, struct.pack(">H", s.mask))
    s.mask = mask & 0o777


def close(s, description, family):
    held(s, description, family)
    let_go(s, description)
    s.answer(66)


CALLS = {
    2: lambda s, f: umask(s, f.number(2)),
    3: open_queue,
    4: lambda s, f: close(s, f.number(8), QUEUES),
    5: lambda s, f: unlink(s, QUEUES, f.text()),
    6: lambda s, f: send(s, f.number(8), f.number(4), f.data),
    7: lambda s, f: receive(s, f.number(8), f.number(4)),
    8: lambda s, f: state(s, f.number(8)),
    9: lambda s, f: state(s, f.number(8), f.number(1)),
    10: lambda s, f: notify(s, f.number(8), f.number(1)),
    11: open_semaphore,
    12: lambda s, f: close(s, f.number(8), SEMAPHORES),
    13: lambda s, f: unlink(s, SEMAPHORES, f.text()),
    14: lambda s, f: post(s, f.number(8)),
    15: lambda s, f: wait(s, f.number(8), True),
    16: lambda s, f: wait(s, f.number(8), False),
    17: lambda s, f: s.answer(72, struct.pack(">I", held(s, f.number(8), SEMAPHORES)[0].value)),
    18: list_names,
    19: stat,
    20: chmod,
    21: chown,
    22: lambda s, f: set_limit(s, f.number(4), f.number(8)),
    23: lambda s, f: interrupt(s),
    26: lambda s, f: send(s, f.number(8), f.number(4), deadline=f.number(8), data=f.data),
    27: lambda s, f: receive(s, f.number(8), f.number(4), f.number(8)),
    28: lambda s, f: wait(s, f.number(8), True, f.number(8)),
    30: lambda s, f: give(s, f.number(8), f.number(8)),
}


def record(*what):
    """Before anything is answered."""
    if trail:
        trail.write(json.dumps(what) + "\n")
        trail.flush()


class Nobody:
    """The connection of a session that a trail tells of."""

    def sendall(self, answer):
        pass


def replay(path):
    """Steps what the file has. The sessions in it end then."""
    global trail
    lines = open(path).readlines() if os.path.exists(path) else []
    for who, what, *words in (json.loads(line) for line in lines if line.endswith("\n")):
        if what == "tick":
            tick(who)
        elif what == "hello":
            Session(Nobody(), words[0])
        elif what == "step":
            step(sessions[who], bytes.fromhex(words[0]))
        else:
            hang_up(sessions[who])
    with open(path, "w") as whole:
        whole.writelines(line for line in lines if line.endswith("\n"))     # the last one may have been cut by a kill
    trail = open(path, "a")
    for s in list(sessions.values()):
        hang_up(s)


def step(s, body):
    record(s.number, "step", body.hex())
    try:
        if s.parked and body[0] != 23:
            raise Refused(2)
        CALLS[body[0]](s, Fields(body[1:]))
    except Refused as refusal:
        s.answer(76, struct.pack(">H", refusal.args[0]))


def hang_up(s):
    record(s.number, "hangup")
    if s.parked:
        unpark(s)
    for description in list(s.held):
        let_go(s, description)
    del sessions[s.number]


def read_frame(stream):
    try:
        head = stream.read(4)
        return stream.read(int.from_bytes(head, "big")) if len(head) == 4 else b""
    except OSError:
        return b""


def serve(connection, users, user):
    stream = connection.makefile("rb")
    if user is None:
        hello = read_frame(stream)
        user = users.get(hello[3:]) if hello[:1] == b"\1" else None
        if user is None:
            return connection.sendall(struct.pack(">IBH", 3, 76, 31)) if hello else None
    with lock:
        s = Session(connection, user)
        record(s.number, "hello", user)
        s.answer(65, struct.pack(">Q", s.number))
    while True:
        body = read_frame(stream)
        with lock:
            if not body or body[0] not in CALLS:
                return hang_up(s)
            step(s, body)


def read_users(path):
    users, names = {}, {}
    for line in open(path, "rb").read().splitlines():
        name, key, uid, gid, groups, limit = line.split(b":")
        users[key] = names[name.decode()] = (int(uid), int(gid), [int(group) for group in groups.split(b",") if group])
        limits[int(uid)] = int(limit or 819200)
    return users, names


def listen_at(path):
    listener = socket.socket(socket.AF_UNIX)
    listener.bind(path)
    return listener


def listen(address, names):
    """The listeners, each with the user that who connects there is, or None where that is told by a key."""
    if address.startswith("unix-users:"):
        listeners = {listen_at(os.path.join(address[11:], name)): user for name, user in names.items()}
        for listener, user in listeners.items():
            os.chmod(listener.getsockname(), 0o600)
            os.chown(listener.getsockname(), *user[:2])
            listener.listen(128)
        return listeners
    if address.startswith("unix:"):
        listener = listen_at(address[5:])
        listener.listen(128)
        return {listener: None}
    host, port = address.rsplit(":", 1)
    return {socket.create_server((host, int(port)), backlog=128): None}


def main():
    users, names = read_users(sys.argv[2])
    words = sys.argv[4:]
    workers = threading.Semaphore(int(words[words.index("--workers") + 1]) if "--workers" in words else 1000 if "--one-thread" in words else 4)
    if "--trail-file" in words:
        replay(words[words.index("--trail-file") + 1])
    listeners = listen(sys.argv[3], names)
    threading.Thread(target=keep_time, daemon=True).start()
    print("serving", sys.argv[3], flush=True)

    def work(connection, user):
        try:
            serve(connection, users, user)
        except OSError:
            pass
        connection.close()
        workers.release()
    while True:
        for listener in select.select(list(listeners), [], [])[0]:
            connection, _ = listener.accept()
            if connection.family != socket.AF_UNIX:
                connection.setsockopt(socket.IPPROTO_TCP, socket.TCP_NODELAY, 1)
            workers.acquire()
            threading.Thread(target=work, args=(connection, listeners[listener]), daemon=True).start()


if __name__ == "__main__":
    main()
