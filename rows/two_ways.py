#!/usr/bin/env python3
"""Plays random scripts two ways and compares every answer: once through `mqserve script`, and once step by step through
`mqserve serve`, where each label is a client with a connection of its own; by workers and on one thread, one of them over TCP
and the other at a Unix socket, by turns.

A script has sessions of four users and calls of every kind, most of them sensible. Each answer must come to the same session,
with the same words. Deadlines of timed calls are long past, just past, 40 ms ahead or an hour ahead: a script, whose time goes
by ticks, gets a tick behind a call whose deadline comes. Pages of the audit must have the same lines; the server's trail also has
its own ticks and the looks of the session that watches it, which don't count.

`two_ways.py [COUNT] [SEED]` plays so many scripts, 50 where nothing is given; the last line counts the scripts and the answers
that were compared. The programs are those that `make test` or `make build` left.
"""

import argparse
import collections
import pathlib
import random
import re
import select
import socket
import struct
import subprocess
import sys
import tempfile
import time

TOP = pathlib.Path(__file__).resolve().parent.parent
SERVER = TOP / "crates/mqserve/out/mqserve"
CLIENT = TOP / "crates/mqctl/out/mqctl"

USERS = "root:r00t:0:0::\nann:ka1:1000:1000:50:\nbob:kb1:1001:1001:50,51:\ncy:kc1:1002:1002::\n"
KEYS = ("r00t", "ka1", "kb1", "kc1", "unknown")

# The words of each server that a script is played at.
SERVERS = (("--workers", "8"), ("--one-thread",))

# The kinds of addresses. A script is played at both servers, each at another kind, and the next the other way round.
ADDRESSES = ("tcp", "unix")

# The session that looks whether a step without an answer was recorded. Scripts don't use it.
WATCH = "watch"

# The line that parts the answers of one step from those of the next; it is no step.
PARTING, PARTED = "?", "- fault line"

SECONDS = 20
STEPS = 120
LATEST = 2**64 - 1

# Deadlines that a step names by a word: the milliseconds from the server's clock, and those from the script's, which goes on by
# MILLISECONDS with each step. The tick of a script comes behind both.
DEADLINES = {"JUST_PAST": (-10, -10), "SOON": (40, 50)}
MILLISECONDS, TICK, FIRST_MOMENT = 100, 60, 1_000_000
LATER = "LATER"
HOUR = 3_600_000

# The place in an audit's line of a hello's session and of a tick's, and the calls of lines that aren't requests.
NOBODY, AUDIT, TICKED = 2**64 - 1, 24, 29


class Wrong(Exception):
    """The two ways differ."""


# ---- scripts


class Script:
    """Steps by chance. It remembers labels and how many descriptions were asked for, so that most steps are sensible."""

    def __init__(self, dice):
        self.dice, self.steps, self.opens = dice, [], 0
        self.labels = ["a", "b", "c", "d"][: dice.randint(2, 4)]
        for label in self.labels:
            self.steps.append((label, f"hello {dice.choice(KEYS[:4])}"))
            self.steps.append((label, f"umask {dice.choice(('0', '022', '077'))}"))
        # Descriptions 0 and 1 are of the first label, so calls by them wait until their deadlines come.
        self.add_open("sem-open /late --create")
        self.add_open("mq-open /late rw --create --maxmsg 1 --msgsize 8")
        while len(self.steps) < STEPS:
            self.add_one()

    def add_open(self, words):
        self.steps.append((self.labels[0], words))
        self.opens += 1

    def late_call(self):
        deadline = self.dice.choice((*DEADLINES, LATER))
        calls = ("sem-timedwait 0 {}", "mq-timedreceive 1 8 {}", "mq-timedsend 1 0 {} m", "mq-timedsend 1 9 {} m")
        return self.dice.choice(calls).format(deadline)

    def name(self):
        return self.dice.choice(("/a", "/a", "/b", "/c", "/d", "a", "/a/b"))

    def desc(self):
        recent = max(self.opens, 1)
        return self.dice.choice((recent - 1, recent - 1, self.dice.randrange(recent + 1), self.dice.randrange(recent + 1)))

    def deadline(self):
        return self.dice.choice((0, *DEADLINES, LATER, LATEST))

    def opening(self):
        dice, self.opens = self.dice, self.opens + 1
        flags = "".join(f" --{flag}" for flag in ("create", "create", "excl", "nonblock") if dice.random() < 0.4)
        flags = flags.replace(" --create --create", " --create") + dice.choice(("", " --mode 0666", " --mode 0604"))
        if dice.random() < 0.4:
            value = dice.choice((0, 1, 2**31 - 1, 2**31))
            return f"sem-open {self.name()}{flags.replace(' --nonblock', '')} --value {value}"
        size = dice.choice(("", f" --maxmsg {dice.randrange(4)} --msgsize {dice.choice((4, 8))}"))
        return f"mq-open {self.name()} {dice.choice(('r', 'w', 'rw', 'rw'))}{flags}{size}"

    def message_call(self):
        dice, desc = self.dice, self.desc()
        message, priority, room = "m" * dice.randint(1, 5), dice.choice((0, 1, 9, 32_767, 32_768)), dice.choice((4, 8, 8192))
        return dice.choice(
            (
                f"mq-send {desc} {priority} {message}",
                f"mq-send {desc} {priority} {message}",
                f"mq-timedsend {desc} {priority} {self.deadline()} {message}",
                f"mq-receive {desc} {room}",
                f"mq-receive {desc} {room}",
                f"mq-timedreceive {desc} {room} {self.deadline()}",
                f"mq-getattr {desc}",
                f"mq-setattr {desc} {dice.choice(('block', 'nonblock'))}",
                f"mq-notify {desc} {dice.choice(('on', 'on', 'off'))}",
                f"mq-give {desc} {dice.randrange(6)}",
            )
        )

    def semaphore_call(self):
        call = self.dice.choice(("post", "post", "wait", "wait", "trywait", "getvalue"))
        return f"sem-{call} {self.desc()}" if self.dice.random() < 0.8 else f"sem-timedwait {self.desc()} {self.deadline()}"

    def other_call(self):
        dice = self.dice
        family, mode = dice.choice(("mq", "sem")), dice.choice(("0666", "0000", "1777", "0755"))
        target = dice.choice((family, f"{family} {self.name()}"))
        uid, gid = dice.choice(("keep", "1000", "1001")), dice.choice(("keep", "50", "51"))
        return dice.choice(
            (
                f"{family}-close {self.desc()}",
                f"{family}-unlink {self.name()}",
                f"ls {family} 0 {dice.randrange(5)}",
                f"stat {target}",
                f"chmod {mode} {target}",
                f"chown {uid} {gid} {target}",
                f"set-limit {dice.choice((1000, 1002, 7))} {dice.choice((0, 900_000))}",
                "interrupt",
                "interrupt",
                f"umask {dice.choice(('000', '027'))}",
            )
        )

    def add_one(self):
        dice, label = self.dice, self.dice.choice(self.labels)
        chance = dice.random()
        if chance < 0.04:
            self.steps += [(label, "hangup"), (label, f"hello {dice.choice(KEYS)}")]
        elif chance < 0.08:
            self.steps.append((self.labels[0], self.late_call()))
        elif chance < 0.11:
            start, count = dice.choice((0, 0, dice.randrange(STEPS))), dice.choice((3, 40, 1000, 65_535))
            self.steps.append((label, f"audit {start} {count}"))
        elif chance < 0.24:
            self.steps.append((label, self.opening()))
        elif chance < 0.6:
            self.steps.append((label, self.message_call()))
        elif chance < 0.8:
            self.steps.append((label, self.semaphore_call()))
        else:
            self.steps.append((label, self.other_call()))


def has_come(words):
    """Whether a step has a deadline that comes while it is played."""
    return any(word in words for word in DEADLINES)


def with_deadlines(words, moment, clock):
    """A step with numbers for its deadlines, at this moment of the server's clock (0) or the script's (1)."""
    for word, ahead in DEADLINES.items():
        words = words.replace(word, str(moment + ahead[clock]))
    return words.replace(LATER, str(moment + HOUR))


# ---- the first way: a script


def by_script(steps):
    """What each step is answered: for each label its lines, in order."""
    given = USERS + ".\n" + f"{WATCH} hello r00t\n{PARTING}\n"
    for number, (label, words) in enumerate(steps):
        moment = FIRST_MOMENT + MILLISECONDS * number
        given += f"{label} {with_deadlines(words, moment, 1)}\n"
        given += f"{WATCH} tick {moment + TICK}\n" if has_come(words) else ""
        given += f"{PARTING}\n"
    ran = subprocess.run([SERVER, "script"], input=given, capture_output=True, text=True, timeout=SECONDS)
    parts = ran.stdout.split(PARTED + "\n")
    if ran.returncode or len(parts) != len(steps) + 2:
        raise Wrong(f"the script ended with status {ran.returncode} and {len(parts) - 2} steps of {len(steps)}")
    return [[tuple(line.split(" ", 1)) for line in part.splitlines()] for part in parts[1:-1]]


# ---- the second way: a server


def frames_of(commands):
    """The request of each command, by `mqctl`; None where it has none."""
    given = "".join(f"{with_deadlines(it, FIRST_MOMENT, 0)}\n" for it in commands)
    ran = subprocess.run([CLIENT], input=given, capture_output=True, text=True, timeout=SECONDS)
    return [None if line.startswith("fault") else bytes.fromhex(line) for line in ran.stdout.splitlines()]


def with_deadline_now(request, words):
    """The request of a timed call, whose deadline is that of a step made now."""
    at, behind = {26: (17, 25), 27: (17, 25), 28: (13, 21)}[request[4]]
    moment = time.time_ns() // 1_000_000
    ahead = next((ahead[0] for word, ahead in DEADLINES.items() if word in words), HOUR)
    return request[:at] + (moment + ahead).to_bytes(8, "big") + request[behind:]


RULES = {}


def rules():
    """Each rule's error and name by its number, from the table of docs/use/rules.md."""
    if not RULES:
        for line in (TOP / "docs/use/rules.md").read_text(encoding="utf-8").splitlines():
            cells = [cell.strip() for cell in line.split("|")]
            if len(cells) > 4 and cells[1].isdigit():
                RULES[int(cells[1])] = f"{cells[3]} {cells[2]}"
    return RULES


def printed(data):
    visible = data and all(0x21 <= byte <= 0x7E for byte in data) and not data.startswith(b"hex:")
    return data.decode() if visible else f"hex:{data.hex()}"


def names_in(fields):
    (count,), at, names = struct.unpack_from(">H", fields), 2, []
    for _ in range(count):
        (size,) = struct.unpack_from(">H", fields, at)
        names.append(printed(fields[at + 2 : at + 2 + size]))
        at += 2 + size
    return " ".join([f"names {count}", *names])


COMMANDS = {}


def command_of(number):
    """The first word of the command of a request's opcode, from docs/ref/protocol.md."""
    if not COMMANDS:
        COMMANDS.update({25: "hangup", TICKED: "tick"})
        for code, name in re.findall(r"(?m)^ ?(\d+) ([A-Z]\w+)", (TOP / "docs/ref/protocol.md").read_text(encoding="utf-8")):
            word = re.sub(r"^(Mq|Sem|Set)", r"\1-", name).lower()
            COMMANDS[int(code)] = {"listnames": "ls", "statname": "stat"}.get(word, word)
    return COMMANDS.get(number, str(number))


def records_in(fields):
    """The lines of a page of the trail: each its place, session, call, rule and name."""
    (count,), at, records = struct.unpack_from(">H", fields), 2, []
    for _ in range(count):
        place, session, call, rule, size = struct.unpack_from(">QQBHH", fields, at)
        records.append((place, session, call, rule, fields[at + 21 : at + 21 + size]))
        at += 21 + size
    return records


def page_of(records):
    """A page without places, ticks, and the looks of the session that watches."""
    lines = []
    for _, session, call, rule, name in records:
        if call != TICKED and (session, call) != (0, AUDIT):
            who = "-" if session == NOBODY else session
            lines.append(f"{who}:{command_of(call)}:{rule}:{printed(name) if name else 'hex:'}")
    return " ".join(["page", *lines])


def page_in(line):
    """The same of an audit's line that a script printed."""
    lines = [word.split(":", 1)[1] for word in line.split(" ")[2:]]
    return " ".join(["page", *(it for it in lines if it.split(":")[1] != "tick")])


def line_of(opcode, fields):
    """The line of an answer, written from docs/ref/protocol.md and docs/use/commands.md alone."""
    word = {65: "started", 67: "opened", 72: "value", 78: "notice", 79: "taken"}.get(opcode)
    if word:
        return f"{word} {int.from_bytes(fields, 'big')}"
    if opcode in (66, 70, 77):
        return {66: "done", 70: "sent", 77: "interrupted EINTR"}[opcode]
    if opcode == 68:
        return f"mask {int.from_bytes(fields, 'big'):03o}"
    if opcode == 69:
        return "attrs {} {} {} {}".format(*struct.unpack(">BIII", fields))
    if opcode == 71:
        return f"received {int.from_bytes(fields[:4], 'big')} {printed(fields[4:])}"
    if opcode == 73:
        return names_in(fields)
    if opcode == 74:
        return "stat {} {} {:04o}".format(*struct.unpack(">IIH", fields))
    if opcode == 75:
        return page_of(records_in(fields))
    if opcode == 76:
        number = int.from_bytes(fields, "big")
        return f"refused {number} {rules().get(number)}"
    return f"answer {opcode} {fields.hex()}"


def connected(address):
    """A connection to a port of this machine, or to a socket's file."""
    if isinstance(address, int):
        stream = socket.create_connection(("127.0.0.1", address), SECONDS)
        stream.setsockopt(socket.IPPROTO_TCP, socket.TCP_NODELAY, 1)
        return stream
    stream = socket.socket(socket.AF_UNIX)
    stream.settimeout(SECONDS)
    stream.connect(str(address))
    return stream


class Session:
    """A client's connection, whose answers are read as they are asked for."""

    def __init__(self, address, key):
        self.stream, self.kept, self.come = connected(address), b"", collections.deque()
        key = key.encode()
        self.stream.sendall(struct.pack(">IBH", 3 + len(key), 1, len(key)) + key)

    def read_more(self):
        piece = self.stream.recv(65_536)
        if not piece:
            raise Wrong("the server ended a connection that it must serve")
        self.kept += piece
        while len(self.kept) >= 4 and len(self.kept) >= 4 + int.from_bytes(self.kept[:4], "big"):
            end = 4 + int.from_bytes(self.kept[:4], "big")
            self.come.append((self.kept[4], self.kept[5:end]))
            self.kept = self.kept[end:]

    def answer(self):
        while not self.come:
            self.read_more()
        return self.come.popleft()

    def is_silent(self):
        return not self.come and not select.select([self.stream], [], [], 0)[0]


class Server:
    """A server, the sessions of a script's labels, and the session that watches the trail."""

    def __init__(self, folder, words, kind):
        if kind == "unix":
            self.address = pathlib.Path(folder) / f"socket{words[0]}"
            spelled = f"unix:{self.address}"
        else:
            with socket.socket() as probe:
                probe.bind(("127.0.0.1", 0))
                self.address = probe.getsockname()[1]
            spelled = f"127.0.0.1:{self.address}"
        users = pathlib.Path(folder) / "users"
        users.write_text(USERS)
        command = [SERVER, "serve", users, spelled, *words]
        self.process = subprocess.Popen(command, stdin=subprocess.DEVNULL, stdout=subprocess.PIPE, text=True)
        # How many steps were made that the trail must have, the places of those that were seen there, and the place after.
        self.sessions, self.made, self.places, self.looked = {}, 0, [], 0
        try:
            if not self.process.stdout.readline():
                raise Wrong("the server doesn't start")
            self.started(WATCH, "r00t")
        except BaseException:
            self.end()
            raise

    def end(self):
        for session in self.sessions.values():
            session.stream.close()
        self.process.kill()
        self.process.wait()
        self.process.stdout.close()

    def started(self, label, key):
        """A session of its own for the label, where its key is known; what the hello was answered."""
        session = Session(self.address, key)
        opcode, fields = session.answer()
        self.made += 1
        if opcode == 65:
            self.sessions[label] = session
        else:
            session.stream.close()
        return [(label, line_of(opcode, fields))]

    def look(self):
        """Notes the places of the steps that the trail got since the last look, which is a record too."""
        self.sessions[WATCH].stream.sendall(struct.pack(">IBQH", 11, AUDIT, self.looked, 1000))
        opcode, fields = self.sessions[WATCH].answer()
        if opcode != 75:
            raise Wrong(f"the audit is answered {opcode}")
        for place, session, call, _, _ in records_in(fields):
            self.looked = place + 1
            if call != TICKED and (session, call) != (0, AUDIT):
                self.places.append(place)

    def wait_for_records(self):
        """Until all steps that were made are in the trail."""
        start, pause = time.monotonic(), 0.001
        self.look()
        while len(self.places) < self.made:
            if time.monotonic() - start > SECONDS:
                raise Wrong("a step was never recorded")
            time.sleep(pause)
            pause = min(2 * pause, 0.1)
            self.look()

    def audit(self, first, count):
        """The request for the page of so many steps from the first on."""
        self.wait_for_records()
        if not count:
            return struct.pack(">IBQH", 11, AUDIT, self.looked + 10_000, 1)
        start, last = self.places[first], self.places[first + count - 1]
        return struct.pack(">IBQH", 11, AUDIT, start, last + 1 - start)

    def step(self, label, words, request, wanted):
        """Makes the step, and gives the answers that came to the sessions which must get some."""
        verb, *rest = words.split(" ")
        if verb == "hello":
            return self.started(label, rest[0])
        if request is None and verb != "hangup":
            return wanted
        self.made += 1
        if verb == "hangup":
            self.sessions.pop(label).stream.close()
        else:
            self.sessions[label].stream.sendall(request)
        if not wanted:
            self.wait_for_records()
        return [(to, line_of(*self.sessions[to].answer())) for to, _ in wanted]


class Trail:
    """What a script's trail has: which of its records are ticks."""

    def __init__(self):
        self.are_ticks = [False]

    def add(self, words, request):
        if request is not None or words.split(" ")[0] in ("hello", "hangup"):
            self.are_ticks.append(False)
        if has_come(words):
            self.are_ticks.append(True)

    def steps_of(self, words):
        """The first step of the page that the words ask for, and how many steps are on it."""
        _, start, count = words.split(" ")
        first, count = int(start), min(int(count), 1000)
        return self.are_ticks[:first].count(False), self.are_ticks[first : first + count].count(False)


def request_now(server, trail, step, request):
    """The step's request, with the deadline or the page that it has at this server."""
    if request is not None and any(word in step for word in (*DEADLINES, LATER)):
        return with_deadline_now(request, step)
    return server.audit(*trail.steps_of(step)) if request is not None and step.startswith("audit ") else request


def by_server(steps, wanted, folder, words, kind):
    """Plays the steps at a server with these words and an address of this kind, and compares what each is answered."""
    requests = frames_of([words for _, words in steps])
    server, trail, compared = Server(folder, words, kind), Trail(), 0
    try:
        for number, ((label, step), request, answers) in enumerate(zip(steps, requests, wanted)):
            if step.startswith("hello ") or label in server.sessions:
                answers = [(to, page_in(line) if line.startswith("records ") else line) for to, line in answers]
                came = server.step(label, step, request_now(server, trail, step, request), answers)
                trail.add(step, request)
                if came != answers:
                    raise Wrong(f"step {number}, {label} {step}: the script has {answers}, the server {came}")
                compared += len(answers)
        loud = [label for label, session in server.sessions.items() if not session.is_silent()]
        if loud:
            raise Wrong(f"answers that no step has came to {', '.join(loud)}")
    finally:
        server.end()
    return compared


def playable(steps):
    """Steps of labels that have a session: only such can be made at a server. A hello comes only behind a hang-up."""
    live, kept = set(), []
    for label, words in steps:
        if words.startswith("hello "):
            if label not in live and words != "hello unknown":
                live.add(label)
            kept.append((label, words))
        elif label in live:
            kept.append((label, words))
            live -= {label} if words == "hangup" else set()
    return kept


def main():
    parser = argparse.ArgumentParser(description=__doc__, formatter_class=argparse.RawDescriptionHelpFormatter)
    parser.add_argument("count", nargs="?", type=int, default=50, help="scripts, 50 where nothing is given")
    parser.add_argument("seed", nargs="?", type=int, default=1, help="of the first script; each next has the next seed")
    given = parser.parse_args()
    if not SERVER.exists() or not CLIENT.exists():
        sys.exit("no programs were built yet: run `make build` first")
    compared, failed = 0, 0
    for seed in range(given.seed, given.seed + given.count):
        steps = playable(Script(random.Random(seed)).steps)
        with tempfile.TemporaryDirectory(prefix="two-ways-") as folder:
            for words, kind in zip(SERVERS, ADDRESSES[:: 1 if seed % 2 else -1]):
                try:
                    compared += by_server(steps, by_script(steps), folder, words, kind)
                except (Wrong, OSError) as fault:
                    failed += 1
                    print(f"seed {seed}, {' '.join(words)}, {kind}: {type(fault).__name__}: {fault}")
    print(f"{given.count} scripts played two ways, {compared} answers compared, {failed} differ")
    sys.exit(1 if failed or not compared else 0)


if __name__ == "__main__":
    main()
