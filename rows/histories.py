"""Random histories at a server: calls of several users by chance, most of them sensible, and what they are answered, with sessions and descriptions by
the order in which they came. So the same calls can be made at another server, and what both answer be compared."""

import collections
import socket
import time

import calls
from calls import BOTH, CREATE, EXCLUSIVE, MQ, NONBLOCK, READ, SEM, WRITE
from servers import OPENED, REFUSED, SECONDS, STARTED, Wrong, connect
from trail_files import u64

# The answers to the interrupt of a call are the first for the call and then one for the interrupt.
TAKEN, NOTICE, DONE = 79, 78, 66
PARKED = b"\0\2"
# Nobody has the description that is asked for to see whether a session is parked.
PROBE = calls.spelled(calls.mq_getattr(2**64 - 1))
MOST_SESSIONS, MOST_VALUE = 6, 2**31 - 1
HOUR, SOON, PAST = 3_600_000, 15, 10
# How long a call whose deadline is past is waited for.
PAUSE = 0.002

# A number that is known once the step is made: that of a description or of a session, by the order in which they came.
Description = collections.namedtuple("Description", "index")
Taker = collections.namedtuple("Taker", "index")
# A hello by a key, the end of a session, or a call of one; whether the call's deadline is past, so that its end is waited for.
Hello = collections.namedtuple("Hello", "key")
HangUp = collections.namedtuple("HangUp", "who")
Call = collections.namedtuple("Call", "who request waits", defaults=(False,))


def moment():
    """Milliseconds since 1970, as servers have them."""
    return time.time_ns() // 1_000_000


class Session:
    """A client's connection. Whether its last call is parked, a call tells that is refused in either case."""

    def __init__(self, address):
        self.stream, self.kept, self.asked = connect(address), b"", 0
        self.is_parked = False

    def send(self, frames, count):
        self.stream.sendall(frames)
        self.asked += count

    def read(self):
        """The next frame's body; no bytes at the end of the stream."""
        while len(self.kept) < 4 or len(self.kept) < 4 + int.from_bytes(self.kept[:4], "big"):
            piece = self.stream.recv(65_536)
            if not piece:
                return b""
            self.kept += piece
        end = 4 + int.from_bytes(self.kept[:4], "big")
        body, self.kept = self.kept[4:end], self.kept[end:]
        return body

    def settled(self):
        """All answers so far. Each request has one in the end, and what is asked last is refused, by another rule where a call is parked."""
        self.send(PROBE, 1)
        answers = []
        while True:
            body = self.read()
            if not body:
                raise Wrong("the server hung up")
            opcode, fields = body[0], body[1:]
            self.asked -= opcode not in (NOTICE, TAKEN)
            self.is_parked = self.asked == 1 and (opcode, fields) == (REFUSED, PARKED)
            if self.asked == 0 or self.is_parked:
                return answers
            answers.append((opcode, fields))

    def left(self):
        """What came until the server has recorded that the client left, and hung up too."""
        self.stream.shutdown(socket.SHUT_WR)
        answers = []
        while True:
            body = self.read()
            if not body:
                self.stream.close()
                return answers
            answers.append((body[0], body[1:]))


class Player:
    """The sessions of a history at a server. Answers are told with numbers by the order in which they came."""

    def __init__(self, address):
        self.address = address
        # In order: the connection, or None once it has ended; the number that the server told; the user's key.
        self.sessions, self.numbers, self.keys = [], [], []
        # By session: the descriptions that it holds, each with its family and access.
        self.descriptions, self.held = {}, []

    def close(self):
        for session in filter(None, self.sessions):
            session.stream.close()

    def live(self):
        return [who for who, session in enumerate(self.sessions) if session]

    def number_of(self, part):
        """The field of a number by its order."""
        if isinstance(part, Taker):
            return self.numbers[part.index]
        return next((raw for raw, index in self.descriptions.items() if index == part.index), u64(2**64 - 2))

    def shown(self, answer):
        """The answer, with a description by its order."""
        opcode, fields = answer
        if opcode == OPENED:
            self.descriptions[fields] = len(self.descriptions)
        return (opcode, self.descriptions.get(fields)) if opcode in (OPENED, NOTICE, TAKEN) else answer

    def made(self, step):
        """Makes the step. What came to its session, and to each that was parked before."""
        waiting = [who for who in self.live() if self.sessions[who].is_parked]
        if isinstance(step, Hello):
            return self.began(step.key)
        answers = self.ended(step.who) if isinstance(step, HangUp) else self.called(step)
        others = [(who, self.settled(who)) for who in waiting if who != step.who]
        return [(step.who, answers), *others]

    def began(self, key):
        session = Session(self.address)
        session.stream.sendall(calls.frame(1, calls.text(key.encode())))
        body = session.read()
        if body[:1] != bytes([STARTED]):
            raise Wrong(f"a hello is answered {body!r}")
        self.sessions.append(session)
        self.numbers.append(body[1:])
        self.keys.append(key)
        self.held.append({})
        return []

    def ended(self, who):
        session, self.sessions[who], self.held[who] = self.sessions[who], None, {}
        return [self.shown(answer) for answer in session.left()]

    def settled(self, who):
        return [self.shown(answer) for answer in self.sessions[who].settled()]

    def called(self, step):
        session = self.sessions[step.who]
        ends_soon = step.waits and not session.is_parked
        session.send(calls.spelled(step.request, self.number_of), 1)
        answers = self.settled(step.who)
        until = time.monotonic() + SECONDS
        while ends_soon and session.is_parked:
            if time.monotonic() > until:
                raise Wrong("a call whose deadline is past doesn't end")
            time.sleep(PAUSE)
            answers += self.settled(step.who)
        self.note(step, answers)
        return answers

    def note(self, step, answers):
        """Notes which descriptions are held after the call."""
        opcode, parts = step.request
        for answer, index in answers:
            if answer == OPENED:
                self.held[step.who][index] = (SEM, BOTH) if opcode == calls.SEM_OPEN else (MQ, parts[1][0])
        if (DONE, b"") in answers and opcode in (calls.MQ_CLOSE, calls.SEM_CLOSE, calls.MQ_GIVE):
            given = self.held[step.who].pop(parts[0].index)
            if opcode == calls.MQ_GIVE:
                self.held[parts[1].index][parts[0].index] = given


class Chooser:
    """Steps by chance, by what the player's sessions hold. Where they are told apart by answers alone, they have nothing that depends on the trail
    or on how fast a server is."""

    def __init__(self, dice, player, users, largest=64, by_answers=False):
        self.dice, self.player, self.keys = dice, player, [user.key for user in users]
        self.uids, self.groups = [user.uid for user in users], [50, 51, *(user.gid for user in users)]
        self.largest, self.by_answers, self.sent, self.after = largest, by_answers, 0, []
        # The moment up to which calls that would park are refused.
        self.time = 0

    def step(self):
        dice, live = self.dice, self.player.live()
        if self.after:
            return self.after.pop()
        if len(live) < 2 or (len(live) < MOST_SESSIONS and dice.random() < 0.06):
            self.after = [Call(len(self.player.sessions), calls.umask(0))] * (dice.random() < 0.7)
            return Hello(dice.choice(self.keys))
        parked = [who for who in live if self.player.sessions[who].is_parked]
        free = [who for who in live if who not in parked]
        if not free or dice.random() < 0.04:
            return HangUp(dice.choice(live))
        if parked and dice.random() < 0.05:
            return Call(dice.choice(parked), calls.interrupt())
        kinds, *weights = zip(*KINDS)
        kind = dice.choices(kinds, weights[self.by_answers])[0]
        who = dice.choice(parked) if parked and dice.random() < 0.02 else self.fit(kind, free)
        return self.with_end(who, kind(self, who) or self.open(who))

    def fit(self, kind, free):
        """One of these sessions; for what user 0 alone may do, mostly one of it."""
        mine = [who for who in free if self.player.keys[who] == self.keys[0] and self.uids[0] == 0]
        return self.dice.choice(mine if mine and kind in FOR_USER_0 and self.dice.random() < 0.7 else free)

    def with_end(self, who, request):
        """The call, and whether its deadline is past already."""
        opcode, parts = request
        at = {calls.MQ_TIMED_SEND: 2, calls.MQ_TIMED_RECEIVE: 2, calls.SEM_TIMED_WAIT: 1}.get(opcode)
        return Call(who, request, at is not None and int.from_bytes(parts[at], "big") <= moment())

    # ---- what calls name

    def name(self):
        return self.dice.choice([b"/a", b"/a", b"/b", b"/b", b"/c", b"/d", b"/e", b"/" + b"long" * 60, b"/\xff\1 x"])

    def held(self, who, family, wanted=0):
        """A description of the session with this access; now and then any other. None if it holds none."""
        mine = [index for index, (kind, access) in self.player.held[who].items() if kind == family and access & wanted == wanted]
        if self.dice.random() < 0.03:
            mine = range(len(self.player.descriptions) + 1)
        return Description(self.dice.choice(mine)) if mine else None

    def mode(self):
        return self.dice.choice([0o666, 0o666, 0o622, 0o600, 0o640, 0o660, 0, 0o777, 0o420])

    def deadline(self):
        now = moment()
        return self.dice.choice([0, self.time, self.time + 1, now - PAST, now + HOUR, *[now + SOON] * (not self.by_answers)])

    def target(self):
        family = self.dice.choice((MQ, MQ, SEM))
        return (family, self.name()) if self.dice.random() < 0.8 else (family,)

    def message(self):
        """Often one of its own; now and then one that was sent before, an empty one, or one as long as may be."""
        self.sent += 1
        known = self.dice.choice([b"", b"again", bytes(self.largest)])
        return known if self.dice.random() < 0.2 else b"%d" % self.sent

    def priority(self):
        return self.dice.choice([0, 0, 1, 5, 32_767])

    # ---- calls; those by a description are None where the session holds none

    def open(self, who):
        return self.dice.choice((Chooser.open_queue, Chooser.open_queue, Chooser.open_semaphore))(self, who)

    def open_queue(self, who):
        flags = CREATE * (self.dice.random() < 0.8) | self.dice.choice([0, 0, 0, EXCLUSIVE]) | NONBLOCK * (self.dice.random() < 0.3)
        attributes = self.dice.choice([None, (1, 8), (2, 64), (3, 20), (4, self.largest), (12, 16)])
        return calls.mq_open(self.name(), self.dice.choice((READ, WRITE, BOTH, BOTH, BOTH)), flags, self.mode(), attributes)

    def open_semaphore(self, who):
        flags = CREATE * (self.dice.random() < 0.8) | self.dice.choice([0, 0, 0, EXCLUSIVE])
        return calls.sem_open(self.name(), flags, self.mode(), self.dice.choice((0, 0, 1, 2, 3, MOST_VALUE)))

    def send(self, who):
        desc = self.held(who, MQ, WRITE)
        return desc and calls.mq_send(desc, self.priority(), self.message())

    def timed_send(self, who):
        desc = self.held(who, MQ, WRITE)
        return desc and calls.mq_timed_send(desc, self.priority(), self.deadline(), self.message())

    def receive(self, who):
        desc = self.held(who, MQ, READ)
        return desc and calls.mq_receive(desc, self.dice.choice((16, 8192, 100_000, 100_000)))

    def timed_receive(self, who):
        desc = self.held(who, MQ, READ)
        return desc and calls.mq_timed_receive(desc, 100_000, self.deadline())

    def use_semaphore(self, who):
        opcode = self.dice.choice((calls.SEM_POST, calls.SEM_WAIT, calls.SEM_WAIT, calls.SEM_TRY_WAIT, calls.SEM_GETVALUE))
        desc = self.held(who, SEM)
        return desc and calls.sem_call(opcode, desc)

    def timed_wait(self, who):
        desc = self.held(who, SEM)
        return desc and calls.sem_timed_wait(desc, self.deadline())

    def be_late(self, who):
        """Waits for a semaphore that nobody posts, until a moment that is past: the server tells the time."""
        waits = calls.sem_timed_wait(Description(len(self.player.descriptions)), moment() - PAST)
        self.after = [Call(who, waits, True)]
        return calls.sem_open(b"/late", CREATE, 0o666)

    def use_queue(self, who):
        desc = self.held(who, MQ)
        uses = [calls.mq_getattr(desc), calls.mq_setattr(desc, self.dice.random() < 0.5), calls.mq_notify(desc, self.dice.random() < 0.7)]
        return desc and self.dice.choice(uses)

    def give(self, who):
        desc = self.held(who, MQ)
        taker = self.dice.choice([*self.player.live(), self.dice.randrange(len(self.player.numbers))])
        return desc and calls.mq_give(desc, Taker(taker))

    def close(self, who):
        family = self.dice.choice((MQ, SEM))
        desc = self.held(who, family)
        return desc and calls.close(family, desc)

    def unlink(self, who):
        return calls.unlink(self.dice.choice((MQ, SEM)), self.name())

    def chmod(self, who):
        target = self.target()
        return calls.chmod(self.mode() if len(target) > 1 else self.dice.choice([0o1777, 0o777, 0o1755, 0o1773, 0o711]), *target)

    def chown(self, who):
        owner, group = self.dice.choice([None, *self.uids, 7]), self.dice.choice([None, *self.groups, 8])
        return calls.chown(owner, group, *self.target())

    def set_limit(self, who):
        return calls.set_limit(self.dice.choice(self.uids), self.dice.choice([0, 1000, 100_000, 819_200, 10**15]))

    def look(self, who):
        family = self.dice.choice((MQ, SEM))
        looks = [calls.list_names(family, self.dice.choice((0, 0, 2)), 5), calls.stat_name(*self.target())]
        return self.dice.choice(looks + [calls.audit(self.dice.choice((0, 30)), 20)] * (not self.by_answers))

    def umask(self, who):
        return calls.umask(self.dice.choice((0, 0, 0o22, 0o77, 0o7777)))


# How often each comes where a history is made, and where answers are compared: there messages are taken out, and others say what was told.
KINDS = [
    (Chooser.open_queue, 16, 24), (Chooser.open_semaphore, 6, 6), (Chooser.send, 34, 12), (Chooser.timed_send, 4, 2), (Chooser.receive, 5, 24),
    (Chooser.timed_receive, 3, 3), (Chooser.use_semaphore, 7, 8), (Chooser.timed_wait, 3, 3), (Chooser.be_late, 2, 1), (Chooser.use_queue, 4, 4),
    (Chooser.give, 3, 2), (Chooser.close, 3, 2), (Chooser.unlink, 2, 3), (Chooser.chmod, 6, 4), (Chooser.chown, 5, 5), (Chooser.set_limit, 2, 1),
    (Chooser.look, 3, 6), (Chooser.umask, 2, 2),
]
FOR_USER_0 = {Chooser.chown, Chooser.set_limit}
