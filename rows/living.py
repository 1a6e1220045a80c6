"""What lives at the end of a trail: a model in Python that steps the accepted records as docs/dev/policy.md says, as far as what outlives sessions
needs. It decides nothing: whether each verdict is the policy's, `mqserve replay` says. Nothing of the crates is used."""

import dataclasses
import typing

import calls
import trail_files
from calls import MQ, SEM
from trail_files import STANDARD_USER_LIMIT

FIRST_DIRECTORY = (0, 0, 0o1777)
FIRST_MASK = 0o22
SEND, RECEIVE, WAIT = "send", "receive", "wait"


class Fields:
    """The fields of a record or a request, which are taken one by one."""

    def __init__(self, data):
        self.data = data

    def taken(self, size):
        taken, self.data = self.data[:size], self.data[size:]
        return taken

    def number(self, size):
        return int.from_bytes(self.taken(size), "big")

    def text(self):
        return self.taken(self.number(2))

    def optional(self, size):
        return self.number(size) if self.number(1) else None

    def target(self):
        """A family, and a name or None for the directory."""
        return self.number(1), self.text() if self.number(1) else None


@dataclasses.dataclass(eq=False)
class Object:
    """A queue, which has attributes, or a semaphore, which has a value. A message is its priority, its bytes and the sender's user ID."""

    creator: int
    facts: tuple
    attributes: typing.Optional[tuple] = None
    value: int = 0
    messages: list = dataclasses.field(default_factory=list)

    def told(self):
        """All of it that lives. Which of two priorities entered first shows nowhere."""
        by_priority = {}
        for priority, data, sender in self.messages:
            by_priority.setdefault(priority, []).append((data, sender))
        return self.creator, self.facts, self.attributes, self.value, by_priority


@dataclasses.dataclass(eq=False)
class Parked:
    """A call that waits."""

    session: int
    thing: Object
    kind: str
    message: typing.Optional[tuple]
    deadline: typing.Optional[int]


class Model:
    """What the records lead to, by these users and limits."""

    def __init__(self, users, limits):
        self.groups = {user.uid: user.gid for user in users}
        self.limits = {user.uid: user.limit or STANDARD_USER_LIMIT for user in users}
        self.attributes = min(10, limits[0]), min(8192, limits[1])
        # Of each session its user and its mask; those that are live; what each description gives.
        self.users, self.masks, self.live, self.held, self.opened = [], [], set(), {}, 0
        # In order of creation.
        self.names = {MQ: {}, SEM: {}}
        self.directories = {MQ: FIRST_DIRECTORY, SEM: FIRST_DIRECTORY}
        # The longest parked first.
        self.parked, self.time = [], 0

    def living(self):
        """All that lives once every session is gone, as values that can be compared."""
        names = {family: [(name, thing.told()) for name, thing in bound.items()] for family, bound in self.names.items()}
        return {"names": names, "directories": self.directories, "limits": self.limits, "time": self.time}

    # ---- events

    def step(self, record):
        if record.rule == 0:
            EVENTS[record.kind](self, Fields(record.fields))

    def hello(self, fields):
        self.live.add(len(self.users))
        self.users.append(fields.optional(4))
        self.masks.append(FIRST_MASK)

    def call(self, fields):
        session, _length, opcode = fields.number(8), fields.number(4), fields.number(1)
        if opcode in CALLS:
            CALLS[opcode](self, session, fields)

    def hang_up(self, fields):
        session = fields.number(8)
        self.withdraw(session)
        self.live.remove(session)
        self.held = {desc: (holder, thing) for desc, (holder, thing) in self.held.items() if holder != session}

    def tick(self, fields):
        """Ends one call: the earliest whose deadline has come."""
        self.time = max(self.time, fields.number(8))
        due = next((call for call in self.parked if call.deadline is not None and call.deadline <= self.time), None)
        if due:
            self.parked.remove(due)

    # ---- parked calls

    def park(self, session, thing, kind, message=None, deadline=None):
        self.parked.append(Parked(session, thing, kind, message, deadline))

    def withdraw(self, session):
        self.parked = [call for call in self.parked if call.session != session]

    def served(self, thing, kind):
        """The longest parked call of this kind, which ends."""
        first = next((call for call in self.parked if call.thing is thing and call.kind == kind), None)
        if first:
            self.parked.remove(first)
        return first

    # ---- calls

    def interrupt(self, session, _fields):
        self.withdraw(session)

    def umask(self, session, fields):
        self.masks[session] = fields.number(2) & 0o777

    def open(self, session, family, name, mode, made):
        """Gives a description of what has the name, or of what is made so."""
        if name not in self.names[family]:
            user = self.users[session]
            facts = user, self.groups[user], mode & 0o777 & ~self.masks[session]
            self.names[family][name] = Object(user, facts, **made)
        self.held[self.opened] = session, self.names[family][name]
        self.opened += 1

    def mq_open(self, session, fields):
        name, _access, _flags, mode = fields.text(), fields.number(1), fields.number(1), fields.number(2)
        attributes = (fields.number(4), fields.number(4)) if fields.number(1) else self.attributes
        self.open(session, MQ, name, mode, {"attributes": attributes})

    def sem_open(self, session, fields):
        name, _flags, mode, value = fields.text(), fields.number(1), fields.number(2), fields.number(4)
        self.open(session, SEM, name, mode, {"value": value})

    def close(self, _session, fields):
        del self.held[fields.number(8)]

    def mq_unlink(self, _session, fields):
        del self.names[MQ][fields.text()]

    def sem_unlink(self, _session, fields):
        del self.names[SEM][fields.text()]

    def give(self, _session, fields):
        desc, taker = fields.number(8), fields.number(8)
        self.held[desc] = taker, self.held[desc][1]

    def send(self, session, fields, is_timed=False):
        queue, priority = self.held[fields.number(8)][1], fields.number(4)
        deadline = fields.number(8) if is_timed else None
        message = priority, fields.data, self.users[session]
        if len(queue.messages) >= queue.attributes[0]:
            self.park(session, queue, SEND, message, deadline)
        elif not self.served(queue, RECEIVE):
            queue.messages.append(message)

    def timed_send(self, session, fields):
        self.send(session, fields, True)

    def receive(self, session, fields, is_timed=False):
        queue, _length = self.held[fields.number(8)][1], fields.number(4)
        deadline = fields.number(8) if is_timed else None
        if not queue.messages:
            return self.park(session, queue, RECEIVE, None, deadline)
        greatest = max(priority for priority, _, _ in queue.messages)
        queue.messages.remove(next(message for message in queue.messages if message[0] == greatest))
        entering = self.served(queue, SEND)
        if entering:
            queue.messages.append(entering.message)

    def timed_receive(self, session, fields):
        self.receive(session, fields, True)

    def wait(self, session, fields, is_timed=False):
        semaphore = self.held[fields.number(8)][1]
        deadline = fields.number(8) if is_timed else None
        if semaphore.value:
            semaphore.value -= 1
        else:
            self.park(session, semaphore, WAIT, None, deadline)

    def timed_wait(self, session, fields):
        self.wait(session, fields, True)

    def post(self, _session, fields):
        semaphore = self.held[fields.number(8)][1]
        if not self.served(semaphore, WAIT):
            semaphore.value += 1

    def change(self, target, change):
        """Changes the owner, group and mode of what the target means."""
        family, name = target
        if name is None:
            self.directories[family] = change(*self.directories[family])
        else:
            thing = self.names[family][name]
            thing.facts = change(*thing.facts)

    def chmod(self, _session, fields):
        mode, target = fields.number(2), fields.target()
        kept = 0o1777 if target[1] is None else 0o777
        self.change(target, lambda owner, group, _mode: (owner, group, mode & kept))

    def chown(self, _session, fields):
        given_owner, given_group, target = fields.optional(4), fields.optional(4), fields.target()
        this_or = lambda given, kept: kept if given is None else given
        self.change(target, lambda owner, group, mode: (this_or(given_owner, owner), this_or(given_group, group), mode))

    def set_limit(self, _session, fields):
        uid = fields.number(4)
        self.limits[uid] = fields.number(8)


EVENTS = {trail_files.HELLO: Model.hello, trail_files.CALL: Model.call, trail_files.HANG_UP: Model.hang_up, trail_files.TICK: Model.tick}

# Those that change what outlives sessions, or what does so later.
CALLS = {
    calls.UMASK: Model.umask,
    calls.MQ_OPEN: Model.mq_open,
    calls.MQ_CLOSE: Model.close,
    calls.MQ_UNLINK: Model.mq_unlink,
    calls.MQ_SEND: Model.send,
    calls.MQ_RECEIVE: Model.receive,
    calls.SEM_OPEN: Model.sem_open,
    calls.SEM_CLOSE: Model.close,
    calls.SEM_UNLINK: Model.sem_unlink,
    calls.SEM_POST: Model.post,
    calls.SEM_WAIT: Model.wait,
    calls.SEM_TRY_WAIT: Model.wait,
    calls.CHMOD: Model.chmod,
    calls.CHOWN: Model.chown,
    calls.SET_LIMIT: Model.set_limit,
    calls.INTERRUPT: Model.interrupt,
    calls.MQ_TIMED_SEND: Model.timed_send,
    calls.MQ_TIMED_RECEIVE: Model.timed_receive,
    calls.SEM_TIMED_WAIT: Model.timed_wait,
    calls.MQ_GIVE: Model.give,
}


def model_of(users, files, count=None):
    """What the first records of a trail lead to, or all of them, given the bytes of its files in order."""
    model = Model(users, trail_files.read_head(files[0]).limits)
    for record in trail_files.records_of(files)[0][:count]:
        model.step(record)
    return model
