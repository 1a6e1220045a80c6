"""The requests of docs/ref/protocol.md: each as its opcode and its fields, of which numbers of descriptions and sessions may be left open until it
is sent. Nothing of the crates is used."""

from trail_files import u8, u16, u32, u64

UMASK, MQ_OPEN, MQ_CLOSE, MQ_UNLINK, MQ_SEND, MQ_RECEIVE, MQ_GETATTR, MQ_SETATTR, MQ_NOTIFY = range(2, 11)
SEM_OPEN, SEM_CLOSE, SEM_UNLINK, SEM_POST, SEM_WAIT, SEM_TRY_WAIT, SEM_GETVALUE = range(11, 18)
LIST_NAMES, STAT_NAME, CHMOD, CHOWN, SET_LIMIT, INTERRUPT, AUDIT = range(18, 25)
MQ_TIMED_SEND, MQ_TIMED_RECEIVE, SEM_TIMED_WAIT, MQ_GIVE = 26, 27, 28, 30
# Each kind of a queue's and a semaphore's call, by the family.
MQ, SEM = 1, 2
CLOSES, UNLINKS = {MQ: MQ_CLOSE, SEM: SEM_CLOSE}, {MQ: MQ_UNLINK, SEM: SEM_UNLINK}
READ, WRITE, BOTH = 1, 2, 3
CREATE, EXCLUSIVE, NONBLOCK = 1, 2, 4


def frame(opcode, fields=b""):
    return u32(1 + len(fields)) + u8(opcode) + fields


def spelled(request, number_of=None):
    """The frame of a request. `number_of` spells what was left open."""
    opcode, parts = request
    return frame(opcode, b"".join(part if isinstance(part, bytes) else number_of(part) for part in parts))


def number(given):
    """The field of a number that is known, or what stands for one."""
    return u64(given) if isinstance(given, int) else given


def text(data):
    return u16(len(data)) + data


def optional(data):
    return b"\0" if data is None else b"\1" + data


def target(family, name=None):
    return u8(family) + optional(None if name is None else text(name))


def umask(mask):
    return UMASK, [u16(mask)]


def mq_open(name, access=BOTH, flags=CREATE, mode=0o600, attributes=None):
    given = optional(None if attributes is None else u32(attributes[0]) + u32(attributes[1]))
    return MQ_OPEN, [text(name), u8(access), u8(flags), u16(mode), given]


def sem_open(name, flags=CREATE, mode=0o600, value=0):
    return SEM_OPEN, [text(name), u8(flags), u16(mode), u32(value)]


def close(family, description):
    return CLOSES[family], [number(description)]


def unlink(family, name):
    return UNLINKS[family], [text(name)]


def mq_send(description, priority, message):
    return MQ_SEND, [number(description), u32(priority), message]


def mq_timed_send(description, priority, deadline, message):
    return MQ_TIMED_SEND, [number(description), u32(priority), number(deadline), message]


def mq_receive(description, length=8192):
    return MQ_RECEIVE, [number(description), u32(length)]


def mq_timed_receive(description, length, deadline):
    return MQ_TIMED_RECEIVE, [number(description), u32(length), number(deadline)]


def mq_getattr(description):
    return MQ_GETATTR, [number(description)]


def mq_setattr(description, nonblock):
    return MQ_SETATTR, [number(description), u8(nonblock)]


def mq_notify(description, is_on):
    return MQ_NOTIFY, [number(description), u8(is_on)]


def mq_give(description, taker):
    return MQ_GIVE, [number(description), number(taker)]


def sem_call(opcode, description):
    """A post, a wait, a trywait, or a look at the value."""
    return opcode, [number(description)]


def sem_timed_wait(description, deadline):
    return SEM_TIMED_WAIT, [number(description), number(deadline)]


def list_names(family, start, count):
    return LIST_NAMES, [u8(family), u32(start), u16(count)]


def stat_name(family, name=None):
    return STAT_NAME, [target(family, name)]


def chmod(mode, family, name=None):
    return CHMOD, [u16(mode), target(family, name)]


def chown(owner, group, family, name=None):
    ids = [optional(None if one is None else u32(one)) for one in (owner, group)]
    return CHOWN, [*ids, target(family, name)]


def set_limit(uid, limit):
    return SET_LIMIT, [u32(uid), u64(limit)]


def interrupt():
    return INTERRUPT, []


def audit(start, count):
    return AUDIT, [u64(start), u16(count)]
