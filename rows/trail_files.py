"""The bytes of user files and trail files, as docs/run/service.md and docs/ref/trail-format.md say: how they are written, and how they are read
back. Nothing of the crates is used."""

import collections

MAGIC = b"MQTRAIL2"
# The bytes of a whole head, and those of a record around its body.
HEAD_LEN, AROUND = 96, 12
# The place, verdict and kind in front of a body's other fields.
BEFORE_FIELDS = 10
STANDARD_LIMITS = (10, 8192, 256)
STANDARD_USER_LIMIT = 819_200
HELLO, CALL, HANG_UP, TICK = 1, 2, 3, 4
CASTAGNOLI = 0x82F63B78

User = collections.namedtuple("User", "name key uid gid groups limit", defaults=([], None))
Retelling = collections.namedtuple("Retelling", "generation records old_records old_digest", defaults=(0, 0, 0, bytes(32)))
Head = collections.namedtuple("Head", "first limits users retelling")
Record = collections.namedtuple("Record", "rule kind fields")


class BadTrail(ValueError):
    """A file is at fault."""


def u8(number):
    return number.to_bytes(1, "big")


def u16(number):
    return number.to_bytes(2, "big")


def u32(number):
    return number.to_bytes(4, "big")


def u64(number):
    return number.to_bytes(8, "big")


# ---- sums


def remainder(byte):
    for _ in range(8):
        byte = byte >> 1 ^ (CASTAGNOLI if byte & 1 else 0)
    return byte


REMAINDERS = [remainder(byte) for byte in range(256)]


def crc32c(data):
    """RFC 3720, appendix B.4."""
    crc = 0xFFFFFFFF
    for byte in data:
        crc = crc >> 8 ^ REMAINDERS[(crc ^ byte) & 255]
    return crc ^ 0xFFFFFFFF


assert crc32c(b"123456789") == 0xE3069283


def summed(data):
    return data + u32(crc32c(data))


def unsummed(data, at, size):
    """The bytes of this size, which their sum follows. None if they aren't whole."""
    if len(data) < at + size + 4:
        return None
    text = data[at:at + size]
    if summed(text) != data[at:at + size + 4]:
        raise BadTrail(f"the sum at byte {at} is of other bytes")
    return text


# ---- users


def user_file(users):
    lines = (f"{user.name}:{user.key}:{user.uid}:{user.gid}:{','.join(map(str, user.groups))}:{user.limit or ''}\n" for user in users)
    return "".join(lines).encode()


def users_sum(users):
    spelled = b""
    for user in users:
        groups = b"".join(map(u32, user.groups))
        spelled += u32(user.uid) + u32(user.gid) + u64(user.limit or STANDARD_USER_LIMIT) + u64(len(user.groups)) + groups
    return crc32c(spelled)


# ---- heads


def head(first=0, limits=STANDARD_LIMITS, users=0, retelling=Retelling()):
    """A head; `users` is their sum."""
    fields = u64(first) + b"".join(map(u32, limits)) + u64(users)
    retold = u64(retelling.generation) + u64(retelling.records) + u64(retelling.old_records) + retelling.old_digest
    return summed(MAGIC + fields + retold)


def read_head(data):
    """The head in front of these bytes, which must have a whole one."""
    text = unsummed(data, 0, HEAD_LEN - 4)
    if text is None or text[:8] != MAGIC:
        raise BadTrail("no head")
    numbers = lambda size, *places: [int.from_bytes(text[at:at + size], "big") for at in places]
    first, users, generation, records, old_records = numbers(8, 8, 28, 36, 44, 52)
    return Head(first, tuple(numbers(4, 16, 20, 24)), users, Retelling(generation, records, old_records, text[60:92]))


# ---- records


def hello(uid):
    return u8(HELLO) + (u8(0) if uid is None else u8(1) + u32(uid))


def call(session, request):
    """A call by the frame of its request."""
    return u8(CALL) + u64(session) + request


def hang_up(session):
    return u8(HANG_UP) + u64(session)


def tick(moment):
    return u8(TICK) + u64(moment)


def entry(place, rule, event):
    body = u64(place) + u8(rule) + event
    return summed(u32(len(body))) + summed(body)


def entries(events, first=0):
    """Each event, with the rule that refused it or 0, from a place on."""
    return [entry(first + at, rule, event) for at, (rule, event) in enumerate(events)]


def records_in(data, first=0):
    """The records of a file whose head has this first place, and where the last whole one ends."""
    found = read_head(data).first
    if found != first:
        raise BadTrail(f"the head begins at {found}, and not at {first}")
    at, records = HEAD_LEN, []
    while True:
        size = unsummed(data, at, 4)
        body = size and unsummed(data, at + 8, int.from_bytes(size, "big"))
        if body is None:
            return records, at
        place = int.from_bytes(body[:8], "big")
        if place != first + len(records):
            raise BadTrail(f"the record at byte {at} is of place {place}, and not of {first + len(records)}")
        records.append(Record(body[8], body[9], body[BEFORE_FIELDS:]))
        at += AROUND + len(body)


def records_of(files):
    """The records of a trail's files, given by their bytes in order, and each file without what follows its last whole record."""
    records, whole = [], []
    for data in files:
        more, end = records_in(data, len(records))
        records += more
        whole.append(data[:end])
    return records, whole
