#!/usr/bin/env python3
"""Writes the files of trails that rows/mqserve has, by what docs/ref/trail-format.md says of the format. Nothing of the crates is used. `--check`
writes nothing, and names what differs."""

import argparse
import hashlib
import pathlib
import sys

sys.dont_write_bytecode = True
import trail_files  # noqa: E402
from calls import (CREATE, EXCLUSIVE, MQ, NONBLOCK, SEM, SEM_WAIT, WRITE, audit, chmod, chown, close, interrupt, mq_open, mq_receive,  # noqa: E402
                   mq_send, mq_timed_receive, sem_call, sem_open, set_limit, spelled, umask, unlink)
from trail_files import (HEAD_LEN, MAGIC, Retelling, User, call, entries, entry, hang_up, hello, summed, tick, u8, u32, u64,  # noqa: E402
                         user_file, users_sum)

TOP = pathlib.Path(__file__).resolve().parent.parent
ROWS = TOP / "rows/mqserve"

USERS = [User("root", "r00t", 0, 0), User("ann", "ka1", 1000, 1000), User("bob", "kb1", 1001, 1001)]

# User files: with other names and keys the sum is the same.
USER_FILES = {
    "users": USERS,
    "renamed.users": [USERS[0], USERS[1]._replace(name="anna", key="other"), USERS[2]],
    "group.users": [USERS[0], USERS[1]._replace(groups=[50]), USERS[2]],
    "id.users": [USERS[0], USERS[1]._replace(uid=1002), USERS[2]],
    "limit.users": [USERS[0], USERS[1]._replace(limit=5000), USERS[2]],
    "fewer.users": USERS[:2],
}


def asks(session, request):
    """The call of a session by its request."""
    return call(session, spelled(request))


# Sessions that send, wait, are refused and end: the rule of each, or 0, and the event.
LIFE = [
    (0, hello(1000)),
    (0, hello(1001)),
    (31, hello(None)),
    (0, asks(0, mq_open(b"/q"))),
    (15, asks(1, mq_open(b"/q"))),
    (0, asks(0, mq_send(0, 1, b"one"))),
    (8, asks(1, mq_send(0, 1, b"two"))),
    (0, asks(0, mq_receive(0))),
    (0, asks(0, mq_timed_receive(0, 8192, 50))),
    (0, tick(40)),
    (0, tick(51)),
    (0, asks(0, mq_receive(0))),
    (0, asks(0, interrupt())),
    (4, asks(1, mq_open(b"no name"))),
    (17, asks(1, unlink(MQ, b"/q"))),
    (0, asks(0, unlink(MQ, b"/q"))),
    (0, hang_up(0)),
    (1, asks(0, mq_send(0, 1, b"late"))),
]

# A message that is too long for the queue, and for what is read at once, between others.
LONG = [
    (0, hello(1000)),
    (0, asks(0, mq_open(b"/q"))),
    (26, asks(0, mq_send(0, 1, b"a" * 20_000))),
    (0, asks(0, mq_send(0, 1, b"short"))),
]

# Audits: one that is refused, and pages of 2 records, of 1, of all, and of none.
AUDITS = [
    (0, hello(1000)),
    (0, hello(0)),
    (6, asks(0, audit(0, 10))),
    (0, asks(1, audit(0, 2))),
    (0, asks(1, audit(3, 1000))),
    (0, asks(1, audit(0, 65_535))),
    (0, asks(1, audit(9, 5))),
]

# Of all that a retelling keeps something is left: a queue with messages of two users, who wasn't let in by its mode at the end; a semaphore that
# changed hands; a limit, a directory and the time. And something is gone: a queue without a name, and who waits.
KEPT = [
    (0, hello(1000)),
    (0, hello(1001)),
    (0, hello(0)),
    (0, asks(0, mq_open(b"/gone"))),
    (0, asks(0, mq_open(b"/jobs", mode=0o666, attributes=(5, 100)))),
    (0, asks(0, mq_send(1, 3, b"low"))),
    (15, asks(1, mq_open(b"/jobs"))),
    (0, asks(0, chmod(0o622, MQ, b"/jobs"))),
    (0, asks(1, mq_open(b"/jobs", WRITE, 0))),
    (0, asks(1, mq_send(2, 7, b"high"))),
    (0, asks(1, mq_send(2, 3, b"next"))),
    (0, asks(0, chmod(0o640, MQ, b"/jobs"))),
    (0, asks(0, sem_open(b"/lock", value=3))),
    (0, asks(0, sem_call(SEM_WAIT, 3))),
    (0, asks(0, unlink(MQ, b"/gone"))),
    (0, asks(2, chown(1001, 50, SEM, b"/lock"))),
    (0, asks(2, chmod(0o1773, MQ))),
    (0, asks(2, set_limit(1000, 90_000))),
    (0, asks(0, mq_timed_receive(0, 8192, 50))),
    (0, tick(51)),
    (0, asks(0, mq_receive(0))),
]

# What lives at the end of that, told as a short history. By a person: a server's may have another order.
RETOLD = [
    (0, hello(1000)),
    (0, asks(0, umask(0))),
    (0, asks(0, mq_open(b"/jobs", WRITE, CREATE | EXCLUSIVE, 0o622, (5, 100)))),
    (0, hello(1001)),
    (0, asks(1, umask(0))),
    (0, asks(1, mq_open(b"/jobs", WRITE, NONBLOCK, 0))),
    (0, asks(1, mq_send(1, 7, b"high"))),
    (0, asks(0, mq_send(0, 3, b"low"))),
    (0, asks(1, mq_send(1, 3, b"next"))),
    (0, asks(0, close(MQ, 0))),
    (0, asks(0, chmod(0o640, MQ, b"/jobs"))),
    (0, asks(0, sem_open(b"/lock", CREATE | EXCLUSIVE, 0o600, 2))),
    (0, hello(0)),
    (0, asks(2, chown(1001, 50, SEM, b"/lock"))),
    (0, asks(2, chmod(0o1773, MQ))),
    (0, asks(2, set_limit(1000, 90_000))),
    (0, tick(51)),
    *[(0, hang_up(session)) for session in range(3)],
]

# What a server recorded after the retold records.
SERVED = [(0, hello(1001)), (15, asks(3, mq_open(b"/jobs"))), (0, hang_up(3))]

SECOND = 7


def head(first=0, limits=trail_files.STANDARD_LIMITS, users=None, retelling=Retelling()):
    """A head by these users, if no other sum is given."""
    return trail_files.head(first, limits, users_sum(USERS) if users is None else users, retelling)


def trail(events, **how):
    """A file with these events from the first place on."""
    return head(**how) + b"".join(entries(events))


def forged(place):
    """The life with another verdict at a place: an acceptance, or where the event was accepted a rule that forbids other events."""
    rule, event = LIFE[place]
    return [*LIFE[:place], (31 if rule == 0 else 0, event), *LIFE[place + 1 :]]


def with_entry(place, changed):
    """The life with other bytes in the place of a record."""
    parts = entries(LIFE)
    return head() + b"".join(parts[:place] + [changed] + parts[place + 1 :])


def trails():
    """The files by their names."""
    parts = entries(LIFE)
    whole, second = trail(LIFE), b"".join(parts[SECOND:])
    body = u64(5) + u8(0) + asks(0, mq_send(0, 1, b"one"))
    return {
        "life": whole,
        "long": trail(LONG),
        "audits": trail(AUDITS),
        "audits_forged": trail([*AUDITS[:3], (6, AUDITS[3][1]), *AUDITS[4:]]),
        "empty": head(),
        "torn": whole[:-5],
        "first": head() + b"".join(parts[:SECOND]),
        "first_torn": head() + b"".join(parts[:SECOND]) + parts[SECOND][:9],
        "second": head(SECOND) + second,
        "second_forged": head(SECOND) + b"".join(entries(forged(9)[SECOND:], SECOND)),
        "later": head(SECOND + 1) + second,
        "other_limits": head(SECOND, (10, 8192, 257)) + second,
        "other_users": head(SECOND, users=users_sum(USERS) ^ 1) + second,
        "other_retelling": head(SECOND, retelling=Retelling(1, 5, 9)) + second,
        "no_limit": head(limits=(0, 8192, 256)),
        "no_head": whole[: HEAD_LEN - 1],
        "earlier_version": MAGIC[:-1] + b"1" + whole[8:],
        "later_version": MAGIC[:-1] + b"3" + whole[8:],
        "forged_refusal": trail(forged(5)),
        "forged_acceptance": trail(forged(14)),
        "missing": head() + b"".join(parts[:5] + parts[6:]),
        "twice": head() + b"".join(parts[:6] + parts[5:]),
        "too_long": with_entry(5, summed(u32(16_777_323))),
        "byte_behind": with_entry(5, summed(u32(len(body) + 1)) + summed(body + b"\0")),
        "unknown_rule": with_entry(5, entry(5, 34, LIFE[5][1])),
        **retold_trails(),
    }


def retelling_of(old, records, generation=1):
    """What the head says of a retelling of this file, whose records are whole, in so many records."""
    return Retelling(generation, records, len(trail_files.records_in(old)[0]), hashlib.sha256(old).digest())


def retold_trails():
    """The files of a trail that is retold: the old one, the new one, and such as are almost that."""
    old = trail(KEPT)
    retelling = retelling_of(old, len(RETOLD))
    parts = entries([*RETOLD, *SERVED])
    others = {
        "differs": [*RETOLD[:8], (0, asks(1, mq_send(1, 3, b"text"))), *RETOLD[9:]],
        "somebody_lives": [*RETOLD[:-1], (0, asks(2, umask(0)))],
    }
    return {
        "kept": old,
        "kept_torn": old + entry(len(KEPT), 0, hang_up(0))[:-3],
        "retold": head(retelling=retelling) + b"".join(parts),
        "retold_alone": trail(RETOLD, retelling=retelling),
        "retold_first": head(retelling=retelling) + b"".join(parts[: len(RETOLD)]),
        "retold_second": head(len(RETOLD), retelling=retelling) + b"".join(parts[len(RETOLD) :]),
        "retold_otherwise": head(len(RETOLD), retelling=retelling._replace(generation=2)) + b"".join(parts[len(RETOLD) :]),
        "retold_cut": head(retelling=retelling) + b"".join(parts[:8]),
        "retold_torn": head(retelling=retelling) + b"".join(parts)[:-3],
        "unfinished": trail(RETOLD, retelling=retelling._replace(records=2**64 - 1)),
        "of_no_file": trail(RETOLD, retelling=retelling._replace(old_digest=bytes(32))),
        "of_fewer_records": trail(RETOLD, retelling=retelling._replace(old_records=len(KEPT) - 1)),
        "retold_by_others": trail(RETOLD, users=users_sum(USERS) ^ 1, retelling=retelling),
        "retold_forged": trail([*RETOLD[:8], (29, RETOLD[8][1]), *RETOLD[9:]], retelling=retelling),
        **{name: trail(events, retelling=retelling) for name, events in others.items()},
    }


def files():
    """Each file that is made, by its path."""
    made = trails()
    names = ["life", "audits", "audits_forged", "torn", "first", "first_torn", "second", "second_forged", "other_users", "forged_refusal",
             "no_head", "missing", "earlier_version", "retold", "retold_first", "retold_second", "retold_otherwise", "retold_cut"]
    found = {ROWS / f"{name}.trail": made[name] for name in names}
    found[ROWS / "three.users"] = user_file(USERS)
    return found


def main():
    parser = argparse.ArgumentParser(description=__doc__)
    parser.add_argument("--check", action="store_true", help="write nothing, and name what differs")
    check = parser.parse_args().check
    found = files()
    differs = [path for path, content in found.items() if not path.is_file() or path.read_bytes() != content]
    for path in differs:
        if check:
            print(f"{path.relative_to(TOP)} is not what rows/trails.py writes")
        else:
            path.write_bytes(found[path])
    return 1 if check and differs else 0


if __name__ == "__main__":
    sys.exit(main())
