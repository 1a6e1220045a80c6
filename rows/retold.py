#!/usr/bin/env python3
"""Has random trails of the built server retold, and compares. A history of several users is cut anywhere; `mqserve compact` retells it, `mqserve
replay` finds the retelling legal and no record of it refused, a model in Python finds the same living in both, and so does `mqserve same`, which
tells a file that was changed or exchanged. Under other users the same lives too, or the retelling says why not. Then a server goes on with the old trail and another with the new one, and both answer random calls alike
but for numbers; their audits are left out. Some are retold again.

`retold.py [COUNT] [SEED]` retells so many histories, 20 where nothing is given. The last line has the counts; the status is 1 where something is
other than it must be."""

import argparse
import collections
import concurrent.futures
import contextlib
import hashlib
import os
import pathlib
import random
import shutil
import signal
import subprocess
import sys
import tempfile

sys.dont_write_bytecode = True
import calls  # noqa: E402
import living  # noqa: E402
import servers  # noqa: E402
import trail_files  # noqa: E402
from calls import BOTH, MQ, NONBLOCK, SEM  # noqa: E402
from histories import Call, Chooser, Description, Hello, Player  # noqa: E402
from servers import ONE_THREAD, RECEIVED, SECONDS, Wrong, is_same, serving  # noqa: E402
from trail_files import AROUND, BEFORE_FIELDS, HEAD_LEN, STANDARD_USER_LIMIT, User, summed, u32  # noqa: E402

ANN, BOB, CY = User("ann", "ka1", 1000, 1000, [50]), User("bob", "kb1", 1001, 1001, [50, 51]), User("cy", "kc1", 1002, 1002, [], 20_000)
ROOT = User("root", "r00t", 0, 0)
# With an administrator and without.
USERS = [[ROOT, ANN, BOB, CY], [ROOT, ANN, BOB, CY], [ANN, BOB, CY]]
# The options of a server, and the most bytes of its messages here.
LIMITS = [([], 64), ([], 8192), (["--queues-max", "3"], 64), (["--msg-max", "20", "--msgsize-max", "100000", "--queues-max", "6"], 70_000)]
SEGMENT = ["--trail-segment", "4096"]
FEWEST_STEPS, MOST_STEPS, STEPS_BEHIND = 20, 240, 80
MOST_GENERATIONS = 3

Counts = collections.namedtuple("Counts", "retold records retold_records messages of_others continued answers told carried not_carried", defaults=[0] * 10)


def added(counts, more):
    return Counts(*map(sum, zip(counts, more)))


class Trail:
    """A trail in a folder of its own, which random calls make and go on with."""

    def __init__(self, programs, room, dice):
        self.programs, self.room, self.dice = programs, pathlib.Path(room), dice
        self.users = dice.choice(USERS)
        self.limits, self.largest = dice.choice(LIMITS)
        self.user_file = self.room / "users"
        self.user_file.write_bytes(trail_files.user_file(self.users))
        self.counts = Counts()

    def folder(self, name):
        folder = self.room / name
        folder.mkdir()
        return folder

    def run(self, task, *paths):
        """The status, the lines and what standard error got."""
        command = self.programs.command("mqserve", [task, str(self.user_file), *map(str, paths)])
        ended = subprocess.run(command, stdin=subprocess.DEVNULL, stdout=subprocess.PIPE, stderr=subprocess.PIPE, timeout=SECONDS)
        return ended.returncode, ended.stdout.decode().splitlines(), ended.stderr.decode()

    @contextlib.contextmanager
    def served(self, folder, *words):
        """The player at a server whose trail is in the folder."""
        address = f"unix:{folder}/socket"
        with serving(self.programs, address, *ONE_THREAD, "--trail-file", f"{folder}/trail", *self.limits, *words, users=self.user_file) as server:
            player = Player(address)
            try:
                yield player
            finally:
                player.close()
                server.send_signal(signal.SIGKILL)
                server.wait()

    def live_on(self, folder):
        """Random calls; then the server is killed."""
        with self.served(folder, *self.dice.choice(([], [], SEGMENT))) as player:
            chooser = Chooser(self.dice, player, self.users, self.largest)
            for _ in range(self.dice.randint(FEWEST_STEPS, MOST_STEPS)):
                player.made(chooser.step())


def files_in(folder):
    """The trail's files, in their order."""
    first = folder / "trail"
    return [first, *sorted(folder.glob("trail.*"), key=lambda path: int(path.suffix[1:]))]


def bytes_of(paths):
    return [path.read_bytes() for path in paths]


def end_of_retold(data):
    """The byte at which the retold records of a first file end."""
    count = trail_files.read_head(data).retelling.records
    records = trail_files.records_in(data)[0][:count]
    return HEAD_LEN + sum(AROUND + BEFORE_FIELDS + len(record.fields) for record in records)


def cut(dice, folder):
    """Cuts the trail anywhere behind what is retold in it, within a record or between two, or leaves it whole."""
    paths = files_in(folder)
    last = dice.randrange(len(paths))
    for path in paths[last + 1:]:
        path.unlink()
    data = paths[last].read_bytes()
    first = end_of_retold(data) if last == 0 else HEAD_LEN
    if dice.random() < 0.8:
        paths[last].write_bytes(data[:dice.randint(first, len(data))])


# ---- one retelling


def is_retold(trail, old, new):
    """The retelling of these files has all that it must have, and nothing else changes."""
    before = bytes_of(old)
    records, whole = trail_files.records_of(before)
    status, lines, err = trail.run("compact", new, *old)
    is_same("faults and status of the retelling", (err, status), ("", 0))
    retelling = trail_files.read_head(new.read_bytes()).retelling
    torn = [f"torn {len(records)}"] * (before != whole)
    is_same("lines of the retelling", lines, [f"records {len(records)}", *torn, f"retold {retelling.records}", "same"])
    is_same("the old files", bytes_of(old) == before, True)
    is_same("mode", new.stat().st_mode & 0o777, 0o600)
    has_its_head(before, records, whole, new.read_bytes())
    is_legal(trail, new, retelling.records)
    model = lives_alike(trail, before, new.read_bytes())
    is_same("what is told of both", trail.run("same", new, *old), (0, lines, ""))
    messages = [message for thing in model.names[MQ].values() for message in thing.messages]
    by_others = sum(message[2] != thing.creator for thing in model.names[MQ].values() for message in thing.messages)
    trail.counts = added(trail.counts, Counts(1, len(records), retelling.records, len(messages), by_others))
    return model


def has_its_head(before, records, whole, new):
    """The head tells which files are retold; users and limits are theirs."""
    old = trail_files.read_head(before[0])
    told, end = trail_files.records_in(new)
    digest = hashlib.sha256(b"".join(whole)).digest()
    wanted = trail_files.Retelling(old.retelling.generation + 1, len(told), len(records), digest)
    is_same("head", trail_files.read_head(new), old._replace(retelling=wanted))
    is_same("whether the retelling is whole", end, len(new))


def is_legal(trail, new, count):
    """A replay finds each record accepted, as the policy has it."""
    status, lines, err = trail.run("replay", new)
    is_same("faults and status of the replay", (err, status), ("", 0))
    is_same("how the replay begins and ends", (lines[:2], lines[-1]), ([f"records {count}", *[f"retold {count}"] * (count > 0), lines[1]][:2], "legal"))
    is_same("refusals in the replay", [line for line in lines if line.startswith("refused ")], ["refused hellos 0"])
    is_same("how many are accepted", f"accepted {count}" in lines, True)


def lives_alike(trail, old, new):
    """By a model the same lives in both, and nobody in the new one."""
    old, new = living.model_of(trail.users, old), living.model_of(trail.users, [new])
    is_same("who is live", new.live, set())
    for what, wanted in old.living().items():
        is_same(what, new.living()[what], wanted)
    return old


# ---- under other users


def other_users(dice, users):
    """Users more, fewer or changed."""
    some = [user for user in users if user is ROOT or dice.random() < 0.85] or users[:1]
    changed = [user._replace(gid=dice.choice([user.gid, 77]), limit=dice.choice([user.limit, 900_000])) for user in some]
    return changed + [User("dan", "kd1", 1003, 1003, [50])] * (dice.random() < 0.5)


def is_missed(model, users):
    """Whether a creator, or the sender of a message, is none of the users."""
    uids = {user.uid for user in users}
    things = [thing for bound in model.names.values() for thing in bound.values()]
    return any(thing.creator not in uids or any(message[2] not in uids for message in thing.messages) for thing in things)


def limits_carried(model, before, after):
    """A limit that was set stays, and any other is that of the new file."""
    of_file = lambda users: {user.uid: user.limit or STANDARD_USER_LIMIT for user in users}
    was_set = {uid: limit for uid, limit in model.limits.items() if limit != of_file(before).get(uid)}
    return {uid: was_set.get(uid, limit) for uid, limit in of_file(after).items()}


def is_carried(trail, old, model):
    """Under other users the same lives by the model, and limits that were set; or nothing is written, for a user that is missing, or since there is
    no administrator to give what it alone may give."""
    users = other_users(trail.dice, trail.users)
    path, new = trail.room / "others", trail.room / "carried"
    path.write_bytes(trail_files.user_file(users))
    status, lines, err = trail.run("compact", new, *old, "--to", path)
    has_root = any(user.uid == 0 for user in users)
    if is_missed(model, users) or (status == 7 and not has_root):
        is_same("status, lines and fault", (status, lines, err.startswith("mqserve: retelling: ")), (7, [], True))
        is_same("whether there is a new file", new.exists(), False)
        trail.counts = added(trail.counts, Counts(not_carried=1))
        return
    is_same("faults and status", (err, status, lines[-1:]), ("", 0, ["same"]))
    is_same("what is told of both", trail.run("same", new, *old, "--to", path), (0, lines, ""))
    found = living.model_of(users, [new.read_bytes()]).living()
    wanted = {**model.living(), "limits": limits_carried(model, trail.users, users)}
    for what, value in wanted.items():
        is_same(f"{what} under other users", found[what], value)
    new.unlink()
    trail.counts = added(trail.counts, Counts(carried=1))


# ---- what isn't retold


def with_byte_changed(dice, data):
    at = dice.randrange(len(data))
    return data[:at] + bytes([data[at] ^ 1 << dice.randrange(8)]) + data[at + 1:]


def with_field_changed(dice, data):
    """A byte of a record's event is changed, and its sum with it. None if there is no record."""
    records, end = trail_files.records_in(data)
    if not records:
        return None
    at = dice.randrange(len(records))
    start = HEAD_LEN + sum(AROUND + BEFORE_FIELDS + len(record.fields) for record in records[:at])
    size = BEFORE_FIELDS + len(records[at].fields)
    body = bytearray(data[start + 8:start + 8 + size])
    body[dice.randrange(8, size)] ^= 1 << dice.randrange(8)
    return data[:start] + summed(u32(size)) + summed(bytes(body)) + data[start + AROUND + size:]


def is_told(trail, old, new):
    """`same` tells what is no retelling of these files."""
    dice, whole = trail.dice, new.read_bytes()
    changed = trail.room / "changed"
    of_others = (7, [], "mqserve: retelling: of other files\n")
    is_same("the files the other way round", trail.run("same", old[0], new), of_others)
    changed.write_bytes(with_byte_changed(dice, whole))
    status, lines, err = trail.run("same", changed, *old)
    is_same("status of a changed byte, and lines", (status, lines, err.startswith("mqserve: trail ")), (6, [], True))
    changed.write_bytes(trail_files.head(users=trail_files.users_sum(trail.users), limits=trail_files.read_head(whole).limits))
    is_same("another trail", trail.run("same", new, changed)[0] if old_has_records(old) else 7, 7)
    other = with_field_changed(dice, old[-1].read_bytes()) if len(old) == 1 else None
    if other:
        changed.write_bytes(other)
        is_same("whether a changed old file is taken", trail.run("same", new, changed)[0] in (3, 6, 7), True)
    other = with_field_changed(dice, whole)
    if other:
        changed.write_bytes(other)
        says = trail.run("same", changed, *old)[0]
        is_same("status of a changed field", says in (0, 6, 7), True)
        if says == 0:
            lives_alike(trail, bytes_of(old), other)
    changed.unlink()
    trail.counts = added(trail.counts, Counts(told=4))


def old_has_records(old):
    return bool(trail_files.records_of(bytes_of(old))[0])


# ---- how both go on


def copied(trail, name, paths):
    """A folder with copies of these files, as those of a trail."""
    folder = trail.folder(name)
    for path in paths:
        shutil.copy(path, folder / ("trail" + path.suffix * path.name.startswith("trail.")))
    return folder


@contextlib.contextmanager
def both_served(trail, old, new):
    """Players at a server that goes on with the old trail, and at one with the new."""
    folders = copied(trail, "old", old), copied(trail, "new", [new])
    try:
        with trail.served(folders[0]) as one, trail.served(folders[1]) as other:
            yield one, other
    finally:
        for folder in folders:
            shutil.rmtree(folder)


def answered(players, step):
    """What both answer to the step, which must be the same."""
    one, other = [player.made(step) for player in players]
    if one != other:
        raise Wrong(f"{step}: the old trail's server answers {one}, the new one's {other}")
    return one


def go_on_alike(trail, old, new, model):
    """Random calls are answered alike."""
    with both_served(trail, old, new) as players:
        chooser = Chooser(trail.dice, players[0], trail.users, trail.largest, by_answers=True)
        chooser.time = model.time
        count = 0
        for _ in range(STEPS_BEHIND):
            count += sum(len(answers) for _, answers in answered(players, chooser.step()))
    trail.counts = added(trail.counts, Counts(continued=1, answers=count))


def are_as_modelled(trail, old, new, model):
    """What user 0 sees and takes out of everything is what the model has, at both."""
    if ROOT not in trail.users:
        return
    with both_served(trail, old, new) as players:
        answered(players, Hello(ROOT.key))
        ask = lambda request: answered(players, Call(0, request))[0][1]
        for family in (MQ, SEM):
            has_names(ask, family, model)
        for name, queue in model.names[MQ].items():
            has_messages(ask, name, queue, players[0])
        for name, semaphore in model.names[SEM].items():
            ask(calls.sem_open(name, 0))
            desc = Description(len(players[0].descriptions) - 1)
            is_same("value", ask(calls.sem_call(calls.SEM_GETVALUE, desc)), [(72, u32(semaphore.value))])


def has_names(ask, family, model):
    """Names in order of creation; owners, groups and modes, also the directory's."""
    names = model.names[family]
    page = len(names).to_bytes(2, "big") + b"".join(map(calls.text, names))
    is_same("names", ask(calls.list_names(family, 0, 1000)), [(73, page)])
    stated = lambda facts: [(74, u32(facts[0]) + u32(facts[1]) + facts[2].to_bytes(2, "big"))]
    is_same("directory", ask(calls.stat_name(family)), stated(model.directories[family]))
    for name, thing in names.items():
        is_same("facts", ask(calls.stat_name(family, name)), stated(thing.facts))


def has_messages(ask, name, queue, player):
    """Attributes, and each message in the order in which it is received."""
    ask(calls.mq_open(name, BOTH, NONBLOCK))
    desc = Description(len(player.descriptions) - 1)
    attributes = b"\1" + b"".join(map(u32, (*queue.attributes, len(queue.messages))))
    is_same("attributes", ask(calls.mq_getattr(desc)), [(69, attributes)])
    for priority, data, _ in sorted(queue.messages, key=lambda message: -message[0]):
        is_same("message", ask(calls.mq_receive(desc, 2**24)), [(RECEIVED, u32(priority) + data)])
    ask(calls.mq_receive(desc, 2**24))
    ask(calls.close(MQ, desc))


# ---- one history


def history(programs, room, seed, continuations):
    """A random history, which is retold once or more often."""
    dice = random.Random(seed)
    trail = Trail(programs, room, dice)
    folder, new = trail.folder("life"), trail.room / "retold"
    for _ in range(dice.randint(1, MOST_GENERATIONS)):
        trail.live_on(folder)
        cut(dice, folder)
        old = files_in(folder)
        model = is_retold(trail, old, new)
        is_told(trail, old, new)
        is_carried(trail, old, model)
        are_as_modelled(trail, old, new, model)
        for _ in range(continuations):
            go_on_alike(trail, old, new, model)
        for path in old:
            path.unlink()
        new.rename(folder / "trail")
    return trail.counts


def judged(programs, seed, continuations, keep):
    """What the history counts up to, and what is other than it must be, or nothing."""
    with tempfile.TemporaryDirectory(prefix="retold-") as room:
        try:
            return history(programs, room, seed, continuations), ""
        except (Wrong, OSError, ValueError, LookupError, subprocess.TimeoutExpired) as fault:
            if keep:
                shutil.copytree(room, keep / str(seed), ignore=shutil.ignore_patterns("socket*"))
            return Counts(), f"seed {seed}: {type(fault).__name__}: {str(fault)[:2000]}"


def main():
    parser = argparse.ArgumentParser(description=__doc__, formatter_class=argparse.RawDescriptionHelpFormatter)
    parser.add_argument("count", nargs="?", type=int, default=20, help="histories, 20 where nothing is given")
    parser.add_argument("seed", nargs="?", type=int, default=1, help="of the first history; each next has the next seed")
    parser.add_argument("--continuations", type=int, default=1, help="how often each retelling and its old trail are gone on with")
    parser.add_argument("--jobs", type=int, default=len(os.sched_getaffinity(0)), help="how many histories at a time")
    parser.add_argument("--keep", type=pathlib.Path, help="a folder for the files of those that fail: times differ in each run")
    parser.add_argument("--programs", type=pathlib.Path, help="where mqserve is")
    given = parser.parse_args()
    programs = servers.Programs(given.programs and given.programs.resolve(), [])
    counts, failed = Counts(), 0
    with concurrent.futures.ProcessPoolExecutor(given.jobs) as pool:
        seeds = range(given.seed, given.seed + given.count)
        for more, fault in pool.map(judged, *zip(*((programs, seed, given.continuations, given.keep) for seed in seeds))):
            counts, failed = added(counts, more), failed + bool(fault)
            if fault:
                print(fault, flush=True)
    print(f"{given.count} histories, {counts.retold} retellings of {counts.records} records in {counts.retold_records}, {counts.messages} messages "
          f"({counts.of_others} of others than the creator); {counts.continued} times both went on, {counts.answers} answers compared; "
          f"{counts.carried} also under other users, {counts.not_carried} times these forbid it; {failed} differ")
    return 1 if failed or not counts.answers else 0


if __name__ == "__main__":
    sys.exit(main())
