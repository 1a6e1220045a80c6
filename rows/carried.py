#!/usr/bin/env python3
"""Has trails of the built server retold under other users and limits, and looks at what lives then: each case in which the new configuration lets all
live on, and each in which a rule or a user who is missing forbids it. Prints a line for each case and a last line with the counts; the status is 1
where one is not as it must be.

`--programs FOLDER` takes `mqserve` from there, and `--calls COMMAND` puts words in front of each."""

import contextlib
import pathlib
import subprocess
import sys
import tempfile

sys.dont_write_bytecode = True
import calls  # noqa: E402
import living  # noqa: E402
import trail_files  # noqa: E402
from calls import BOTH, CREATE, MQ, NONBLOCK, SEM, WRITE  # noqa: E402
from histories import Call, Description, Hello, Player  # noqa: E402
from servers import ONE_THREAD, OPENED, SECONDS, Wrong, is_same, programs_given, serving  # noqa: E402
from trail_files import User  # noqa: E402

ROOT = User("root", "r00t", 0, 0)
ANN, BOB, CY = User("ann", "ka1", 1000, 1000, [50]), User("bob", "kb1", 1001, 1001, [50]), User("cy", "kc1", 1002, 1002)
RETOLD = "mqserve: retelling: "


class Place:
    """A trail, and what retells it."""

    def __init__(self, programs, room):
        self.programs, self.room = programs, pathlib.Path(room)
        self.old, self.new = self.room / "trail", self.room / "new"

    def user_file(self, name, users):
        path = self.room / name
        path.write_bytes(trail_files.user_file(users))
        return path

    @contextlib.contextmanager
    def served(self, users, trail, *words):
        """A player at a server of these users whose trail is in the file."""
        path = self.user_file("served", users)
        address = f"unix:{self.room}/socket"
        with serving(self.programs, address, *ONE_THREAD, "--trail-file", str(trail), *words, users=path):
            player = Player(address)
            try:
                yield player
            finally:
                player.close()

    def run(self, task, *words):
        command = self.programs.command("mqserve", [task, *map(str, words)])
        ended = subprocess.run(command, stdin=subprocess.DEVNULL, stdout=subprocess.PIPE, stderr=subprocess.PIPE, timeout=SECONDS)
        return ended.returncode, ended.stdout.decode().splitlines(), ended.stderr.decode()

    def lived(self, users, steps, *words):
        """A trail of these users in which these steps happened."""
        with self.served(users, self.old, *words) as player:
            for step in steps:
                player.made(step)

    def carried(self, before, after, *words):
        """What the retelling under the users after says."""
        paths = self.user_file("before", before), self.new, self.old, "--to", self.user_file("after", after)
        return self.run("compact", *paths, *words)

    def is_refused(self, before, after, text, *words):
        """Nothing is retold, for this reason, and the old trail is as it was."""
        bytes_before = self.old.read_bytes()
        is_same("what is said", self.carried(before, after, *words), (7, [], f"{RETOLD}{text}\n"))
        is_same("whether there is a new file", self.new.exists(), False)
        is_same("whether the old one is as it was", self.old.read_bytes() == bytes_before, True)

    def lives_on(self, before, after, *words):
        """All lives on, and a server of the users after goes on. The models before and after."""
        status, lines, err = self.carried(before, after, *words)
        is_same("faults and status", (err, status, lines[-1:]), ("", 0, ["same"]))
        users = self.room / "before", self.room / "after"
        is_same("what is told of both", self.run("same", users[0], self.new, self.old, "--to", users[1], *words), (0, lines, ""))
        is_same("how a replay ends", self.run("replay", users[1], self.new)[1][-1:], ["legal"])
        old, new = living.model_of(before, [self.old.read_bytes()]), living.model_of(after, [self.new.read_bytes()])
        for what, wanted in old.living().items():
            if what != "limits":
                is_same(what, new.living()[what], wanted)
        return old, new


def by(*users):
    """The users say hello, and take their masks off."""
    return [step for who, user in enumerate(users) for step in (Hello(user.key), Call(who, calls.umask(0)))]


def sends(who, index, *messages):
    return [Call(who, calls.mq_send(Description(index), priority, data)) for priority, data in messages]


def opens(who, name, mode=0o600, attributes=(10, 64)):
    return Call(who, calls.mq_open(name, BOTH, CREATE | NONBLOCK, mode, attributes))


# ---- what lives on


def user_more(place):
    """A user more: all lives on, and the new one is served."""
    before, after = [ROOT, ANN], [ROOT, ANN, BOB]
    place.lived(before, [*by(ANN), opens(0, b"/jobs", 0o666), *sends(0, 0, (1, b"a"), (3, b"b"))])
    place.lives_on(before, after)
    with place.served(after, place.new) as player:
        player.made(Hello(BOB.key))
        is_same("answer to the new user", player.made(Call(0, calls.mq_open(b"/jobs", WRITE, NONBLOCK)))[0][1][0][0], OPENED)


def higher_limits(place):
    """Higher limits: what lives is the same, and more may come."""
    users = [ROOT, ANN]
    place.lived(users, [*by(ANN), opens(0, b"/jobs")])
    place.lives_on(users, users, "--msg-max", "100", "--msgsize-max", "100000", "--queues-max", "1000")
    is_same("limits", trail_files.read_head(place.new.read_bytes()).limits, (100, 100_000, 1000))


def unknown_owner(place):
    """An owner and a group that no user of the new file has are kept: user 0 may give anything away to them."""
    before, after = [ROOT, ANN, BOB], [ROOT, ANN]
    place.lived(before, [*by(ROOT, ANN), opens(1, b"/jobs"), Call(0, calls.chown(1001, 1001, MQ, b"/jobs"))])
    place.lives_on(before, after)


def above_its_limit(place):
    """Queues above the new limit of their creator stay."""
    before, after = [ROOT, ANN], [ROOT, ANN._replace(limit=100)]
    place.lived(before, [*by(ANN), opens(0, b"/jobs")])
    _, new = place.lives_on(before, after)
    is_same("limit", new.living()["limits"].get(1000), 100)


def limits_taken_along(place):
    """A limit that was set stays, and any other is the new file's."""
    before = [ROOT, ANN._replace(limit=50_000), BOB._replace(limit=50_000)]
    after = [ROOT, ANN._replace(limit=70_000), BOB._replace(limit=70_000)]
    place.lived(before, [*by(ROOT), Call(0, calls.set_limit(1000, 60_000))])
    _, new = place.lives_on(before, after)
    limits = new.living()["limits"]
    is_same("limits", (limits.get(1000), limits.get(1001)), (60_000, 70_000))


def other_groups(place):
    """A creator's groups are asked for by chown alone."""
    before, after = [ROOT, ANN], [ROOT, ANN._replace(gid=77, groups=[])]
    place.lived(before, [*by(ANN), opens(0, b"/jobs"), Call(0, calls.sem_open(b"/free", CREATE, 0o640, 3))])
    place.lives_on(before, after)


# ---- what doesn't


def creator_left(place):
    before, after = [ROOT, ANN, BOB], [ROOT, BOB]
    place.lived(before, [*by(ANN), opens(0, b"/jobs")])
    place.is_refused(before, after, "queue /jobs of 1000: refused 7 EINVAL NoUser")


def creator_of_a_semaphore_left(place):
    before, after = [ROOT, ANN, BOB], [ROOT, BOB]
    place.lived(before, [*by(ANN), Call(0, calls.sem_open(b"/free", CREATE, 0o600, 3))])
    place.is_refused(before, after, "semaphore /free of 1000: no such user")


def sender_left(place):
    before, after = [ROOT, ANN, BOB], [ROOT, ANN]
    steps = [*by(ANN, BOB), opens(0, b"/jobs", 0o666), Call(1, calls.mq_open(b"/jobs", WRITE, NONBLOCK)), *sends(1, 1, (0, b"from bob"))]
    place.lived(before, steps)
    place.is_refused(before, after, "messages of 1001 in /jobs: no such user")


def attributes_above(place):
    users = [ROOT, ANN]
    place.lived(users, [*by(ANN), opens(0, b"/jobs", attributes=(10, 64))])
    place.is_refused(users, users, "queue /jobs of 1000: refused 20 EINVAL AttrRange", "--msg-max", "9")


def too_many_queues(place):
    users = [ROOT, ANN]
    place.lived(users, [*by(ANN), opens(0, b"/one"), opens(0, b"/two"), opens(0, b"/three")])
    place.is_refused(users, users, "queue /three of 1000: refused 22 ENOSPC QueueCount", "--queues-max", "2")


def above_its_limit_without_user_0(place):
    before, after = [ANN], [ANN._replace(limit=100)]
    place.lived(before, [*by(ANN), opens(0, b"/jobs")])
    place.is_refused(before, after, "queue /jobs of 1000: refused 23 EMFILE ByteLimit")


def owner_without_user_0(place):
    before, after = [ROOT, ANN, BOB], [ANN, BOB]
    place.lived(before, [*by(ROOT, ANN), opens(1, b"/jobs"), Call(0, calls.chown(1001, 1001, MQ, b"/jobs"))])
    place.is_refused(before, after, "queue /jobs of 1000: refused 19 EPERM ChownDenied")


def directory_without_user_0(place):
    before, after = [ROOT, ANN], [ANN]
    place.lived(before, [*by(ROOT), Call(0, calls.chmod(0o755, SEM))])
    place.is_refused(before, after, "directory of semaphores: refused 18 EPERM NotOwner")


def limit_without_user_0(place):
    before, after = [ROOT, ANN], [ANN]
    place.lived(before, [*by(ROOT), Call(0, calls.set_limit(1000, 60_000))])
    place.is_refused(before, after, "limit of 1000: refused 6 EPERM NotAdmin")


def limit_out_of_range(place):
    users = [ROOT, ANN]
    place.lived(users, [*by(ANN), opens(0, b"/jobs")])
    status, lines, err = place.carried(users, users, "--msg-max", "0")
    is_same("status, lines and whether there is a new file", (status, lines, place.new.exists()), (3, [], False))
    is_same("what is said", err.startswith("mqserve: config"), True)


def other_configuration_is_told(place):
    """`same` without the new users, or of other limits than the file's, doesn't say yes."""
    before, after = [ROOT, ANN], [ROOT, ANN, BOB]
    place.lived(before, [*by(ANN), opens(0, b"/jobs")])
    place.lives_on(before, after)
    old_users, new_users = place.room / "before", place.room / "after"
    is_same("of the old users", place.run("same", old_users, place.new, place.old)[0], 3)
    is_same("of other limits", place.run("same", old_users, place.new, place.old, "--to", new_users, "--msg-max", "11")[0], 3)


CASES = [user_more, higher_limits, unknown_owner, above_its_limit, limits_taken_along, other_groups, creator_left, creator_of_a_semaphore_left,
         sender_left, attributes_above, too_many_queues, above_its_limit_without_user_0, owner_without_user_0, directory_without_user_0,
         limit_without_user_0, limit_out_of_range, other_configuration_is_told]


def judged(programs, case):
    """Returns what is other than it must be, or nothing."""
    with tempfile.TemporaryDirectory() as room:
        try:
            case(Place(programs, room))
        except (Wrong, OSError, subprocess.TimeoutExpired) as fault:
            return f"{type(fault).__name__}: {fault}"
    return ""


def main():
    programs, wrong = programs_given(__doc__), 0
    for case in CASES:
        difference = judged(programs, case)
        wrong += bool(difference)
        print(f"carried: {case.__name__.replace('_', ' ')}: {difference or 'as it must be'}", flush=True)
    print(f"{len(CASES) - wrong} as they must be, {wrong} not")
    return int(wrong > 0)


if __name__ == "__main__":
    sys.exit(main())
