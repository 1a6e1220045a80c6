#!/usr/bin/env python3
"""Runs `mqserve compact` and `mqserve same` of the built server over trails whose outcome is known: each line that they print and each of their
faults, what is left where a retelling fails, and what a server makes of a retold trail. Prints a line for each case and a last line with the counts;
the status is 1 where one is not as it must be.

`--programs FOLDER` takes `mqserve` and `mqctl` from there, and `--calls COMMAND` puts words in front of each."""

import os
import pathlib
import re
import resource
import shutil
import signal
import subprocess
import sys
import tempfile

sys.dont_write_bytecode = True
import living  # noqa: E402
import servers  # noqa: E402
import trail_files  # noqa: E402
import trails  # noqa: E402
from calls import CREATE, EXCLUSIVE, SEM, close, sem_open  # noqa: E402
from served_trails import SEGMENT, Place, asked, calls_many, crash, recording  # noqa: E402
from servers import SECONDS, Wrong, is_same  # noqa: E402
from trail_files import HEAD_LEN, entries, hello  # noqa: E402

RECORDS, RETOLD = len(trails.KEPT), len(trails.RETOLD)
OTHER_FILES = "mqserve: retelling: of other files"
NOT_HAD = "mqserve: trail"
MANY_SEMAPHORES, LEAST_MEMORY, ENOUGH_MEMORY = 20_000, 8 << 20, 1 << 30
# What a retelling is that was killed: its head isn't whole, or says of more records than there are that they retell, or is half of each.
UNFINISHED = {"no head", "cut off", "head: sum of other bytes"}


class Files:
    """A folder with the hand-made trails, and the program that is run over them."""

    def __init__(self, programs, room):
        self.programs, self.room = programs, pathlib.Path(room)
        self.new = self.room / "new"
        for name, content in trails.trails().items():
            (self.room / name).write_bytes(content)
        (self.room / "users").write_bytes(trail_files.user_file(trails.USERS))
        (self.room / "other").write_bytes(trail_files.user_file(trails.USERS[:2]))
        (self.room / "bad").write_bytes(b"root:r00t:0:0::\nann\n")

    def at(self, names):
        """The words of a command: options, and files of the folder."""
        return [name if name.startswith("--") else str(self.room / name) for name in names]

    def run(self, task, *names, users="users", **how):
        """The status, standard error and the lines."""
        command = self.programs.command("mqserve", [task, *self.at([users, *names])])
        how = {"stdout": subprocess.PIPE, **how}
        ended = subprocess.run(command, stdin=subprocess.DEVNULL, stderr=subprocess.PIPE, timeout=SECONDS, **how)
        return ended.returncode, ended.stderr.decode(), (ended.stdout or b"").decode().splitlines()

    def others(self):
        """What is in the folder, but for the new file."""
        return {path.name: path.read_bytes() for path in self.room.iterdir() if path != self.new and path.is_file()}

    def fails(self, names, status, text, task="compact", **how):
        """The task ends with this fault, makes no file and changes none."""
        before, was = self.others(), self.new.exists() and self.new.read_bytes()
        is_same(f"{task} {' '.join(names)}", self.run(task, *names, **how), (status, f"{text}\n", []))
        is_same(f"what {task} {' '.join(names)} leaves", (self.others() == before, self.new.exists() and self.new.read_bytes()), (True, was))


def told(records, retold, torn=False):
    """What is printed of a retelling."""
    return [f"records {records}", *[f"torn {records}"] * torn, f"retold {retold}", "same"]


# ---- the model, and trails that are known


def modelled(files):
    """The model finds the same living in the hand-made retelling, and else where something differs."""
    at = lambda name, count=None: living.model_of(trails.USERS, [(files.room / name).read_bytes()], count)
    kept = at("kept")
    queue, semaphore = kept.names[1][b"/jobs"], kept.names[2][b"/lock"]
    is_same("names", (list(kept.names[1]), list(kept.names[2])), ([b"/jobs"], [b"/lock"]))
    messages = {3: [(b"low", 1000), (b"next", 1001)], 7: [(b"high", 1001)]}
    is_same("queue", queue.told(), (1000, (1000, 1000, 0o640), (5, 100), 0, messages))
    is_same("semaphore", semaphore.told(), (1000, (1001, 50, 0o600), None, 2, {}))
    is_same("directory, limit and time", (kept.directories[1], kept.limits[1000], kept.time), ((0, 0, 0o1773), 90_000, 51))
    is_same("who is live, and who waits", (kept.live, len(kept.parked)), ({0, 1, 2}, 1))
    is_same("the retelling", at("retold", RETOLD).living(), kept.living())
    is_same("whether another message is told", at("differs").living() == kept.living(), False)


# The new file and the old ones, and what is printed.
SAME = [
    (["retold", "kept"], told(RECORDS, RETOLD)),
    (["retold_alone", "kept"], told(RECORDS, RETOLD)),
    (["retold_torn", "kept"], told(RECORDS, RETOLD)),
    (["retold", "kept_torn"], told(RECORDS, RETOLD, torn=True)),
]
NOT_SAME = [
    (["kept", "kept"], 7, OTHER_FILES),
    (["retold", "retold"], 7, OTHER_FILES),
    (["retold", "life"], 7, OTHER_FILES),
    (["of_no_file", "kept"], 7, OTHER_FILES),
    (["of_fewer_records", "kept"], 7, OTHER_FILES),
    (["differs", "kept"], 7, "mqserve: retelling: differs"),
    (["somebody_lives", "kept"], 7, "mqserve: retelling: differs"),
    (["retold_by_others", "kept"], 3, "mqserve: trail head: other users"),
    (["retold_cut", "kept"], 6, "mqserve: trail record 8: cut off"),
    (["unfinished", "kept"], 6, f"mqserve: trail record {RETOLD}: cut off"),
    (["retold_forged", "kept"], 6, "mqserve: trail record 8: other verdict"),
    (["retold_second", "kept"], 6, f"mqserve: trail head: begins at {RETOLD}"),
    (["earlier_version", "kept"], 6, "mqserve: trail head: not a trail of this version"),
    (["no_head", "kept"], 6, "mqserve: trail no head"),
    (["nothing", "kept"], 4, "mqserve: read"),
]


def compared(files):
    """What `same` says of trails that are known."""
    for names, lines in SAME:
        is_same(f"same {' '.join(names)}", files.run("same", *names), (0, "", lines))
    for names, status, text in NOT_SAME:
        files.fails(names, status, text, task="same")


# The old files, how many records they have, and whether one more is torn.
RETELLABLE = [
    (["kept"], RECORDS, False),
    (["kept_torn"], RECORDS, True),
    (["life"], len(trails.LIFE), False),
    (["first", "second"], len(trails.LIFE), False),
    (["empty"], 0, False),
    (["audits"], len(trails.AUDITS), False),
    (["retold"], RETOLD + len(trails.SERVED), False),
    (["retold_first", "retold_second"], RETOLD + len(trails.SERVED), False),
    (["retold_torn"], RETOLD + len(trails.SERVED) - 1, True),
]


def retold(files):
    """What `compact` makes of trails that are known: its lines, a head, and the same living."""
    for names, records, torn in RETELLABLE:
        before = files.others()
        old = [before[name] for name in names]
        status, err, lines = files.run("compact", "new", *names)
        new = files.new.read_bytes()
        head, count = trail_files.read_head(new), len(trail_files.records_in(new)[0])
        is_same(f"compact new {' '.join(names)}", (status, err, lines), (0, "", told(records, count, torn)))
        generation = trail_files.read_head(old[0]).retelling.generation
        is_same("generation and records", head.retelling[:3], (generation + 1, count, records))
        is_same("living", living.model_of(trails.USERS, [new]).living(), living.model_of(trails.USERS, old).living())
        is_same("same", files.run("same", "new", *names), (0, "", lines))
        is_same("whether another file changed", files.others() == before, True)
        files.new.unlink()


# The old files and the fault of each. Where it is a replay's, `same` has it too.
FAULTS = [
    (["nothing"], 4, "mqserve: read"),
    (["kept", "nothing"], 4, "mqserve: read"),
    (["earlier_version"], 6, "mqserve: trail head: not a trail of this version"),
    (["later_version"], 6, "mqserve: trail head: not a trail of this version"),
    (["no_head"], 6, "mqserve: trail no head"),
    (["no_limit"], 3, "mqserve: trail head: config MsgMax"),
    (["other_users"], 3, "mqserve: trail head: other users"),
    (["second"], 6, "mqserve: trail head: begins at 7"),
    (["first", "other_limits"], 3, "mqserve: trail head: other limits"),
    (["first", "other_retelling"], 6, "mqserve: trail head: other retelling"),
    (["first", "later"], 6, "mqserve: trail head: begins at 8"),
    (["first_torn", "second"], 6, "mqserve: trail record 7: cut off"),
    (["forged_refusal"], 6, "mqserve: trail record 5: other verdict"),
    (["missing"], 6, "mqserve: trail record 5: record of another place"),
    (["too_long"], 6, "mqserve: trail record 5: record too long"),
    (["unknown_rule"], 6, "mqserve: trail record 5: bad field"),
    (["retold_cut"], 6, "mqserve: trail record 8: cut off"),
    (["unfinished"], 6, f"mqserve: trail record {RETOLD}: cut off"),
    (["changed"], 6, "mqserve: trail record 3: sum of other bytes"),
]


def not_retold(files):
    """What `compact` says of old files that are at fault, and `same` likewise; and of users that differ."""
    parts = entries(trails.KEPT)
    at = HEAD_LEN + sum(map(len, parts[:3])) + 12
    kept = (files.room / "kept").read_bytes()
    (files.room / "changed").write_bytes(kept[:at] + bytes([kept[at] ^ 4]) + kept[at + 1:])
    for names, status, text in FAULTS:
        files.fails(["new", *names], status, text)
        files.fails(["retold", *names], status, text, task="same")
    for task in ("compact", "same"):
        files.fails(["new", "kept"], 3, "mqserve: trail head: other users", task=task, users="other")
        files.fails(["new", "kept"], 3, "mqserve: users BadLine 2", task=task, users="bad")
        files.fails(["new", "kept"], 4, "mqserve: read", task=task, users="nobody")


# ---- where the retelling can't be written


def there_already(files):
    """A new file that is there stays as it is, also where it is the old one, a folder, or left over by a retelling that was killed."""
    files.new.write_bytes(b"mine")
    files.fails(["new", "kept"], 4, NOT_HAD)
    files.new.unlink()
    files.fails(["kept", "kept"], 4, NOT_HAD)
    files.fails(["unfinished", "kept"], 4, NOT_HAD)
    (files.room / "folder").mkdir()
    files.fails(["folder", "kept"], 4, NOT_HAD)
    files.fails(["no/folder", "kept"], 4, NOT_HAD)


def bounded(size):
    """What has a program write no file longer than this."""

    def prepare():
        signal.signal(signal.SIGXFSZ, signal.SIG_IGN)
        resource.setrlimit(resource.RLIMIT_FSIZE, (size, size))
    return prepare


def full_disk(files):
    """Where the file takes no more, nothing is left of the retelling, wherever that is."""
    files.run("compact", "new", "kept")
    size = files.new.stat().st_size
    files.new.unlink()
    for most in (0, 1, HEAD_LEN - 1, HEAD_LEN, HEAD_LEN + 5, size // 2, size - 1):
        files.fails(["new", "kept"], 4, NOT_HAD, preexec_fn=bounded(most))
    is_same("with as much room as it wants", files.run("compact", "new", "kept", preexec_fn=bounded(size))[0], 0)


def full_output(files):
    """Where nothing can be printed the fault says so; the retelling is whole."""
    with open("/dev/full", "wb") as full:
        is_same("compact", files.run("compact", "new", "kept", stdout=full), (4, "mqserve: write\n", []))
        is_same("same", files.run("same", "new", "kept", stdout=full), (4, "mqserve: write\n", []))
    is_same("whether the new file is whole", files.run("same", "new", "kept")[0], 0)


def many_semaphores():
    """A trail with so many semaphores."""
    events = [(0, hello(0))]
    for number in range(MANY_SEMAPHORES):
        events.append((0, trails.asks(0, sem_open(b"/%0200d" % number, CREATE | EXCLUSIVE))))
        events.append((0, trails.asks(0, close(SEM, number))))
    return trails.trail(events)


def little_memory(files):
    """Where there is no memory for old and new, nothing is left of the retelling."""
    (files.room / "many").write_bytes(many_semaphores())
    memory, found = LEAST_MEMORY, []
    while memory <= ENOUGH_MEMORY and 0 not in found:
        limit = (memory, memory)
        ended = files.run("compact", "new", "many", preexec_fn=lambda: resource.setrlimit(resource.RLIMIT_AS, limit))
        found.append(ended[0])
        wanted = (0, "") if ended[0] == 0 else (5, "mqserve: memory\n")
        is_same(f"status and fault within {memory} bytes", ended[:2], wanted)
        is_same("whether there is a new file", files.new.exists(), ended[0] == 0)
        memory += memory // 4
    is_same("whether memory was short and then enough", (5 in found, 0 in found), (True, True))


KILLING = r"""
#define _GNU_SOURCE
#include <dlfcn.h>
#include <signal.h>
#include <stdlib.h>
#include <sys/stat.h>
#include <unistd.h>

/* Kills the program at the so manyth of these calls on a plain file, of a write once half is written. */
static int dies(int fd)
{
    static int count;
    struct stat found;
    const char *at = getenv("KILL_AT");
    return at && !fstat(fd, &found) && (S_ISREG(found.st_mode) || S_ISDIR(found.st_mode)) && ++count == atoi(at);
}

ssize_t write(int fd, const void *data, size_t size)
{
    ssize_t (*next)(int, const void *, size_t) = dlsym(RTLD_NEXT, "write");
    if (dies(fd)) {
        next(fd, data, size / 2);
        raise(SIGKILL);
    }
    return next(fd, data, size);
}

int fsync(int fd)
{
    int (*next)(int) = dlsym(RTLD_NEXT, "fsync");
    if (dies(fd))
        raise(SIGKILL);
    return next(fd);
}
"""


def killed(files):
    """A retelling that is killed at any write or sync changes no old file; what is left is the whole retelling, or is told from one by each task and
    by a server."""
    source, library = files.room / "killing.c", files.room / "killing.so"
    source.write_text(KILLING)
    subprocess.run(["cc", "-shared", "-fPIC", "-o", library, source, "-ldl"], check=True)
    before, left = files.others(), []
    for at in range(1, 100):
        status = files.run("compact", "new", "kept", env={**os.environ, "LD_PRELOAD": str(library), "KILL_AT": str(at)})[0]
        is_same("whether an old file changed", files.others() == before, True)
        left.append(what_is_left(files))
        files.new.unlink()
        if status == 0:
            break
        is_same("how it ended", status, -signal.SIGKILL)
    is_same("what is left last, and what else", (left[-1], set(left) - {""} - UNFINISHED), ("", set()))
    is_same("whether one was cut off", "cut off" in left, True)


def what_is_left(files):
    """The fault of the new file, or nothing where it is the whole retelling; a replay, a comparison and a server say the same."""
    status, err, _ = files.run("replay", "new")
    fault = re.sub(r"^mqserve: trail (record \d+: )?|\n$", "", err)
    is_same("status of the replay", status, 6 if fault else 0)
    is_same("status of the comparison", files.run("same", "new", "kept")[0], 6 if fault else 0)
    words = ["serve", *files.at(["users"]), f"unix:{files.room}/socket", "--one-thread", "--stop-after", "0", "--trail-file", *files.at(["new"])]
    ended = subprocess.run(files.programs.command("mqserve", words), stdout=subprocess.PIPE, stderr=subprocess.PIPE, timeout=SECONDS)
    is_same("what a server says of it", (ended.stderr.decode(), ended.returncode), (err, 6 if fault else 0))
    return fault


# ---- servers


def beside_a_server(files):
    """A trail that a server is writing isn't retold, and the server isn't told of it; once it has ended it is."""
    place = Place(files.room)
    shutil.copy(files.room / "kept", place.trail)
    with recording(files.programs, place, users=files.room / "users") as server:
        asked(files.programs, place, "r00t", "list")
        before = place.trail.read_bytes()
        for task in ("compact", "same"):
            is_same(f"{task} beside a server", files.run(task, "new", "trail"), (4, f"{NOT_HAD}\n", []))
        is_same("whether there is a new file", files.new.exists(), False)
        # The end of the session may be recorded only now.
        is_same("whether the trail is as it was", place.trail.read_bytes().startswith(before), True)
        crash(server)
    is_same("compact once it has ended", files.run("compact", "new", "trail")[0], 0)


SHOWN = ["list", "stat mq", "stat sem", "stat mq /jobs", "stat sem /lock", "receive /jobs", "receive /jobs", "receive /jobs"]


def gone_on_with(files):
    """A server goes on with a retold trail as with the old one, in further files with the same retelling; `same` holds of the first file still, and a
    replay marks the retold lines alone."""
    files.run("compact", "new", "kept")
    shown = []
    for name in ("kept", "new"):
        place = Place(tempfile.mkdtemp(dir=files.room))
        shutil.copy(files.room / name, place.trail)
        with recording(files.programs, place, *SEGMENT, users=files.room / "users") as server:
            shown.append(asked(files.programs, place, "r00t", *SHOWN))
            calls_many(place)
            crash(server)
    is_same("what is shown", shown[1], shown[0])
    retellings = {trail_files.read_head(path.read_bytes()).retelling for path in place.files()}
    is_same("how many files", len(place.files()) > 2, True)
    is_same("what their heads retell", retellings, {trail_files.read_head(files.new.read_bytes()).retelling})
    first = str(place.trail.relative_to(files.room))
    is_same("same", files.run("same", first, "kept")[0], 0)
    audited(files, place)


def audited(files, place):
    """The lines of the retold records are marked, and no others."""
    count = trail_files.read_head(files.new.read_bytes()).retelling.records
    status, err, lines = files.run("replay", *(str(path.relative_to(files.room)) for path in place.files()), "--audit")
    is_same("status and fault of the replay", (status, err), (0, ""))
    of_records = [line for line in lines if re.match(r"~?\d+:", line)]
    marked = [line.startswith("~") for line in of_records]
    is_same("which lines are marked", marked, [True] * count + [False] * (len(of_records) - count))
    is_same("what the replay counts", f"retold {count}" in lines, True)


def not_served(files):
    """A server starts from no retelling that is cut off, and leaves it as it is."""
    for name, text in (("retold_cut", "record 8: cut off"), ("unfinished", f"record {RETOLD}: cut off")):
        words = ["serve", *files.at(["users"]), f"unix:{files.room}/socket", "--one-thread", "--trail-file", *files.at([name])]
        before = files.others()
        ended = subprocess.run(files.programs.command("mqserve", words), stdout=subprocess.PIPE, stderr=subprocess.PIPE, timeout=SECONDS)
        is_same(f"what a server says of {name}", (ended.returncode, ended.stderr.decode(), ended.stdout), (6, f"mqserve: trail {text}\n", b""))
        is_same("what is left", files.others(), before)


CASES = {
    "the model": modelled,
    "what is the same": compared,
    "what is retold": retold,
    "faults of old files": not_retold,
    "a new file that is there": there_already,
    "a full disk": full_disk,
    "an output that takes nothing": full_output,
    "little memory": little_memory,
    "kills": killed,
    "a trail that is being written": beside_a_server,
    "a server that goes on": gone_on_with,
    "no server": not_served,
}
WITH_A_COMPILER = {killed}


def judged(programs, case):
    """Returns what is other than it must be, or nothing."""
    with tempfile.TemporaryDirectory() as room:
        try:
            case(Files(programs, room))
        except (Wrong, OSError, ValueError, LookupError, subprocess.SubprocessError) as fault:
            return f"{type(fault).__name__}: {fault}"
    return ""


def main():
    programs = servers.programs_given(__doc__)
    failed = count = 0
    for name, case in CASES.items():
        if case in WITH_A_COMPILER and not shutil.which("cc"):
            print(f"retelling: {name}: no C compiler here; passed over")
            continue
        difference = judged(programs, case)
        failed, count = failed + bool(difference), count + 1
        print(f"retelling: {name}: {difference or 'as it must be'}", flush=True)
    print(f"{count - failed} as they must be, {failed} not")
    return 1 if failed else 0


if __name__ == "__main__":
    sys.exit(main())
