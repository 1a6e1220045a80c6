#!/usr/bin/env python3
"""Kills a server in turn at each call by which its start retells a trail and puts the short one in its place: the first run at the first call that
changes a folder or a file, or has a change put on the disk, and so on until a run meets no more. After each the next start must serve what the old
trail has, from the old files or from the retelling, with the same names, messages, owners and modes by a model.

So with one file and with more, and with old files removed and kept. Prints a line for each way, one for each run that fails, and the counts; the
status is 1 where one failed. `--programs FOLDER` says where mqserve is."""

import contextlib
import os
import pathlib
import random
import shutil
import signal
import subprocess
import sys
import tempfile

sys.dont_write_bytecode = True
HERE = pathlib.Path(__file__).resolve().parent
sys.path.insert(0, str(HERE.parent / "rows"))
import living  # noqa: E402
import trail_files  # noqa: E402
from calls import MQ  # noqa: E402
from histories import Chooser, Player  # noqa: E402
from servers import ONE_THREAD, SECONDS, Wrong, is_same, programs_given, serving  # noqa: E402
from trail_files import User  # noqa: E402

USERS = [User("root", "r00t", 0, 0), User("ann", "ka1", 1000, 1000, [50]), User("bob", "kb1", 1001, 1001, [50])]
SEGMENTS, KEEP, COMPACT = ["--trail-segment", "4096"], ["--trail-keep"], ["--trail-compact", "1"]
STEPS = 300
# A run that meets fewer calls shows nothing.
LEAST = 8


class Trail:
    """A folder with a trail, and servers that start from it."""

    def __init__(self, programs, room):
        self.programs, self.room = programs, pathlib.Path(room)
        self.users = self.room / "users"
        self.users.write_bytes(trail_files.user_file(USERS))

    def files(self, folder):
        """The trail's files, in their order; those that are kept aren't among them."""
        return [folder / "trail", *sorted(folder.glob("trail.*"), key=lambda path: int(path.suffix[1:]))]

    def living(self, folder):
        return living.model_of(USERS, [path.read_bytes() for path in self.files(folder)]).living()

    @contextlib.contextmanager
    def served(self, folder, *words):
        words = [*ONE_THREAD, "--trail-file", f"{folder}/trail", *words]
        with serving(self.programs, f"unix:{folder}/socket", *words, users=self.users):
            yield

    def made(self, folder, words):
        """A long trail in this folder."""
        folder.mkdir()
        with self.served(folder, *words):
            player = Player(f"unix:{folder}/socket")
            chooser = Chooser(random.Random(1), player, USERS)
            for _ in range(STEPS):
                player.made(chooser.step())
            player.close()

    def killed(self, folder, library, at, words):
        """Whether a start in this folder is killed at the call of this number."""
        command = self.programs.command("mqserve", ["serve", str(self.users), f"unix:{folder}/socket", *ONE_THREAD, "--trail-file", f"{folder}/trail", *words])
        environment = {**os.environ, "LD_PRELOAD": str(library), "KILLED_AT": str(at)}
        with subprocess.Popen(command, stdout=subprocess.PIPE, stderr=subprocess.PIPE, env=environment) as server:
            said = server.stdout.readline()
            if said:
                server.kill()
            server.wait(SECONDS)
            if not said and server.returncode != -signal.SIGKILL:
                raise Wrong(f"a start ended by {server.returncode}: {server.stderr.read()!r}")
            return not said


def tried(trail, template, folder, library, at, words):
    """Kills a start at this call, and looks at what the next start makes of it. Whether a call was met."""
    shutil.copytree(template, folder)
    wanted = trail.living(folder)
    was_killed = trail.killed(folder, library, at, words)
    with trail.served(folder, *words):
        pass
    found = trail.living(folder)
    for what, value in wanted.items():
        is_same(f"call {at}: {what}", found[what], value)
    is_same(f"call {at}: how often it was retold", trail_files.read_head((folder / "trail").read_bytes()).retelling.generation, 1)
    kept = sorted(path.name for path in folder.glob("trail~*"))
    is_same(f"call {at}: whether a file is left", "trail~new" in kept, False)
    is_same(f"call {at}: which files are kept", [name for name in kept if name != "trail~new"], kept_of(template) if KEEP[0] in words else [])
    shutil.rmtree(folder)
    return was_killed


def kept_of(template):
    return sorted("trail~0" + path.name[len("trail"):] for path in template.glob("trail*"))


def way(trail, library, segments, keep):
    words = [*COMPACT, *(SEGMENTS if segments else []), *(KEEP if keep else [])]
    template = trail.room / f"template-{segments}-{keep}"
    trail.made(template, SEGMENTS if segments else [])
    for path in template.glob("socket*"):
        path.unlink()
    met = 0
    while tried(trail, template, trail.room / "tried", library, met + 1, words):
        met += 1
    if met < LEAST:
        raise Wrong(f"{met} calls were met")
    return met


def main():
    programs, failed = programs_given(__doc__), 0
    with tempfile.TemporaryDirectory() as room:
        library = pathlib.Path(room) / "killed.so"
        subprocess.run([os.environ.get("CC", "cc"), "-std=gnu11", "-O2", "-shared", "-fPIC", str(HERE / "killed.c"), "-o", str(library), "-ldl"], check=True)
        trail = Trail(programs, room)
        for segments in (False, True):
            for keep in (False, True):
                what = f"{'more files' if segments else 'one file'}, old ones {'kept' if keep else 'removed'}"
                try:
                    print(f"switched: {what}: killed at {way(trail, library, segments, keep)} calls", flush=True)
                except (Wrong, OSError, subprocess.TimeoutExpired) as fault:
                    failed += 1
                    print(f"switched: {what}: {type(fault).__name__}: {fault}", flush=True)
                    shutil.rmtree(trail.room / "tried", ignore_errors=True)
    print(f"{4 - failed} as they must be, {failed} not")
    return int(failed > 0)


if __name__ == "__main__":
    sys.exit(main())
