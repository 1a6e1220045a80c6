"""The tasks that retell a trail and compare it, as programs that run with calls disturbed."""

import dataclasses
import pathlib
import subprocess
import sys
import tempfile

from programs import SECONDS, Ended, Program

sys.path.append(str(pathlib.Path(__file__).resolve().parent.parent / "rows"))
import trails  # noqa: E402
from trail_files import user_file  # noqa: E402

OLD = ("first", "second")
# What follows the records that are retold: that a file ends within one more, so that all lines are printed.
TORN = b"\0\0\0"


def kept():
    """The files of a trail of which something of each kind lives at the end."""
    parts = trails.entries(trails.KEPT)
    half = len(parts) // 2
    return {"users": user_file(trails.USERS), "first": trails.head() + b"".join(parts[:half]), "second": trails.head(half) + b"".join(parts[half:]) + TORN}


@dataclasses.dataclass
class Retelling(Program):
    """Each run has the files of a trail in a folder of its own. `new` is what is retold of it by a run that nothing disturbs."""

    new: bytes = b""

    def run(self, environment, pass_fds):
        with tempfile.TemporaryDirectory() as room:
            room = pathlib.Path(room)
            files = {**kept(), **({"new": self.new} if self.task == "same" else {})}
            for name, content in files.items():
                (room / name).write_bytes(content)
            command = [self.file, self.task, "users", "new", *OLD]
            ended = subprocess.run(command, cwd=room, stdin=subprocess.DEVNULL, capture_output=True, timeout=SECONDS, pass_fds=pass_fds, env=environment)
            found = {path.name: path.read_bytes() for path in room.iterdir()}
            return Left(ended.stdout, ended.stderr, ended.returncode, files_left=found)

    @property
    def task(self):
        return self.name.split()[1]

    def stopped_difference(self, ended, fault):
        """A write that fails may be one of the new file."""
        words = [*fault.words, "trail"] if self.task == "compact" and "write" in fault.words else fault.words
        # A line is printed by more than one write.
        if self.out.startswith(ended.out):
            ended = dataclasses.replace(ended, out=ended.out[:ended.out.rfind(b"\n") + 1])
        return super().stopped_difference(ended, fault._replace(words=words))

    def difference(self, ended, fault):
        """The old files are as they were. The new one is there whole, or isn't there where the retelling stopped before that was printed."""
        is_whole = self.task == "same" or ended.status == 0 or ended.out or ended.err == b"mqserve: write\n"
        files = {**kept(), **({"new": self.new} if is_whole else {})}
        if ended.files_left != files:
            return f"what is left differs: {sorted(ended.files_left)}, and not {sorted(files)}"
        return super().difference(ended, fault)


@dataclasses.dataclass
class Left(Ended):
    """How a run ended, and the files that it left."""

    files_left: dict = None


def retellings(file):
    """Both tasks, with what each prints and leaves if nothing disturbs it."""
    first = Retelling("mqserve compact", file, [], b"", b"", 0)
    ended = first.run(None, ())
    new = ended.files_left.get("new", b"")
    for task in ("compact", "same"):
        yield Retelling(f"mqserve {task}", file, [], b"", ended.out, 0, new=new)
