"""Programs that run with calls disturbed, and how each run is judged."""

import dataclasses
import signal
import subprocess
from typing import List, NamedTuple

# A run that takes longer has failed.
SECONDS = 60


class Fault(NamedTuple):
    """What a program may say and how it may end where a call fails."""

    words: List[str]
    status: int
    # All calls from there on fail, and not one alone.
    lasts: bool = False


@dataclasses.dataclass
class Ended:
    out: bytes
    err: bytes
    status: int
    # What each client of a server was sent.
    got: tuple = ()
    # A server went on without a connection until it was ended.
    is_idle: bool = False
    # A server that ended well left the file of its address.
    is_left: bool = False
    # A file was read again of which a read had failed.
    is_again: bool = False


def first_difference(given, wanted):
    given, wanted = given.split(b"\n"), wanted.split(b"\n")
    for number, (one, other) in enumerate(zip(given, wanted), 1):
        if one != other:
            return f"line {number} is {one!r}, and not {other!r}"
    return f"{len(given) - 1} lines, and not {len(wanted) - 1}"


@dataclasses.dataclass
class Program:
    """A program that reads its input and prints."""

    name: str
    file: object
    arguments: list
    given: bytes
    out: bytes
    # The status of a run that nothing disturbs.
    status: int
    # Whether it makes again what is refused.
    again: bool = False

    def run(self, environment, pass_fds):
        command = [self.file, *self.arguments]
        ended = subprocess.run(command, input=self.given, capture_output=True, timeout=SECONDS, pass_fds=pass_fds, env=environment)
        return Ended(ended.stdout, ended.stderr, ended.returncode)

    def whole_difference(self, ended):
        """Where the run does other than one that nothing disturbs, or nothing."""
        if ended.status < 0:
            return f"ended by {signal.Signals(-ended.status).name}"
        if ended.err:
            return f"standard error has {ended.err!r}"
        if ended.out != self.out:
            return f"standard output: {first_difference(ended.out, self.out)}"
        return "" if ended.status == self.status else f"status {ended.status}, and not {self.status}"

    def stopped_difference(self, ended, fault):
        """Where the run does other than one that stops by such a fault, or nothing."""
        if ended.status < 0:
            return f"ended by {signal.Signals(-ended.status).name}"
        said = [f"{self.program}: {word}\n".encode() for word in fault.words]
        if ended.err not in said or ended.status != fault.status:
            return f"status {ended.status} and {ended.err!r}, and not {fault.status} and one of {said!r}"
        is_whole = not ended.out or ended.out.endswith(b"\n")
        is_first = is_whole and self.out.startswith(ended.out)
        return "" if is_first else f"what it printed are not the first lines: {first_difference(ended.out, self.out)}"

    @property
    def program(self):
        return self.name.split()[0]

    def difference(self, ended, fault):
        """Where a run in which a call was disturbed does other than it may, or nothing."""
        whole = self.whole_difference(ended)
        if not fault or self.again:
            return whole
        if ended.is_again:
            return "makes a read again that failed"
        return whole and self.stopped_difference(ended, fault)
