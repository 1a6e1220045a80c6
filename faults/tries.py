"""How often a server tries what is refused memory: it shows where one refusal more ends it.

A step that wants memory is tried 100 times, a hello too. So where a try is refused its only growth, 99 refusals one after another
change nothing, and 100 end the connection. One thread goes on with a step in the next turn, and ends the connection at 101; the
growths of the piece that was read it tries 100 times in one turn.

A worker tries a hang-up 1,000 times, and once more before the next connection: 1,000 refusals change nothing, and after 1,001 the
next connection is hung up at once. One thread tries it in each round: some refusals change nothing, and where all growths are
refused the server ends by itself within some seconds, out of memory.
"""

from typing import NamedTuple

STEP_TRIES = (100, 101)
HANG_UP_TRIES = 1_000 + 1
# The most growths that a try is refused: it goes on without the first.
GROWTHS = 3

# So few refusals of a hang-up change nothing on one thread: it waits 10 ms after each, and a second in all.
FEW = 20
FOR_GOOD = 10**9
OUT_OF_MEMORY = 5

KINDS = ("hello", "step", "hang-up")


def wanted_of(server):
    return tuple(b"".join(answer for _, answer in one(session)) for session, one in enumerate(server.talks))


class Lost(NamedTuple):
    """What the first client got that didn't get all, and whether it is the last."""

    got: bytes
    is_last: bool


class Tries:
    """What the growths of a server's run are asked for."""

    def __init__(self, server, outcome):
        self.server, self.outcome, self.wanted = server, outcome, wanted_of(server)

    def lost(self, at, times):
        """None where each client got all."""
        _, ended = self.outcome(at, times)
        for place, (got, wanted) in enumerate(zip(ended.got, self.wanted)):
            if got != wanted:
                return Lost(got, place + 1 == len(self.wanted))
        return None if len(ended.got) == len(self.wanted) else Lost(b"", False)

    def ends_at(self, at, times):
        """What is lost at so many refusals, where nothing is at one fewer."""
        return self.lost(at, times) if self.lost(at, times - 1) is None else None

    def step_of(self, at, growths):
        """Whether it is of a hello or of a step, where each of its tries is refused so many growths."""
        # By workers a step is never tried once more.
        for tries in STEP_TRIES if self.server.is_one_thread else STEP_TRIES[:1]:
            lost = self.ends_at(at, growths * tries)
            if lost:
                return "step" if lost.got else "hello"
        return None

    def is_hang_up_of_worker(self, at, growths):
        return self.ends_at(at, growths * HANG_UP_TRIES) == (b"", True)

    def is_hang_up_of_one_thread(self, at):
        """The first client got all its answers, and then the server ended."""
        _, ended = self.outcome(at, FOR_GOOD)
        return ended.status == OUT_OF_MEMORY and ended.got[:1] == self.wanted[:1] and self.lost(at, FEW) is None

    def kind_of(self, at):
        """Whether this growth is met, and what wants it."""
        is_met, _ = self.outcome(at, 1)
        if not is_met or self.lost(at, 1) or not self.lost(at, GROWTHS * HANG_UP_TRIES):
            return is_met, None
        if self.server.is_one_thread and self.is_hang_up_of_one_thread(at):
            return True, "hang-up"
        if self.lost(at, STEP_TRIES[0] - 1):
            return True, None
        for growths in range(1, GROWTHS + 1):
            step = self.step_of(at, growths)
            if step:
                return True, step
            if not self.server.is_one_thread and self.is_hang_up_of_worker(at, growths):
                return True, "hang-up"
        return True, None


def tries_differences(server, in_turn, outcome):
    """Which of the three was not seen to be tried so often."""
    tries = Tries(server, outcome)
    seen = dict.fromkeys(KINDS, 0)
    for _, kind in in_turn(tries.kind_of):
        if kind:
            seen[kind] += 1
    counts = ", ".join(f"{count} of a {kind}" for kind, count in seen.items())
    print(f"{server.name}, tries: {counts}", flush=True)
    for kind, count in seen.items():
        if not count:
            yield f"no growth of a {kind} was tried so often"
