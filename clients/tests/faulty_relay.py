"""faulty_relay.py: relays that disturb answers on their way to a client: one cuts, delays, drops, repeats and garbles them as a seed draws it,
and one sends notices by the thousand before each."""
import collections
import itertools
import random
import struct
import time

from relay import Relay

RECEIVED, NAMES, REFUSED, INTERRUPTED, NOTICE, TAKEN = 71, 73, 76, 77, 78, 79
ODD = (0, 1, 2, 3, 5, 8, 64, 65, 70, 71, 76, 77, 78, 79, 80, 127, 128, 254, 255)
DELAYS_S = (0.005, 0.03, 0.3)


class Cut(OSError):
    """The connection ends here."""


def frames(source):
    """Each whole frame that comes."""
    stream = source.makefile("rb")
    while True:
        head = stream.read(4)
        frame = head + stream.read(int.from_bytes(head, "big"))
        if len(frame) < 5:
            return
        yield frame


class FloodRelay(Relay):
    """Sends so many notices before each answer, of descriptions that nobody registered."""

    def __init__(self, server, notices):
        self.flood = struct.pack(">IBQ", 9, NOTICE, 1 << 60) * notices
        super().__init__(server)

    def pass_answers(self, source, target):
        for frame in frames(source):
            target.sendall(self.flood + frame)


class FaultyRelay(Relay):
    """Passes on what comes to `address`. `seed` draws the faults of each connection, in the order in which these come, and `often` is the
    share of answers that have one. `faults` counts them by kind."""

    KINDS = ("cut", "delayed", "dropped", "repeated", "garbled", "resized", "unasked", "split", "silent")

    def __init__(self, server, seed, often):
        self.seed, self.often, self.faults, self.numbers = seed, often, collections.Counter(), itertools.count()
        super().__init__(server)

    def pass_answers(self, source, target):
        draw = random.Random(f"{self.seed} {next(self.numbers)}")
        is_silent = False
        for frame in frames(source):
            kind = None
            if draw.random() < self.often and not is_silent:
                kind = draw.choice(self.KINDS + ("resized",) * 9 if frame[4] in (RECEIVED, NAMES) else self.KINDS)
                self.faults[kind] += 1
            is_silent |= kind == "silent"
            for piece in () if is_silent else getattr(self, kind)(draw, frame) if kind else (frame,):
                target.sendall(piece)

    def run(self, way, source, target):
        try:
            super().run(way, source, target)
        finally:
            self.end(source)    # where one way ends, the client and the server are told
            self.end(target)

    @staticmethod
    def end(connected):
        try:
            connected.shutdown(2)
        except OSError:
            pass

    def close(self):
        """Ends the threads too, since a relay may be one of thousands."""
        for one in [self.listener, *self.ends]:
            self.end(one)
        super().close()

    # Each gives the pieces that are sent in the place of a frame.

    def cut(self, draw, frame):
        yield frame[:draw.randrange(len(frame))]
        raise Cut

    def delayed(self, draw, frame):
        time.sleep(draw.choice(DELAYS_S))
        yield frame

    def dropped(self, draw, frame):
        return ()

    def repeated(self, draw, frame):
        return (frame,) * draw.choice((2, 2, 2, 40))

    def garbled(self, draw, frame):
        bad = bytearray(frame)
        for _ in range(draw.randrange(1, 4)):
            at = draw.randrange(min(5, len(bad)) if draw.random() < 0.4 else len(bad))
            bad[at] = draw.choice(ODD) if draw.random() < 0.5 else bad[at] ^ 1 << draw.randrange(8)
        return (bytes(bad),)

    def resized(self, draw, frame):
        """A body that is shorter or longer, and a head that says so, or doesn't."""
        body = frame[4:]
        longer = body + draw.choice((b"\0", b"\xff", frame)) * draw.choice((1, 9, 90, 900))
        bad = draw.choice((body[:draw.randrange(len(body))], longer))
        told = len(bad) if draw.random() < 0.7 else draw.choice((0, 1, 65536, 16777300, 16777301, 0xffffffff))
        return (struct.pack(">I", told) + bad,)

    def unasked(self, draw, frame):
        number = draw.choice((0, 1, 2, draw.getrandbits(64)))
        extra = draw.choice((struct.pack(">BQ", NOTICE, number), struct.pack(">BQ", TAKEN, number), bytes([INTERRUPTED]),
                             struct.pack(">BH", REFUSED, draw.randrange(36))))
        whole = struct.pack(">I", len(extra)) + extra
        return (whole * draw.choice((1, 1, 2000)), frame) if draw.random() < 0.5 else (frame, whole)

    def split(self, draw, frame):
        at = draw.randrange(len(frame))
        for piece in (frame[:at], frame[at:at + 1], frame[at + 1:]):
            yield piece
            time.sleep(0.002)
