"""python3 -m mqserve top [ADDRESS]: shows a server's queues and semaphores in a terminal, as far as the key's user may see them.

A look lists the names, asks for the owner and the mode of each, and for the length or the value of those that the user may open. They
stay open, so that the next look needn't open them; an object whose name was removed lives on until then. The server's trail keeps each
question, some two for each object and look, until the server ends: --interval is to be chosen with that in mind.

Python 3.8 or later. Without curses, and where the terminal can't be written to at will, the tables come one below the other.
"""
from __future__ import annotations

import argparse
import functools
import os
import pwd
import signal
import struct
import sys
import time
from typing import Any, Dict, Iterable, List, Optional, Sequence, Tuple, Union

import mqserve

from . import _connection as connection, _errors as errors, _waits as waits, _wire as wire

_FAMILIES = {"mq": 1, "sem": 2}
_READ, _WRITE = 1, 2
_ABSENT, _MODE_DENIED = 13, 15
_PAGES_MOST = 500
# A session holds 1,024 descriptions. So many stay open, and so many more are open for a moment.
_HELD_MOST, _AT_ONCE = 800, 200

Request = Tuple[int, bytes, int]    # the opcode, the fields, the opcode of the answer
Answer = Union[bytes, int]          # the fields, or the rule that refused


class Session(connection.Connection):
    """A connection that also lists names, and makes many calls at a time."""

    def take_or_rule(self, wanted: int) -> Answer:
        self.await_answer()
        try:
            return self.take(wanted)
        except Exception as error:
            if not errors.rule_of(error):
                raise
            return errors.rule_of(error)

    def ask_all(self, requests: Sequence[Request]) -> List[Answer]:
        """The answers to calls that don't block. Few enough are under way that neither side waits for the other to read."""
        answers: List[Answer] = []
        for start in range(0, len(requests), _AT_ONCE):
            part = requests[start:start + _AT_ONCE]
            for opcode, fields, _ in part:
                self.write(opcode, fields)
            answers += [self.take_or_rule(wanted) for _, _, wanted in part]
        return answers

    def page(self, family: int, start: int) -> Union[List[bytes], int]:
        fields = struct.pack(">BIH", family, start, wire.PAGE_NAMES)
        [answer] = self.ask_all([(wire.LIST_NAMES, fields, wire.PAGE)])
        return answer if isinstance(answer, int) else self.names_in(answer)

    def list_names(self, family: int) -> Union[List[bytes], int]:
        """The names in the order in which their objects were created, or the rule that refused. Pages overlap by a name: where it is
        another, one before it was removed meanwhile, which hides one, and the list begins anew."""
        names: List[bytes] = []
        for _ in range(_PAGES_MOST):
            page = self.page(family, max(len(names) - 1, 0))
            if isinstance(page, int):
                return page
            if names and page[:1] != names[-1:]:
                names = []
                continue
            names += page[1:] if names else page
            if len(page) < wire.PAGE_NAMES:
                break
        return names


class Entry:
    """A name that is listed, and what is known of its object."""

    def __init__(self, family: str, name: bytes) -> None:
        self.family, self.name = family, name
        self.facts: Optional[Tuple[int, int, int]] = None       # owner, group, mode; None where they aren't told
        self.denied: Optional[Tuple[int, int, int]] = None      # those under which no open was granted
        self.description: Optional[int] = None
        self.others = 0             # others had made at most so many opens when the name was last known to be bound to this object
        self.size: Optional[int] = None
        self.most: Optional[int] = None
        self.change: Optional[float] = None
        self.moment = 0.0

    def asking_facts(self) -> Request:
        return wire.STAT_NAME, struct.pack(">BB", _FAMILIES[self.family], 1) + wire.text(self.name), wire.STAT

    def opening(self, access: int) -> Request:
        """A semaphore is opened to read and write whatever is asked for. Nothing is created."""
        if self.family == "mq":
            return wire.MQ_OPEN, wire.text(self.name) + struct.pack(">BBHB", access, 0, 0, 0), wire.OPENED
        return wire.SEM_OPEN, wire.text(self.name) + struct.pack(">BHI", 0, 0, 0), wire.OPENED

    def measuring(self) -> Request:
        ask = (wire.MQ_GETATTR, wire.ATTRS) if self.family == "mq" else (wire.SEM_GETVALUE, wire.VALUE)
        return ask[0], struct.pack(">Q", self.description), ask[1]

    def closing(self) -> Request:
        opcode = wire.MQ_CLOSE if self.family == "mq" else wire.SEM_CLOSE
        return opcode, struct.pack(">Q", self.description), wire.DONE

    def learn(self, answer: Optional[Answer], moment: float) -> None:
        """Takes up the length or the value. What it was before is that of the same name, whatever that was bound to."""
        size = most = None
        if isinstance(answer, bytes):
            _, most, _, size = struct.unpack(">BIII", answer) if self.family == "mq" else (0, None, 0, *struct.unpack(">I", answer))
        is_known = size is not None and self.size is not None and moment > self.moment
        self.change = (size - self.size) / (moment - self.moment) if is_known else None
        self.size, self.most, self.moment = size, most, moment


class Watch:
    """Looks at a server again and again by one session."""

    def __init__(self, session: Any) -> None:
        self.session = session
        self.entries: Dict[Tuple[str, bytes], Entry] = {}
        self.refused: Dict[str, int] = {}       # families that may not be listed, and the rules
        self.opens = 0                          # accepted ones of this session
        self.others = 0                         # accepted ones of all others, as the last look was told
        self.held = 0

    def look(self) -> List[Entry]:
        """What there is now, queues first, in the order of creation."""
        self.follow(self.list_all())
        self.ask_facts()
        self.renew()
        live = list(self.entries.values())
        for start in range(0, len(live), _AT_ONCE):
            self.measure(live[start:start + _AT_ONCE])
        return list(self.entries.values())

    def list_all(self) -> List[Tuple[str, bytes]]:
        """A name that was removed and made anew while pages came is listed twice: where it is last counts."""
        listed: Dict[Tuple[str, bytes], None] = {}
        self.refused = {}
        for family, number in _FAMILIES.items():
            names = self.session.list_names(number)
            if isinstance(names, int):
                self.refused[family] = names
                continue
            for name in names:
                listed.pop((family, name), None)
                listed[family, name] = None
        return list(listed)

    def follow(self, listed: List[Tuple[str, bytes]]) -> None:
        bound = set(listed)
        self.close(entry for key, entry in self.entries.items() if key not in bound)
        self.entries = {key: self.entries.get(key) or Entry(*key) for key in listed}

    def ask_facts(self) -> None:
        """Where they are others, so may the object be, and what is granted."""
        live = list(self.entries.values())
        answers = self.session.ask_all([entry.asking_facts() for entry in live])
        changed = []
        for entry, answer in zip(live, answers):
            facts = None if isinstance(answer, int) else struct.unpack(">IIH", answer)
            if facts != entry.facts:
                changed.append(entry)
            entry.facts = facts
        self.close(changed)
        self.drop(live, answers)

    def drop(self, asked: Iterable[Entry], answers: Iterable[Answer]) -> None:
        """Forgets those whose names were removed since they were listed."""
        for entry, answer in zip(asked, answers):
            if answer == _ABSENT:
                self.entries.pop((entry.family, entry.name), None)

    def renew(self) -> None:
        """Closes what may not be the name's object any more. Names are listed in the order in which their objects were created, and
        descriptions are numbered by all opens before them. So where others made N opens, at most the N newest objects are new."""
        others = self.probe()
        if others is None:
            return
        for family in _FAMILIES:
            newest_first = [entry for entry in reversed(self.entries.values()) if entry.family == family]
            self.close(entry for place, entry in enumerate(newest_first) if place < others - entry.others)
            for entry in newest_first:
                entry.others = max(entry.others, self.others)
        self.others = others

    def probe(self) -> Optional[int]:
        """How many opens others made until now: an open of the newest that is held tells it. None where nothing is held."""
        for entry in reversed(list(self.entries.values())):
            if entry.description is None:
                continue
            [answer] = self.session.ask_all([entry.opening(entry.access)])
            self.close([entry])
            if isinstance(answer, bytes):
                self.hold(entry, entry.access, answer)
                return entry.others
        return None

    def hold(self, entry: Entry, access: int, answer: bytes) -> None:
        entry.description, entry.access, entry.denied = struct.unpack(">Q", answer)[0], access, None
        entry.others = entry.description - self.opens
        self.opens += 1
        self.held += 1

    def close(self, entries: Iterable[Entry]) -> None:
        held = [entry for entry in entries if entry.description is not None]
        self.session.ask_all([entry.closing() for entry in held])
        for entry in held:
            entry.description = None
        self.held -= len(held)

    def open(self, part: List[Entry]) -> None:
        """Opens what isn't open: a queue for reading, or where its mode denies that for writing."""
        wanted = [entry for entry in part if entry.description is None and entry.facts not in (None, entry.denied)]
        for access in (_READ, _WRITE):
            answers = self.session.ask_all([entry.opening(access) for entry in wanted])
            denied = []
            for entry, answer in zip(wanted, answers):
                if isinstance(answer, bytes):
                    self.hold(entry, access, answer)
                elif answer == _MODE_DENIED:
                    entry.denied = entry.facts
                    denied.append(entry)
            self.drop(wanted, answers)
            wanted = [entry for entry in denied if entry.family == "mq"]

    def measure(self, part: List[Entry]) -> None:
        self.open(part)
        held = [entry for entry in part if entry.description is not None]
        answers = dict(zip(held, self.session.ask_all([entry.measuring() for entry in held])))
        moment = time.monotonic()
        for entry in part:
            entry.learn(answers.get(entry), moment)
        self.close(held[max(0, len(held) - max(0, self.held - _HELD_MOST)):])


# ---- What is shown ----

Row = Tuple[str, ...]
_HEADS: Row = ("FAMILY", "NAME", "OWNER", "MODE", "LENGTH", "CHANGE/S")
_NAME_COLUMN, _NAME_WIDTH_LEAST = 1, 8
_TO_THE_RIGHT = (4, 5)
_SORTS: Dict[str, Any] = {
    "created": lambda entry: 0,
    "name": lambda entry: entry.name,
    "owner": lambda entry: (entry.facts is None, owner(entry.facts[0]) if entry.facts else ""),
    "length": lambda entry: (entry.size is None, -(entry.size or 0)),
    "change": lambda entry: (entry.change is None, -abs(entry.change or 0.0)),
}


def visible(data: bytes) -> str:
    """Others choose names. What isn't visible ASCII stands as \\x and two digits, and so does the backslash: nothing that moves the cursor
    or takes more or less than a place gets to the terminal, a name is one word, and two names never look the same."""
    return "".join(chr(byte) if 0x21 <= byte <= 0x7E and byte != 0x5C else f"\\x{byte:02x}" for byte in data)


@functools.lru_cache(maxsize=None)
def owner(number: int) -> str:
    try:
        return visible(os.fsencode(pwd.getpwuid(number).pw_name))
    except (KeyError, OverflowError):
        return str(number)


def length(entry: Entry) -> str:
    if entry.size is None:
        return "-"
    return str(entry.size) if entry.most is None else f"{entry.size}/{entry.most}"


def change(entry: Entry) -> str:
    if entry.change is None:
        return "-"
    return f"{entry.change:+.1f}" if entry.change else "0"


def rows(entries: Iterable[Entry], sort: str) -> List[Row]:
    return [(entry.family, visible(entry.name), *((owner(entry.facts[0]), f"{entry.facts[2]:04o}") if entry.facts else ("-", "-")),
             length(entry), change(entry)) for entry in sorted(entries, key=_SORTS[sort])]


def table(lines: Sequence[Row], width: Optional[int] = None) -> List[str]:
    """Lines of columns. With a width the names are cut to it, and `>` stands where one goes on."""
    lines = [_HEADS, *lines]
    widths = [max(map(len, column)) for column in zip(*lines)]
    if width is not None:
        others = sum(widths) - widths[_NAME_COLUMN] + 2 * (len(widths) - 1)
        widths[_NAME_COLUMN] = max(_NAME_WIDTH_LEAST, min(widths[_NAME_COLUMN], width - others))
    return ["  ".join(cell(text, size, place in _TO_THE_RIGHT) for place, (text, size) in enumerate(zip(line, widths))).rstrip()
            for line in lines]


def cell(text: str, size: int, is_right: bool) -> str:
    short = text if len(text) <= size else text[:size - 1] + ">"
    return short.rjust(size) if is_right else short.ljust(size)


def summary(address: str, entries: List[Entry], watch: Watch) -> str:
    count = {family: sum(entry.family == family for entry in entries) for family in _FAMILIES}
    refused = "".join(f"; {family} not listed: rule {rule}, {errors.NAMES[rule - 1]}" for family, rule in watch.refused.items())
    return f"{visible(os.fsencode(address))}  {time.strftime('%H:%M:%S')}  queues: {count['mq']}, semaphores: {count['sem']}{refused}"


# ---- Where it is shown ----

def in_terminal(screen: Any, watch: Watch, address: str, asked: argparse.Namespace) -> None:
    """Until q. A look takes place each interval, and the keys move what is shown of it."""
    import curses
    moves = {curses.KEY_UP: -1, curses.KEY_DOWN: 1, curses.KEY_HOME: -1 << 30, curses.KEY_END: 1 << 30}
    try:
        curses.curs_set(0)
    except curses.error:
        pass    # a terminal that always shows it
    first = 0
    while True:
        entries = watch.look()
        heading, shown = summary(address, entries, watch), rows(entries, asked.sort)
        until = time.monotonic() + asked.interval
        while time.monotonic() < until:
            height = max(1, screen.getmaxyx()[0] - 3)
            first = max(0, min(first, len(shown) - height))
            draw(screen, heading, shown, first, height)
            key = key_until(screen, until)
            if key in (ord("q"), ord("Q")):
                return
            first += moves.get(key, 0) + height * ((key == curses.KEY_NPAGE) - (key == curses.KEY_PPAGE))


def key_until(screen: Any, until: float) -> int:
    """The key that is pressed until a moment, or -1. Where the terminal is gone it is -1 at once, which mustn't make a busy loop."""
    left = max(0.0, until - time.monotonic())
    screen.timeout(int(left * 1000) + 1)
    key = screen.getch()
    if key == -1:
        time.sleep(max(0.0, min(0.1, until - time.monotonic())))
    return key


def draw(screen: Any, heading: str, shown: List[Row], first: int, height: int) -> None:
    import curses
    width = screen.getmaxyx()[1]
    heads, *lines = table(shown, width)
    part = lines[first:first + height]
    foot = f"{first + 1} to {first + len(part)} of {len(lines)}  " if len(part) < len(lines) else ""
    screen.erase()
    for place, (text, look) in enumerate([(heading, curses.A_BOLD), (heads.ljust(width), curses.A_REVERSE),
                                          *((line, curses.A_NORMAL) for line in part), (foot + "q ends", curses.A_DIM)]):
        if place < screen.getmaxyx()[0]:
            screen.insnstr(place, 0, text, width, look)
    screen.refresh()


def below_each_other(watch: Watch, address: str, asked: argparse.Namespace) -> None:
    """Until Ctrl-C, or until nobody reads it."""
    while True:
        entries = watch.look()
        print(summary(address, entries, watch), *table(rows(entries, asked.sort)), "", sep="\n", flush=True)
        time.sleep(asked.interval)


def once(watch: Watch, asked: argparse.Namespace) -> int:
    print(*table(rows(watch.look(), asked.sort)), sep="\n", flush=True)
    for family, rule in watch.refused.items():
        print(f"mqserve top: {family} not listed: rule {rule}, {errors.NAMES[rule - 1]}", file=sys.stderr)
    return 1 if watch.refused else 0


def can_move_cursor() -> bool:
    """Whether this is a terminal that curses knows, and not a dumb one, and keys come from one too."""
    if not (sys.stdin and sys.stdin.isatty() and sys.stdout.isatty()):
        return False
    try:
        import curses
        curses.setupterm()
        return bool(curses.tigetstr("cup"))
    except (ImportError, curses.error):
        return False


def run(asked: argparse.Namespace) -> int:
    if sys.stdout is None:
        raise ValueError("standard output is closed")
    server = server_of(asked)
    watch = Watch(Session(server.address, server.key, waits.HELLO_S))
    if asked.once:
        return once(watch, asked)
    if can_move_cursor():
        import curses
        signal.signal(signal.SIGTERM, lambda *_: sys.exit(128 + signal.SIGTERM))    # so that the terminal is restored
        curses.wrapper(in_terminal, watch, server.address, asked)
    else:
        below_each_other(watch, server.address, asked)
    return 0


def server_of(asked: argparse.Namespace) -> Any:
    """The address and the key, as the module finds them; what was asked for comes before the variables."""
    if asked.address:
        os.environ["MQSERVE"] = asked.address
    if asked.key_file:
        os.environ.pop("MQSERVE_KEY", None)
        os.environ["MQSERVE_KEY_FILE"] = asked.key_file
    return mqserve._current()


def seconds(word: str) -> float:
    number = float(word)
    if not 0.1 <= number <= 86400:
        raise argparse.ArgumentTypeError("0.1 to 86400 seconds")
    return number


def arguments(words: Optional[Sequence[str]]) -> argparse.Namespace:
    parser = argparse.ArgumentParser(prog="python3 -m mqserve", description="The key is that of MQSERVE_KEY or MQSERVE_KEY_FILE.")
    top = parser.add_subparsers(dest="command", required=True, metavar="top").add_parser(
        "top", help="shows queues and semaphores", description="Shows queues and semaphores: family, name, owner, mode, messages of at "
        "most how many or a semaphore's value, and by how much that changes a second; - is what the user may not see. q or Ctrl-C ends it.")
    top.add_argument("address", nargs="?", help="HOST:PORT, unix:PATH, or unix-user:PATH, which wants no key; by default "
                     "that of MQSERVE")
    top.add_argument("--key-file", metavar="FILE", help="its first line is the key")
    top.add_argument("--interval", metavar="SECONDS", type=seconds, default=2.0, help="from look to look; 2 by default. The server records "
                     "some two calls for each object and look")
    top.add_argument("--once", action="store_true", help="prints the table once")
    top.add_argument("--sort", choices=_SORTS, default="created", help="greatest length or change first; by default the oldest object")
    return parser.parse_args(words)


def main(words: Optional[Sequence[str]] = None) -> int:
    asked = arguments(words)
    try:
        return run(asked)
    except KeyboardInterrupt:
        return 0
    except BrokenPipeError:
        status = 0
    except (mqserve.Error, OSError, ValueError) as error:
        print(f"mqserve top: {error}", file=sys.stderr)
        status = 1
    os.dup2(os.open(os.devnull, os.O_WRONLY), 1)    # what couldn't be written mustn't fail once more when Python ends
    return status
