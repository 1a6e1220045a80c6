#!/usr/bin/env python3
"""Runs the built programs over inputs whose outcome is known, and compares standard output, standard error and exit
status with it. Prints a line for each case and a last line with the counts; the status is 1 where one differs.

The programs are looked for in crates/NAME/out; `--programs FOLDER` gives another folder.

A case is NAME.in in one of the folders of FOLDERS, beside NAME.args (one argument a line), NAME.out, NAME.err and
NAME.status; what is missing is empty, and the status 0. It is run in that folder. Other cases are made below, where a
file can't show them.
"""

import argparse
import dataclasses
import os
import pathlib
import re
import shlex
import socket
import subprocess
import sys
import threading

TOP = pathlib.Path(__file__).resolve().parent.parent
FOLDERS = {
    "crates/test_rows/data/scripts": "mqserve",
    "rows/mqserve": "mqserve",
    "rows/mqctl": "mqctl",
}
SECONDS = 60
# How many calls the long inputs have.
CALLS = 100_000

USERS = b"ann:ka1:1000:1000::\n.\na hello ka1\n"
STARTED = b"a started 0\n"

# What both servers log of two clients, one at a time, of which the second has nobody's key.
LOG_OF_TWO = b"""\
time=TIME event=begun connection=0 peer=PEER
time=TIME event=busy
time=TIME event=hello connection=0 user=1000
time=TIME event=ended connection=0 requests=2 ending=Closed
time=TIME event=free
time=TIME event=begun connection=1 peer=PEER
time=TIME event=busy
time=TIME event=ended connection=1 requests=1 ending=BadKey rule=31
time=TIME event=free
"""


@dataclasses.dataclass
class Case:
    name: str
    program: str
    arguments: list
    given: object
    out: bytes = b""
    err: bytes = b""
    status: int = 0
    writes_to: str = ""
    # What a server on loopback sends at once before it ends its side, and what it must get; its address is put first.
    served: bytes = None
    sent: bytes = b""
    folder: pathlib.Path = TOP
    # The words of clients that speak in turn to the server that this is, at ADDRESS. What they print comes last.
    clients: tuple = ()
    # The folder of the programs, where it isn't that of builds.
    programs: pathlib.Path = None
    # How many lines of standard error are compared, where it isn't all of them.
    err_lines: int = None


def cases_of(folder, program):
    for path in sorted((TOP / folder).glob("*.in")):
        beside = lambda ending: path.with_suffix(ending).read_bytes() if path.with_suffix(ending).exists() else b""
        yield Case(
            f"{program} {path.stem}",
            program,
            beside(".args").splitlines(),
            path.read_bytes(),
            beside(".out"),
            beside(".err"),
            int(beside(".status") or 0),
            folder=TOP / folder,
        )


def argument_cases():
    """The statuses of words after `mqserve`, and the first line of what standard error gets. The script has no steps."""
    for line in (TOP / "rows/mqserve/arguments.tsv").read_text().splitlines():
        status, words, err = line.split("\t")
        arguments = [word.encode() for word in shlex.split(words)]
        wanted = f"{err}\n" if err else ""
        yield Case(f"mqserve {words}".strip(), "mqserve", arguments, b".\n", b"", wanted.encode(), int(status), err_lines=1)


def made_cases(calls):
    """What no file shows: long inputs of so many calls, and ends that fail."""
    yield Case(f"mqserve {calls:,} steps", "mqserve", [], USERS + b"a umask 022\n" * calls, STARTED + b"a mask 022\n" * calls)
    comment = b"#" + b"x" * 1_048_575 + b"\n"
    yield Case("mqserve the longest line", "mqserve", [], USERS + comment, STARTED)
    yield Case("mqserve a longer line", "mqserve", [], USERS + b"#" + comment, STARTED, b"mqserve: line 4\n", 6)
    yield Case("mqserve a reader that fails", "mqserve", [], TOP, b"", b"mqserve: read\n", 4)
    yield Case("mqserve a writer that fails", "mqserve", [], USERS, b"", b"mqserve: write\n", 4, "/dev/full")
    nobody = [b"serve", b"rows/mqserve/two.users", b"127.0.0.1:0", b"--stop-after", b"0"]
    yield Case("mqserve a server's writer that fails", "mqserve", nobody, b"", b"", b"mqserve: write\n", 4, "/dev/full")
    two = [b"serve", b"rows/mqserve/two.users", b"ADDRESS", b"--stop-after", b"2"]
    told = b"serving ADDRESS\nserved 2\nopened 0\nrefused 8 EBADF BadDescr\n"
    calls_of_two = ([b"ka1", b"mq-open", b"/jobs", b"rw", b"--create"], [b"r00t", b"mq-getattr", b"0"])
    yield Case("mqserve a server with two clients", "mqserve", two, b"", told, clients=calls_of_two)
    yield by_name_case()
    yield from log_cases(two)
    yield Case("mqserve an argument that is not UTF-8", "mqserve", [b"\xff"], b"", b"", b"error: an argument is not UTF-8\n", 2)
    yield Case(f"mqctl {calls:,} commands", "mqctl", [], b"interrupt\n" * calls, b"0000000117\n" * calls)
    yield Case("mqctl the longest line", "mqctl", [], comment, b"fault usage\n", b"", 1)
    yield Case("mqctl a longer line", "mqctl", [], b"interrupt\n#" + comment, b"0000000117\n", b"mqctl: line 2\n", 6)
    yield Case("mqctl a line that is not UTF-8", "mqctl", [], b"\xff\n", b"", b"mqctl: line 1\n", 6)
    yield Case("mqctl a reader that fails", "mqctl", [], TOP, b"", b"mqctl: read\n", 4)
    yield Case("mqctl a writer that fails", "mqctl", [], b"interrupt\n", b"", b"mqctl: write\n", 4, "/dev/full")
    yield from served_cases()


def log_cases(two):
    """A log of two clients over standard output, and one that ends at once."""
    clients = ([b"ka1", b"mq-open", b"/jobs", b"rw", b"--create"], [b"none", b"umask", b"0"])
    serving, shown = b"serving ADDRESS\n", b"served 2\nopened 0\nrefused 31 EACCES BadKey\n"
    by_one_worker = [*two, b"--workers", b"1", b"--log"]
    on_one_thread = [*two, b"--one-thread", b"--connections", b"1", b"--log"]
    for kind, words in (("workers", by_one_worker), ("one thread", on_one_thread)):
        out = serving + LOG_OF_TWO + shown
        yield Case(f"mqserve a log, {kind}", "mqserve", [*words, b"-"], b"", out, clients=clients)
        for what, path in (("written", b"/dev/full"), ("opened", b"rows")):
            name = f"mqserve a log that can't be {what}, {kind}"
            yield Case(name, "mqserve", [*words, path], b"", serving + shown, b"mqserve: log\n", clients=clients)


def by_name_case():
    """A message and a post pass between clients that each open by name."""
    making = ([b"ka1", b"mq-open", b"/jobs", b"rw", b"--create"], [b"ka1", b"sem-open", b"/done", b"--create"])
    using = ([b"ka1", b"send", b"/jobs", b"5", b"hello"], [b"ka1", b"post", b"/done"], [b"ka1", b"list"])
    taking = ([b"r00t", b"receive", b"/jobs"], [b"r00t", b"wait", b"/done"], [b"r00t", b"send", b"/none", b"5", b"hello"])
    eight = [b"serve", b"rows/mqserve/two.users", b"ADDRESS", b"--stop-after", b"8"]
    told = b"serving ADDRESS\nserved 8\nopened 0\nopened 1\nsent\ndone\n"
    told += b"mq /jobs 1000 1000 0600 1\nsem /done 1000 1000 0600 1\nreceived 5 hello\ndone\nrefused 13 ENOENT Absent\n"
    return Case("mqctl by name", "mqserve", eight, b"", told, clients=(*making, *using, *taking))


def frame(body):
    return len(body).to_bytes(4, "big") + body


def served_cases():
    """Sessions over loopback."""
    hello, started, mask = frame(b"\1\0\3ka1"), frame(b"\x41" + bytes(8)), frame(b"\x44\0\x12")
    umask, refused = frame(b"\2\0\0"), frame(b"\x4c\0\x08")
    close, sent = [b"ka1", b"mq-close", b"0"], hello + frame(b"\4" + bytes(8))
    yield Case("mqctl one command", "mqctl", close, b"", b"refused 8 EBADF BadDescr\n", b"", 1, "", started + refused, sent)
    lines, twice = b"umask 000\numask 000\n", hello + umask + umask
    yield Case("mqctl two lines", "mqctl", [b"ka1"], lines, b"mask 022\n" * 2, b"", 0, "", started + mask + mask, twice)
    yield Case("mqctl a server that leaves", "mqctl", [b"ka1"], lines, b"mask 022\n", b"mqctl: net\n", 4, "", started + mask, twice)
    gone = b"refused 31 EACCES BadKey\n"
    yield Case("mqctl a refused hello", "mqctl", [b"ka1"], lines, gone, b"", 1, "", frame(b"\x4c\0\x1f"), hello)
    opened, done = frame(b"\x43" + bytes(8)), frame(b"\x42")
    post = hello + frame(b"\x0b\0\2/s\0\1\x80" + bytes(4)) + frame(b"\x0e" + bytes(8)) + frame(b"\x0c" + bytes(8))
    words = [b"ka1", b"post", b"/s"]
    yield Case("mqctl a post by name", "mqctl", words, b"", b"done\n", b"", 0, "", started + opened + done + done, post)
    feed = [b"ka1", b"umask\n000"]
    yield Case("mqctl a word with a line feed", "mqctl", [b"127.0.0.1:1", *feed], b"", b"", b"mqctl: arguments\n", 2)


def page_case():
    """The script of docs/use/commands.md, and what it prints."""
    page = (TOP / "docs/use/commands.md").read_text(encoding="utf-8")
    [(script, printed)] = re.findall(r"(?ms)^```sh\nmqserve <<'END'\n(.*?)^END\n```\n\n```text\n(.*?)^```", page)
    return Case("mqserve the example of a script", "mqserve", [], script.encode(), printed.encode())


def serve(listener, served, got):
    """Serves one connection, and keeps what comes."""
    with listener, listener.accept()[0] as connection:
        connection.sendall(served)
        connection.shutdown(socket.SHUT_WR)
        while piece := connection.recv(65_536):
            got.append(piece)


def run_served(case):
    """Runs a case beside a server that it speaks to."""
    listener, got = socket.create_server(("127.0.0.1", 0)), []
    listener.settimeout(SECONDS)
    address = "127.0.0.1:%d" % listener.getsockname()[1]
    server = threading.Thread(target=serve, args=(listener, case.served, got))
    server.start()
    try:
        ended = run(dataclasses.replace(case, arguments=[address.encode(), *case.arguments], served=None))
    finally:
        server.join()
    if b"".join(got) != case.sent:
        raise OSError(f"sent {b''.join(got)!r}, and not {case.sent!r}")
    return ended


def run_with_clients(case):
    """Runs a server, and its clients as soon as it says that it serves."""
    with socket.create_server(("127.0.0.1", 0)) as listener:
        address = b"127.0.0.1:%d" % listener.getsockname()[1]
    command = [address if word == b"ADDRESS" else word for word in command_of(case)]
    with subprocess.Popen(command, stdout=subprocess.PIPE, stderr=subprocess.PIPE, cwd=case.folder) as server:
        try:
            serving = server.stdout.readline()
            shown = [run(Case("", "mqctl", [address, *words], b"", programs=case.programs))[0] for words in case.clients]
            served, err = server.communicate(timeout=SECONDS)
        finally:
            server.kill()
    told = re.sub(rb"time=\d{13} ", b"time=TIME ", (serving + served).replace(address, b"ADDRESS"))
    told = re.sub(rb"peer=127\.0\.0\.1:\d+", b"peer=PEER", told)
    return b"".join([told, *shown]), err, server.returncode


def command_of(case):
    folder = case.programs or TOP / "crates" / case.program / "out"
    return [os.fsencode(folder / case.program), *case.arguments]


def run(case):
    """Returns what the program wrote to both streams, and its status."""
    if case.served is not None:
        return run_served(case)
    if case.clients:
        return run_with_clients(case)
    command = command_of(case)
    is_folder = isinstance(case.given, pathlib.Path)
    source = os.open(case.given, os.O_RDONLY) if is_folder else None
    sink = os.open(case.writes_to, os.O_WRONLY) if case.writes_to else subprocess.PIPE
    given = {"stdin": source} if is_folder else {"input": case.given}
    try:
        ended = subprocess.run(command, stdout=sink, stderr=subprocess.PIPE, timeout=SECONDS, cwd=case.folder, **given)
    finally:
        for opened in (source, sink if case.writes_to else None):
            if opened is not None:
                os.close(opened)
    return ended.stdout or b"", ended.stderr, ended.returncode


def first_difference(given, wanted):
    given, wanted = given.split(b"\n"), wanted.split(b"\n")
    for number, (one, other) in enumerate(zip(given, wanted), 1):
        if one != other:
            return f"line {number} is {one!r}, and not {other!r}"
    return f"has {len(given) - 1} lines, and not {len(wanted) - 1}"


def judged(case):
    """Returns where the program does other than it must, or nothing."""
    try:
        out, err, status = run(case)
        err = b"".join(err.splitlines(keepends=True)[: case.err_lines])
    except (OSError, subprocess.TimeoutExpired) as fault:
        return str(fault)
    for stream, given, wanted in (("standard output", out, case.out), ("standard error", err, case.err)):
        if given != wanted:
            return f"{stream}: {first_difference(given, wanted)}"
    return f"status {status}, and not {case.status}" if status != case.status else ""


def main():
    parser = argparse.ArgumentParser(description="Runs the programs over inputs whose outcome is known.")
    parser.add_argument("--programs", type=pathlib.Path, metavar="FOLDER", help="where the programs are")
    asked = parser.parse_args()
    programs = asked.programs and asked.programs.resolve()
    cases = [case for folder, program in FOLDERS.items() for case in cases_of(folder, program)]
    cases += [page_case(), *argument_cases(), *made_cases(CALLS)]
    failed = 0
    for case in cases:
        difference = judged(dataclasses.replace(case, programs=programs))
        failed += bool(difference)
        print(f"{case.name}: {difference or 'as written'}", flush=True)
    print(f"{len(cases) - failed} as written, {failed} not")
    return 1 if failed else 0


if __name__ == "__main__":
    sys.exit(main())
