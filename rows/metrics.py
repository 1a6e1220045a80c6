#!/usr/bin/env python3
"""Runs the built server on one thread with `--metrics`, over TCP and at a file, and reads its page of numbers by a reader that is
written from the text of Prometheus' format 0.0.4. And its log, by `--stats`. Prints a line for each case and a last line with the
counts; the status is 1 where one is not as it must be.

`--programs FOLDER` takes `mqserve` from there, and `--calls COMMAND` puts words in front of it."""

import contextlib
import os
import pathlib
import re
import socket
import stat
import struct
import subprocess
import sys
import tempfile
import threading
import time

sys.dont_write_bytecode = True
from calls import MQ_OPEN, MQ_SEND, SEM_OPEN, UMASK, frame  # noqa: E402
from servers import (HELLO, MASK, ONE_THREAD, OPENED, REFUSED, SECONDS, SENT, STARTED, USERS, Wrong, connect, ends, free_port,  # noqa: E402
                     is_answer, is_same, programs_given, serving)

NAME, LABEL = "[a-zA-Z_:][a-zA-Z0-9_:]*", "[a-zA-Z_][a-zA-Z0-9_]*"
VALUE = r'"(?:[^"\\\n]|\\\\|\\"|\\n)*"'
SAMPLE = re.compile(rf"({NAME})(?:\{{((?:{LABEL}={VALUE},)*(?:{LABEL}={VALUE})?)\}})? (\S+)")
COMMENT = re.compile(rf"# (HELP|TYPE) ({NAME}) (.*)")
KINDS = ("counter", "gauge", "histogram", "summary", "untyped")
MOST_SCRAPERS, FEW_FILES = 8, 24
FEW_RECORDS = 1_000
MODE_DENIED, BAD_KEY = 15, 31
RULES = 33
GET = b"GET /metrics HTTP/1.1\r\nHost: here\r\n\r\n"
QUEUES, SEMAPHORE = (b"/secret-queue", b"/secret-other-queue"), b"/secret-semaphore"
MESSAGES = (b"secret-one", b"secret-and-two")


# ---- a reader of the format


def samples_of(text):
    """Each sample's value by its name and labels, where the text is of the format."""
    is_same("the last line's end", text[-1:], "\n")
    helped, kinds, found, last = set(), {}, {}, None
    for line in text.splitlines():
        comment = COMMENT.fullmatch(line)
        if comment:
            word, name, rest = comment.groups()
            begun = helped if word == "HELP" else kinds
            is_same(f"{word} of {name} stands once, before its samples", name in begun or any(key[0] == name for key in found), False)
            if word == "HELP":
                helped.add(name)
            else:
                is_same(f"kind of {name}", rest in KINDS, True)
                kinds[name] = rest
            continue
        sample = SAMPLE.fullmatch(line)
        if not sample:
            raise Wrong(f"a line of no format: {line!r}")
        name, labels, value = sample.groups()
        key = (name, *re.findall(rf"{LABEL}={VALUE}", labels or ""))
        is_same(f"{key} stands once", key in found, False)
        is_same(f"samples of {name} stand together", name != last and any(other[0] == name for other in found), False)
        found[key], last = float(value), name
    for name in {key[0] for key in found}:
        is_same(f"{name} is explained", (name in helped, name in kinds), (True, True))
        is_same(f"{name} ends as its kind asks", name.endswith("_total") or name == "process_cpu_seconds_total", kinds[name] == "counter")
    return found


# ---- a client


def sent(address, request, size=1 << 20):
    """All that comes on a connection that sends this request."""
    with connect(address) as stream:
        with contextlib.suppress(ConnectionError):
            stream.sendall(request)
        return all_of(stream, size)


def all_of(stream, size=1 << 20):
    came = b""
    while len(came) < size:
        piece = stream.recv(65_536)
        if not piece:
            return came
        came += piece
    raise Wrong("an answer without end")


def parted(response):
    """The status, the head's lines and the body of a response."""
    head, _, body = response.partition(b"\r\n\r\n")
    first, *lines = head.decode().split("\r\n")
    fields = dict(line.split(": ", 1) for line in lines)
    is_same("the connection's end", fields.get("Connection"), "close")
    return int(first.split()[1]), fields, body


def page_at(address, request=GET):
    status, fields, body = parted(sent(address, request))
    is_same("status", status, 200)
    is_same("kind of text", fields["Content-Type"], "text/plain; version=0.0.4; charset=utf-8")
    is_same("length", int(fields["Content-Length"]), len(body))
    return body.decode()


class Place:
    """Addresses of a server and of its numbers."""

    def __init__(self, room, kind):
        self.room, self.kind = pathlib.Path(room), kind
        self.address = f"unix:{room}/socket" if kind == "a file" else f"127.0.0.1:{free_port()}"
        self.numbers = f"unix:{room}/numbers" if kind == "a file" else f"127.0.0.1:{free_port()}"

    def serving(self, programs, served, *words, **how):
        return serving(programs, self.address, "--stop-after", str(served), *ONE_THREAD, "--metrics", self.numbers, *words, **how)


def greeted(place, key=b"ka1"):
    stream = connect(place.address)
    stream.sendall(frame(HELLO, struct.pack(">H", len(key)) + key))
    return stream


def opening(opcode, name, rest):
    return frame(opcode, struct.pack(">H", len(name)) + name + rest)


# ---- cases


def life(place, stack):
    """Two sessions: root makes two queues, of which the second gets two messages, and a semaphore, and that queue's mode refuses Ann."""
    root, ann = (stack.enter_context(greeted(place, key)) for key in (b"r00t", b"ka1"))
    for stream in (root, ann):
        is_answer(stream, STARTED)
    for queue in QUEUES:
        root.sendall(opening(MQ_OPEN, queue, b"\3\1\1\x80\0"))
        description = is_answer(root, OPENED)
    for message in MESSAGES:
        root.sendall(frame(MQ_SEND, description + struct.pack(">I", 1) + message))
        is_answer(root, SENT)
    root.sendall(opening(SEM_OPEN, SEMAPHORE, b"\1\1\x80" + bytes(4)))
    is_answer(root, OPENED)
    ann.sendall(opening(MQ_OPEN, QUEUES[-1], b"\3\0\0\0\0"))
    is_answer(ann, REFUSED)
    return root, ann


def numbers_of_a_life(programs, place):
    """Each number is what the life before it made, and no name or message is told."""
    with place.serving(programs, 3) as server, contextlib.ExitStack() as stack:
        is_same("at first", count(samples_of(page_at(place.numbers)), "mqserve_records_total"), 0)
        clients = life(place, stack)
        with greeted(place, b"none") as nobody:
            is_answer(nobody, REFUSED)
        text = page_at(place.numbers)
        is_same("names and messages", "secret" in text, False)
        found = samples_of(text)
        wanted = {"mqserve_sessions": 2, "mqserve_connections": 2, 'mqserve_objects{family="mq"}': 2, 'mqserve_objects{family="sem"}': 1,
                  "mqserve_messages": 2, "mqserve_message_bytes": sum(map(len, MESSAGES)),
                  "mqserve_charged_bytes": 2 * (10 * (48 + 8_192) + 48 * 10), "mqserve_records_kept": 9,
                  "mqserve_records_total": 9, "mqserve_accepted_total": 7}
        for key, value in wanted.items():
            is_same(key, count(found, key), value)
        refused = {number: count_of_rule(found, number) for number in range(1, RULES + 1)}
        is_same("refusals", {number: n for number, n in refused.items() if n}, {MODE_DENIED: 1, BAD_KEY: 1})
        for key in ("mqserve_record_bytes", "mqserve_rounds_total", "process_resident_memory_bytes"):
            is_same(f"{key} above 0", count(found, key) > 0, True)
        for client in clients:
            client.close()
        ends(server, 3)


def numbers_of_what_is_forgotten(programs, place):
    """Where few records are kept, all that were made are counted."""
    with place.serving(programs, 1, "--keep-records", str(FEW_RECORDS)) as server:
        with greeted(place) as client:
            is_answer(client, STARTED)
            client.sendall(frame(UMASK, b"\0\0") * 2 * FEW_RECORDS)
            for _ in range(2 * FEW_RECORDS):
                is_answer(client, MASK)
            found = samples_of(page_at(place.numbers))
            wanted = {"mqserve_records_total": 2 * FEW_RECORDS + 1, "mqserve_accepted_total": 2 * FEW_RECORDS + 1,
                      "mqserve_records_kept": FEW_RECORDS}
            for key, value in wanted.items():
                is_same(key, count(found, key), value)
        ends(server, 1)


def numbers_behind_a_trail(programs, place):
    """A server that goes on with a trail counts its records among all, and verdicts from its start on."""
    trail = ["--trail-file", str(place.room / "trail")]
    with place.serving(programs, 3, *trail) as server, contextlib.ExitStack() as stack:
        life(place, stack)
        server.kill()
        server.wait()
    with place.serving(programs, 1, *trail) as server:
        found = samples_of(page_at(place.numbers))
        # The two sessions that lived hang up before anybody is served.
        wanted = {"mqserve_sessions": 0, "mqserve_connections": 0, 'mqserve_objects{family="mq"}': 2, 'mqserve_objects{family="sem"}': 1,
                  "mqserve_messages": 2, "mqserve_records_kept": 2, "mqserve_records_total": 10, "mqserve_accepted_total": 0}
        for key, value in wanted.items():
            is_same(key, count(found, key), value)
        refused = sum(count_of_rule(found, number) for number in range(1, RULES + 1))
        is_same("refusals", refused, 0)
        connect(place.address).close()
        ends(server, 1)


def count(found, key):
    name, _, labels = key.partition("{")
    return found[(name, *re.findall(rf"{LABEL}={VALUE}", labels))]


def count_of_rule(found, number):
    return sum(value for key, value in found.items() if key[0] == "mqserve_refused_total" and f'rule="{number}"' in key)


def other_requests(programs, place):
    """Whoever asks otherwise is told so, and is served nobody's page."""
    with place.serving(programs, 1) as server:
        whole = len(page_at(place.numbers, b"GET /metrics?a=b HTTP/1.0\r\n\r\n"))
        status, fields, body = parted(sent(place.numbers, GET.replace(b"GET", b"HEAD")))
        is_same("HEAD", (status, body), (200, b""))
        is_same("length of a HEAD is about that of the page", abs(int(fields["Content-Length"]) - whole) < 20, True)
        for request, wanted in ((b"GET / HTTP/1.1\r\n\r\n", 404), (GET.replace(b"GET", b"POST"), 405), (b"\0\1\2\r\n\r\n", 400),
                                (GET[:-2] + b"X: y\r\n" * 170_000 + b"\r\n", 431), (b"GET /" + b"a" * (1 << 20), 431)):
            status, fields, body = parted(sent(place.numbers, request))
            is_same(f"status of {request[:20]}", (status, len(body)), (wanted, int(fields["Content-Length"])))
            is_same("what is allowed", fields.get("Allow"), "GET, HEAD" if wanted == 405 else None)
        status, fields, body = parted(sent(place.numbers, b"HEAD / HTTP/1.1\r\n\r\n"))
        is_same("HEAD of another path", (status, body, int(fields["Content-Length"]) > 0), (404, b"", True))
        connect(place.address).close()
        ends(server, 1)


def in_pieces(programs, place):
    """A request that comes byte by byte is answered, and calls are meanwhile."""
    with place.serving(programs, 1) as server:
        with connect(place.numbers) as stream, greeted(place) as client:
            is_answer(client, STARTED)
            for at in range(len(GET)):
                stream.sendall(GET[at : at + 1])
                client.sendall(frame(UMASK, b"\0\0"))
                is_answer(client, MASK)
            is_same("status", parted(all_of(stream))[0], 200)
        ends(server, 1)


def silent_ones(programs, place):
    """Who sends nothing is in nobody's way: the first of them is closed where too many are open."""
    with place.serving(programs, 1) as server, contextlib.ExitStack() as stack:
        silent = [stack.enter_context(connect(place.numbers)) for _ in range(MOST_SCRAPERS)]
        for stream in silent[1:3]:
            stream.sendall(GET[:9])
        samples_of(page_at(place.numbers))
        is_same("the first is closed", all_of(silent[0]), b"")
        silent[-1].sendall(GET)
        is_same("the last is answered", parted(all_of(silent[-1]))[0], 200)
        connect(place.address).close()
        ends(server, 1)


def many_pages(programs, place):
    """A thousand pages take no more memory than a hundred, and leave no file open."""
    with place.serving(programs, 1) as server:
        found = []
        for pages in (100, 900):
            for _ in range(pages):
                page_at(place.numbers)
            found.append(count(samples_of(page_at(place.numbers)), "process_resident_memory_bytes"))
        is_same(f"no more than a tenth more than {found[0]:.0f} bytes", found[1] <= found[0] * 1.1, True)
        files = len(os.listdir(f"/proc/{server.pid}/fd"))
        is_same(f"{files} open files are few", files < 30, True)
        connect(place.address).close()
        ends(server, 1)


def ends_beside_others(programs, place):
    """A server ends though others go on connecting to its numbers: each that comes closes one before it, which lingers."""
    with place.serving(programs, 1) as server, contextlib.ExitStack() as stack:
        stop = threading.Event()

        def come():
            with contextlib.suppress(OSError):
                while not stop.wait(0.1):
                    stack.enter_context(connect(place.numbers))
        others = threading.Thread(target=come)
        others.start()
        try:
            time.sleep(2)
            connect(place.address).close()
            ends(server, 1)
        finally:
            stop.set()
            others.join()


def without_files(programs, place):
    """Who asked while there were no files is answered once there are some."""
    with place.serving(programs, FEW_FILES, files=FEW_FILES) as server, contextlib.ExitStack() as stack:
        clients = []
        for _ in range(FEW_FILES):
            clients.append(stack.enter_context(connect(place.address)))
        time.sleep(0.5)
        with connect(place.numbers) as asking:
            asking.sendall(GET)
            time.sleep(0.5)
            for client in clients:
                client.close()
            is_same("status", parted(all_of(asking))[0], 200)
        ends(server, FEW_FILES)


def file_and_its_end(programs, place):
    """The file at which numbers are shown is the server's user's alone, and goes at the end."""
    with place.serving(programs, 1) as server:
        path = place.numbers[len("unix:") :]
        is_same("mode", stat.S_IMODE(os.lstat(path).st_mode), 0o600)
        connect(place.address).close()
        ends(server, 1)
    is_same("what is left", sorted(os.listdir(place.room)), [])


def in_use(programs, place):
    """Where the numbers' address is in use nothing is served, and nothing is left."""
    with contextlib.ExitStack() as stack:
        if place.kind == "a file":
            (place.room / "numbers").write_text("")
        else:
            stack.enter_context(socket.create_server(("127.0.0.1", int(place.numbers.rsplit(":", 1)[1]))))
        before = sorted(os.listdir(place.room))
        command = programs.command("mqserve", ["serve", str(USERS), place.address, *ONE_THREAD, "--metrics", place.numbers])
        ended = subprocess.run(command, stdout=subprocess.PIPE, stderr=subprocess.PIPE, timeout=SECONDS)
        is_same("fault and status", (ended.stdout, ended.stderr, ended.returncode), (b"", b"mqserve: net\n", 4))
        is_same("what is left", sorted(os.listdir(place.room)), before)


def told_to_the_log(programs, place):
    """The log has a line of numbers a second after something was recorded, and none while nothing is."""
    log = place.room / "log"
    with place.serving(programs, 2, "--log", str(log), "--stats", "1") as server, contextlib.ExitStack() as stack:
        clients = life(place, stack)
        time.sleep(3.5)
        lines = [line for line in log.read_text().splitlines() if "event=kept" in line]
        # The life may have been in two seconds.
        is_same("how many lines", 1 <= len(lines) <= 2, True)
        wanted = r"time=\d{13} event=kept records=8 bytes=\d+ sessions=2 connections=2 objects=3 messages=2 resident=\d+"
        is_same(f"the line {lines[-1]}", bool(re.fullmatch(wanted, lines[-1])), True)
        for client in clients:
            client.close()
        ends(server, 2)


CASES = {
    "numbers of a life": numbers_of_a_life,
    "numbers of what is forgotten": numbers_of_what_is_forgotten,
    "numbers behind a trail": numbers_behind_a_trail,
    "other requests": other_requests,
    "a request in pieces": in_pieces,
    "clients that send nothing": silent_ones,
    "many pages": many_pages,
    "an end beside others": ends_beside_others,
    "no files": without_files,
    "an address that is in use": in_use,
    "numbers in the log": told_to_the_log,
}
AT_A_FILE = {"the file's mode and its end": file_and_its_end}


def judged(programs, case, kind):
    """Returns what is other than it must be, or nothing."""
    with tempfile.TemporaryDirectory() as room:
        try:
            case(programs, Place(room, kind))
        except (Wrong, OSError, subprocess.TimeoutExpired) as fault:
            return f"{type(fault).__name__}: {fault}"
    return ""


def main():
    programs = programs_given(__doc__)
    cases = [(what, case, kind) for what, case in CASES.items() for kind in ("TCP", "a file")]
    cases += [(what, case, "a file") for what, case in AT_A_FILE.items()]
    failed = 0
    for what, case, kind in cases:
        difference = judged(programs, case, kind)
        failed += bool(difference)
        print(f"numbers: {what}, over {kind}: {difference or 'as it must be'}", flush=True)
    print(f"{len(cases) - failed} as they must be, {failed} not")
    return 1 if failed else 0


if __name__ == "__main__":
    sys.exit(main())
