"""fuzzed.py SEED TAG: calls of mqserve.py, as a seed draws them, to a server whose answers are disturbed on their way. Each ends in time, and
with an error that has a name where it fails; and no file of the program's own is touched. MQSERVE is the server."""
import os
import random
import signal
import socket
import sys
import threading
import time
import traceback

import mqserve
from short_waits import shorten

CALLS, LONGEST_S, BOUND_S, OWN, ROOM = 200, 1.2, 8, 6, 64
draw = random.Random(sys.argv[1])
tag = sys.argv[2]
findings, served, failed = [], 0, 0
own = []


def find(what):
    findings.append(what)
    print(f"found: {what}", flush=True)


def open_own():
    ends = socket.socketpair()
    own.append([(end, os.fstat(end.fileno())) for end in ends])


def close_own(pair):
    for end, _ in pair:
        try:
            end.close()
        except OSError as error:
            find(f"the program's own file {end}: {error}")


def check_own(call):
    """The program's own files are open, the same, and nobody wrote to them."""
    for end, then in sum(own, []):
        try:
            if not os.path.samestat(os.fstat(end.fileno()), then):
                find(f"{call}: another file in the place of the program's own")
            end.recv(1, socket.MSG_DONTWAIT | socket.MSG_PEEK)
            find(f"{call}: wrote to a file of the program's own, or shut it down")
        except BlockingIOError:
            pass
        except OSError as error:
            find(f"{call}: a file of the program's own: {error}")


def has_name(error):
    """Whether it is an error that the module's page names."""
    if isinstance(error, (ValueError, OSError)):
        return getattr(error, "rule", 0) != 0 or isinstance(error, (ConnectionError, TimeoutError, socket.timeout))
    return isinstance(error, mqserve.Error)


def attempt(name, call):
    """The call's outcome, or None where it failed."""
    global served, failed
    began, outcome = time.monotonic(), None
    try:
        outcome = call()
        served += 1
    except Exception as error:  # noqa: B902
        failed += 1
        if not has_name(error):
            find(f"{name}: {''.join(traceback.format_exception(type(error), error, error.__traceback__))}")
    if time.monotonic() - began > BOUND_S:
        find(f"{name}: {time.monotonic() - began:.1f} s")
    check_own(name)
    if signal.pthread_sigmask(signal.SIG_BLOCK, ()) != mask_at_first:
        find(f"{name}: left the mask of signals changed")
    return outcome


def flags():
    return mqserve.O_CREAT | (0 if draw.randrange(4) else mqserve.O_EXCL)


def open_queue():
    return attempt("MessageQueue", lambda: mqserve.MessageQueue(f"/{tag}-queue", flags(), max_messages=3, max_message_size=ROOM))


def open_semaphore():
    return attempt("Semaphore", lambda: mqserve.Semaphore(f"/{tag}-semaphore", mqserve.O_CREAT, initial_value=draw.randrange(3)))


def receive(queue, timeout):
    message, priority = queue.receive(timeout)
    if len(message) > ROOM and queue.max_message_size == ROOM:
        find(f"a message of {len(message)} bytes")
    return message, priority


def call(queue, semaphore):
    """A call by chance of what is open."""
    timeout = draw.random() * 0.03
    of_queue = {
        "send": lambda: queue.send(b"message"[:draw.randrange(8)], timeout, draw.randrange(9)),
        "receive": lambda: receive(queue, timeout),
        "current_messages": lambda: queue.current_messages,
        "request_notification": lambda: queue.request_notification(draw.choice((None, signal.SIGUSR1, (print, "")))),
        "unlink": queue.unlink if queue and not draw.randrange(4) else lambda: None,
        "close": queue.close if queue and not draw.randrange(4) else lambda: None,
    } if queue else {}
    of_semaphore = {
        "acquire": lambda: semaphore.acquire(timeout),
        "release": lambda: semaphore.release(),
        "value": lambda: semaphore.value,
    } if semaphore else {}
    every = {**of_queue, **of_semaphore}
    if every:
        name = draw.choice(sorted(every) + ["send", "receive", "receive"] * bool(queue))
        attempt(name, every[name])


def hurry():
    """Ends of waits that let many calls be made, and threads whose faults are seen."""
    shorten(ANSWER_S=0.1, HELLO_S=0.3, SIDE_S=0.3, LATE_S=0.3, LAST_S=0.6)
    threading.excepthook = lambda thrown: find(f"a thread: {thrown.exc_type.__name__}: {thrown.exc_value}")
    sys.unraisablehook = lambda thrown: find(f"unraisable: {thrown.exc_type.__name__}: {thrown.exc_value}")
    signal.signal(signal.SIGUSR1, lambda *_: None)


hurry()
mask_at_first = signal.pthread_sigmask(signal.SIG_BLOCK, ())
for _ in range(OWN):
    open_own()
start, queue, semaphore = time.monotonic(), None, None
for _ in range(CALLS):
    if time.monotonic() - start > LONGEST_S:
        break
    if draw.randrange(3) == 0:
        close_own(own.pop(draw.randrange(OWN)))
        open_own()
    if queue is None or draw.randrange(12) == 0:
        queue = open_queue()
    if semaphore is None or draw.randrange(12) == 0:
        semaphore = open_semaphore()
    call(queue, semaphore)
print(f"calls: {served} served, {failed} failed, {len(findings)} findings", flush=True)
sys.exit(bool(findings))
