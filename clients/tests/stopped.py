"""stopped.py [CALL TAG]: a call of mqserve.py to a server that stops or ends once this program has said `ready` and got a line. It prints the
outcome. TAG stands in the names. Without a call it prints what calls there are."""
import sys

import mqserve
from short_waits import shorten

shorten(ANSWER_S=0.3, HELLO_S=0.5, SIDE_S=0.3, LATE_S=0.3, LAST_S=0.6)

# What the page of the module names; an error may be of a kind of its own among these.
KINDS = (mqserve.ConnectionLost, mqserve.BusyError, ConnectionRefusedError, ConnectionAbortedError)


def calls(tag, empty, full, semaphore):
    """Each call by its name."""
    return {
        "MessageQueue": lambda: mqserve.MessageQueue(f"/{tag}-empty"),
        "MessageQueue of a new one": lambda: mqserve.MessageQueue(f"/{tag}-new", mqserve.O_CREAT),
        "close": lambda: empty.close(),
        "unlink": lambda: empty.unlink(),
        "unlink_message_queue": lambda: mqserve.unlink_message_queue(f"/{tag}-full"),
        "current_messages": lambda: empty.current_messages,
        "request_notification": lambda: empty.request_notification(10),
        "send": lambda: empty.send(b"x"),
        "send that waits": lambda: full.send(b"x", timeout=1),
        "receive": lambda: full.receive(),
        "receive that waits": lambda: empty.receive(timeout=1),
        "Semaphore": lambda: mqserve.Semaphore(f"/{tag}-new", mqserve.O_CREAT),
        "close of a semaphore": lambda: semaphore.close(),
        "unlink of a semaphore": lambda: semaphore.unlink(),
        "release": lambda: semaphore.release(),
        "acquire": lambda: semaphore.acquire(timeout=0),
        "acquire that waits": lambda: semaphore.acquire(timeout=1),
        "value": lambda: semaphore.value,
    }


def new_ones(tag):
    """An empty queue, a full one and a semaphore of 0."""
    for unlink, name in ((mqserve.unlink_message_queue, f"/{tag}-empty"), (mqserve.unlink_message_queue, f"/{tag}-full"),
                         (mqserve.unlink_semaphore, f"/{tag}")):
        try:
            unlink(name)
        except mqserve.ExistentialError:
            pass
    empty, full = (mqserve.MessageQueue(name, mqserve.O_CREX, max_messages=1, max_message_size=16) for name in (f"/{tag}-empty", f"/{tag}-full"))
    full.send(b"full")
    return empty, full, mqserve.Semaphore(f"/{tag}", mqserve.O_CREX)


if len(sys.argv) < 2:
    print("\n".join(calls(None, None, None, None)))
    sys.exit()
asked = calls(sys.argv[2], *new_ones(sys.argv[2]))[sys.argv[1]]
print("ready", flush=True)
sys.stdin.readline()
try:
    asked()
    print("served")
except (mqserve.Error, OSError) as error:
    print(next((kind.__name__ for kind in KINDS if isinstance(error, kind)), type(error).__name__))
