#!/usr/bin/env python3
"""Queues in Python's selectors, by the C library's calls: each kind of selector, several queues, messages that come from children, a full
queue, and asyncio. It prints a line an outcome, and the same lines on the kernel's queues as on a server."""
import asyncio
import ctypes
import os
import selectors
import time

C = ctypes.CDLL(None, use_errno=True)
C.mq_receive.restype = ctypes.c_ssize_t
NAMES = [b"/selectors%d" % number for number in range(3)]


class Attributes(ctypes.Structure):
    _fields_ = [(name, ctypes.c_long) for name in ("flags", "maxmsg", "msgsize", "curmsgs", "a", "b", "c", "d")]


def check(result):
    if result < 0:
        raise OSError(ctypes.get_errno(), os.strerror(ctypes.get_errno()))
    return result


def open_queue(name):
    attributes = Attributes(maxmsg=4, msgsize=16)
    return check(C.mq_open(name, os.O_RDWR | os.O_CREAT | os.O_NONBLOCK, 0o600, ctypes.byref(attributes)))


def send(queue, text):
    return check(C.mq_send(queue, text, ctypes.c_size_t(len(text)), 0))


def receive(queue):
    room = ctypes.create_string_buffer(16)
    size = check(C.mq_receive(queue, room, ctypes.c_size_t(16), None))
    return room.raw[:size]


def later(call, *words):
    """A child that waits a while and makes a call."""
    if os.fork() == 0:
        time.sleep(0.1)
        try:
            call(*words)
        finally:
            os._exit(0)


def select_all(kind, queues):
    with kind() as selector:
        for number, queue in enumerate(queues):
            selector.register(queue, selectors.EVENT_READ, number)
        print("empty:", selector.select(0))
        later(send, queues[1], b"one")
        print("ready:", [key.data for key, _ in selector.select(5)])
        print("received:", receive(queues[1]))
        os.wait()
        later(send, queues[2], b"two")
        print("ready:", [key.data for key, _ in selector.select()])
        print("received:", receive(queues[2]))
        os.wait()
        print("empty:", selector.select(0.05))
        for _ in range(4):
            send(queues[0], b"x")
        selector.modify(queues[0], selectors.EVENT_WRITE, "room")
        print("full:", selector.select(0.05))
        later(receive, queues[0])
        print("ready:", [key.data for key, _ in selector.select(5)])
        os.wait()
        for _ in range(3):
            receive(queues[0])
        selector.unregister(queues[0])


async def receive_by_loop(queue):
    loop, came = asyncio.get_running_loop(), asyncio.Event()
    loop.add_reader(queue, came.set)
    later(send, queue, b"awaited")
    await asyncio.wait_for(came.wait(), 5)
    loop.remove_reader(queue)
    return receive(queue)


def main():
    queues = [open_queue(name) for name in NAMES]
    for kind in (selectors.SelectSelector, selectors.PollSelector, selectors.EpollSelector):
        print(kind.__name__)
        select_all(kind, queues)
    print("asyncio:", asyncio.run(receive_by_loop(queues[0])))
    os.wait()
    for queue, name in zip(queues, NAMES):
        check(C.mq_close(queue))
        check(C.mq_unlink(name))


if __name__ == "__main__":
    main()
