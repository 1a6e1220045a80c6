"""Sockets to the addresses of servers."""
from __future__ import annotations

import errno
import math
import os
import pwd
import select
import socket
import struct
import time
import weakref
from typing import Any, List, Optional, Tuple

from ._errors import BusyError, Error

NO_SIGNAL = getattr(socket, "MSG_NOSIGNAL", 0)      # where a program has set SIGPIPE to its default, which ends it
NO_WORKER = "the server has no free worker, or doesn't answer"

sockets: "weakref.WeakSet[socket.socket]" = weakref.WeakSet()   # all, since others may fork while a thread connects
OWN = "unix-user:"


def own_path(place: str) -> str:
    """The socket of the process's user: in a folder it has the user's name, and anything else is the socket itself."""
    if not os.path.isdir(place):
        return place
    try:
        return os.path.join(place, pwd.getpwuid(os.getuid()).pw_name)
    except KeyError:
        raise Error(f"user {os.getuid()} has no passwd entry, so unix-user: needs the path of a socket") from None


def path_of(address: str) -> Optional[str]:
    """The path of a Unix-domain socket, or None where the address is a host and a port."""
    if address.startswith(OWN):
        return own_path(address[len(OWN):])
    return address[5:] if address.startswith("unix:") else None


def place_of(address: str) -> Tuple[str, int]:
    host, colon, port = address.rpartition(":")
    if not colon or not port.isdigit():
        raise ValueError("the address must be HOST:PORT, unix:PATH or unix-user:PATH")
    return host.strip("[]"), int(port)


def dial(address: str, seconds: float) -> socket.socket:
    path = path_of(address)
    if path is not None:
        return dial_path(path, seconds)
    dialled = socket.create_connection(place_of(address), seconds)
    sockets.add(dialled)
    prepare(dialled)
    return dialled


def prepare(dialled: socket.socket) -> None:
    """Small frames leave at once. A server's machine that vanished is found while a call waits, as the server finds a client's: after two
    minutes."""
    if is_own_end(dialled):
        dialled.close()
        raise ConnectionRefusedError(errno.ECONNREFUSED, os.strerror(errno.ECONNREFUSED))
    dialled.setsockopt(socket.IPPROTO_TCP, socket.TCP_NODELAY, 1)
    dialled.setsockopt(socket.SOL_SOCKET, socket.SO_KEEPALIVE, 1)
    for option, value in (("TCP_KEEPIDLE", 60), ("TCP_KEEPINTVL", 10), ("TCP_KEEPCNT", 6)):
        if hasattr(socket, option):     # else the system's own
            dialled.setsockopt(socket.IPPROTO_TCP, getattr(socket, option), value)


def is_own_end(dialled: socket.socket) -> bool:
    """A connect to a port of this machine at which nobody listens may get that port for its own end, and is then connected to itself."""
    try:
        return bool(dialled.getsockname() == dialled.getpeername())
    except OSError:     # it has ended already
        return False


def dial_path(path: str, seconds: float) -> socket.socket:
    """Where many connections wait already, a connect to a path waits as long as a send may."""
    dialled = socket.socket(socket.AF_UNIX)
    sockets.add(dialled)
    end = time.monotonic() + seconds
    try:
        dialled.settimeout(None)    # whatever socket.setdefaulttimeout says
        dialled.setsockopt(socket.SOL_SOCKET, socket.SO_SNDTIMEO, struct.pack("ll", int(seconds), int(seconds % 1 * 1e6)))
        while not is_connected(dialled, path):
            if time.monotonic() >= end:
                raise BlockingIOError
        dialled.setsockopt(socket.SOL_SOCKET, socket.SO_SNDTIMEO, bytes(struct.calcsize("ll")))
    except BlockingIOError:
        dialled.close()
        raise BusyError(NO_WORKER) from None
    except BaseException:
        dialled.close()
        raise
    return dialled


def is_connected(dialled: socket.socket, path: str) -> bool:
    """Connects. False where a signal's handler ran meanwhile, since Python takes the connect for made then."""
    dialled.connect(path)
    try:
        dialled.getpeername()
    except OSError:
        return False
    return True


def readable(connected: List[Any], seconds: Optional[float]) -> List[int]:
    """The files at which something comes in time. By poll, since select knows no file from number 1,024 on."""
    poll = select.poll()
    for one in connected:
        poll.register(one, select.POLLIN)
    return [file for file, _ in poll.poll(None if seconds is None else math.ceil(seconds * 1000))]


def pair() -> Optional[Tuple[socket.socket, socket.socket]]:
    """Two ends by which a thread wakes another one, or None where no more files may be open."""
    try:
        ends = socket.socketpair()
    except OSError:
        return None
    for end in ends:
        end.setblocking(False)
        sockets.add(end)
    return ends


def is_here(connected: socket.socket) -> bool:
    """Whether the peer is on this machine: a Unix-domain socket, or a loopback address."""
    if connected.family == socket.AF_UNIX:
        return True
    try:
        host = connected.getpeername()[0]
    except OSError:
        return False
    return host == "::1" or host.startswith(("127.", "::ffff:127."))
