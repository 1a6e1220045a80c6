"""relay.py: stands between clients and a server, notes the opcode of each request, and may make the server's clock seem to be another, or
have a send overtake an Interrupt."""
import contextlib
import socket
import threading
import time

SEND, INTERRUPT, SENT = 6, 23, b"\0\0\0\1F"
HELD_S, HELD_BACK_S = 10, 0.3
DEADLINE_AT = {26: 13, 27: 13, 28: 9}   # in the bodies of requests that have one


def connect(address):
    """Connects to HOST:PORT or unix:PATH."""
    if address.startswith("unix:"):
        connected = socket.socket(socket.AF_UNIX)
        connected.connect(address[5:])
        return connected
    host, port = address.rsplit(":", 1)
    connected = socket.create_connection((host, int(port)))
    connected.setsockopt(socket.IPPROTO_TCP, socket.TCP_NODELAY, 1)
    return connected


def own_address():
    """An address of this machine that isn't a loopback one, or None where it has none."""
    with socket.socket(socket.AF_INET, socket.SOCK_DGRAM) as probe:
        try:
            probe.connect(("192.0.2.1", 9))   # sends nothing
        except OSError:
            return None
        return probe.getsockname()[0]


class Relay:
    """Passes on what comes to `address`, which is of `host`. `ahead`: by how many milliseconds the server's clock seems to be ahead.
    `overtake`: a send waits for an Interrupt, and that waits until the send was answered. `holding`: calls, of which each is made as an
    answer comes that is held back then. `flowing`: while it isn't set nothing is passed on, as by a server that stands still.
    `linger`: so many seconds after one end's end the other one learns of it."""

    def __init__(self, server, host="127.0.0.1", ahead=0, overtake=False, port=0):
        self.server, self.ahead, self.overtake, self.holding, self.requests, self.ends = server, ahead, overtake, [], [], []
        self.interrupted, self.sent = threading.Event(), threading.Event()
        self.flowing, self.linger = threading.Event(), 0.0
        self.flowing.set()
        self.listener = socket.create_server((host, port), backlog=128)
        self.address = "%s:%d" % self.listener.getsockname()
        threading.Thread(target=self.accept, daemon=True).start()

    def accept(self):
        with contextlib.suppress(OSError):
            while True:
                client = self.listener.accept()[0]
                client.setsockopt(socket.IPPROTO_TCP, socket.TCP_NODELAY, 1)
                server = connect(self.server)
                self.ends += [client, server]
                for way, ends in ((self.pass_requests, (client, server)), (self.pass_answers, (server, client))):
                    threading.Thread(target=self.run, args=(way, *ends), daemon=True).start()

    def run(self, way, source, target):
        with contextlib.suppress(OSError):   # as where the other end is closed
            way(source, target)
            time.sleep(self.linger)
            target.shutdown(socket.SHUT_RDWR)

    def pass_requests(self, source, target):
        stream = source.makefile("rb")
        while True:
            head = stream.read(4)
            body = stream.read(int.from_bytes(head, "big"))
            if not body:
                return
            self.requests.append(body[0])
            if self.overtake:
                self.hold(body[0])
            self.flowing.wait()
            target.sendall(head + self.shifted(body))

    def shifted(self, body):
        """The request as a server gets it whose clock shows that much less when the deadline comes."""
        at = DEADLINE_AT.get(body[0])
        if at is None or not self.ahead:
            return body
        deadline = int.from_bytes(body[at:at + 8], "big") - self.ahead
        return body[:at] + min(max(deadline, 0), (1 << 64) - 1).to_bytes(8, "big") + body[at + 8:]

    def hold(self, opcode):
        if opcode == SEND:
            self.interrupted.wait(HELD_S)
        if opcode == INTERRUPT:
            self.interrupted.set()
            self.sent.wait(HELD_S)

    def pass_answers(self, source, target):
        piece = source.recv(65536)
        while piece:
            if SENT in piece:
                self.sent.set()
            if self.holding:
                self.holding.pop(0)()
                time.sleep(HELD_BACK_S)
            self.flowing.wait()
            target.sendall(piece)
            piece = source.recv(65536)

    def close(self):
        self.flowing.set()
        with contextlib.suppress(OSError):
            self.listener.shutdown(socket.SHUT_RDWR)
        self.listener.close()
        for end in self.ends:
            with contextlib.suppress(OSError):
                end.shutdown(socket.SHUT_RDWR)      # a stream of another thread keeps it open
            end.close()
