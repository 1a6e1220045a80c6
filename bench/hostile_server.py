"""The server that hostile.py and its parts set clients on, and what they print of it."""

import contextlib
import ctypes
import os
import random
import resource
import signal
import socket
import subprocess
import time
from pathlib import Path
from typing import NamedTuple, Optional

from hostile_client import HOST, SECONDS, USERS, Passed, Wrong, fresh

# Two workers serve the pair, and the others hostile clients.
WORKERS = 8
FREE = WORKERS - 2

# A server is to serve so many more than are planned; fresh clients come for the rest.
SPARE = 10

# What the server keeps on one thread of frames that aren't whole.
MOST_UNFINISHED = 2**26


class Server(NamedTuple):
    process: subprocess.Popen
    port: int
    output: Path
    faults: Path
    log: Path
    stop_after: Optional[int]

    def status(self, name):
        for line in Path(f"/proc/{self.process.pid}/status").read_text().splitlines():
            word, value = line.split(":", 1)
            if word == name:
                return int(value.split()[0])
        raise Wrong(f"the kernel doesn't tell the server's {name}")

    def memory(self):
        """In MiB."""
        return self.status("VmRSS") / 1024

    def peak(self):
        return self.status("VmHWM") / 1024

    def forget_peak(self):
        with contextlib.suppress(OSError):
            Path(f"/proc/{self.process.pid}/clear_refs").write_text("5")

    def cost(self, before):
        """Since there was so much memory."""
        more = f"{self.memory() - before:.1f} MiB more"
        return f"{more}; {self.files()} files and {self.status('Threads')} threads in all"

    def files(self):
        return len(os.listdir(f"/proc/{self.process.pid}/fd"))

    def processor_seconds(self):
        # The name, in brackets, may have spaces.
        fields = Path(f"/proc/{self.process.pid}/stat").read_text().rpartition(")")[2].split()
        return (int(fields[11]) + int(fields[12])) / os.sysconf("SC_CLK_TCK")


class Setup(NamedTuple):
    program: Path
    room: Path
    is_short: bool
    # All connections on one thread, in place of workers.
    is_one_thread: bool
    dice: random.Random
    # Each fault of a malformed stream, how many streams had it, and how many answers came before the hang-up.
    faults: list

    def count(self, whole):
        return max(1, whole // 100) if self.is_short else whole

    def pause(self):
        """While others do their work."""
        time.sleep(0.2 if self.is_short else 2)


def free_port():
    with socket.socket() as probe:
        probe.bind((HOST, 0))
        return probe.getsockname()[1]


def limits_of(files):
    """What the server's process does before it starts: it ends with this one, and opens so many files at most."""
    libc = ctypes.CDLL(None)

    def limit():
        libc.prctl(1, signal.SIGKILL)  # PR_SET_PDEATHSIG
        if files:
            resource.setrlimit(resource.RLIMIT_NOFILE, (files, files))

    return limit


@contextlib.contextmanager
def serving(setup, stop_after=None, workers=WORKERS, files=None, is_logged=False):
    """The server as a process, which is ended by its id."""
    port, users = free_port(), setup.room / "users"
    output, faults, log = (setup.room / f"{port}.{kind}" for kind in ("out", "err", "log"))
    users.write_text(USERS)
    words = [setup.program, "serve", users, f"{HOST}:{port}"]
    words += ["--one-thread"] if setup.is_one_thread else ["--workers", str(workers)]
    words += ["--log", log] if is_logged else []
    if stop_after:
        words += ["--stop-after", str(stop_after)]
    with output.open("w") as out, faults.open("w") as err:
        process = subprocess.Popen(words, stdin=subprocess.DEVNULL, stdout=out, stderr=err, preexec_fn=limits_of(files))
    try:
        wait_until(lambda: output.read_text().endswith("\n") or process.poll() is not None, "the server doesn't start")
        yield Server(process, port, output, faults, log, stop_after)
    except (Wrong, OSError) as fault:
        if process.poll() is None:
            raise
        raise Wrong(f"{fault}; the server has ended, status {process.returncode}: {faults.read_text()}") from fault
    finally:
        process.kill()
        process.wait()


def wait_until(is_so, otherwise):
    start = time.monotonic()
    while not is_so():
        if time.monotonic() - start > SECONDS:
            raise Wrong(otherwise)
        time.sleep(0.01)


def serve_to_the_end(server, part):
    """Fresh clients come until the server has served as many as it is to serve. Then it must have ended by itself."""
    count, why = 0, "they were all served"
    while count <= server.stop_after:
        try:
            fresh(server.port)
        except (OSError, Wrong) as fault:
            why = fault
            break
        count += 1
    try:
        status = server.process.wait(SECONDS)
    except subprocess.TimeoutExpired:
        raise Wrong(f"no end after {count} fresh clients: {why}") from None
    last = server.output.read_text().splitlines()[-1]
    if not count or status or last != f"served {server.stop_after}":
        raise Wrong(f"{count} fresh clients, status {status}, {last}")
    print(f"{part}: {last}, of them {count} fresh clients at the end; status 0", flush=True)


class Row(NamedTuple):
    """Of the first table; memory in MiB."""

    clients: str
    outcome: str
    passed: Optional[Passed] = None
    before: float = 0
    peak: float = 0


def measured(server, pair, clients, work):
    """What the pair passes, and how much memory the server takes, while the hostile clients do their work."""
    server.forget_peak()
    before = server.memory()
    pair.pipe.send("pass")
    outcome = work() or "–"
    pair.pipe.send("stop")
    passed = pair.told()
    return Row(clients, outcome, passed, before, server.peak())
