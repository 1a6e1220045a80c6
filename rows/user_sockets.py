#!/usr/bin/env python3
"""Runs the built server over a folder with a socket for each user, as root, and connects there as users whose IDs no account has.
Prints a line for each case and a last line with the counts; the status is 1 where one is not as it must be.

`--programs FOLDER` takes `mqserve` and `mqctl` from there, and `--calls COMMAND` puts words in front of each."""

import contextlib
import os
import pathlib
import re
import resource
import shutil
import signal
import socket
import stat
import struct
import subprocess
import sys
import tempfile

sys.dont_write_bytecode = True
import servers  # noqa: E402
from calls import MQ_OPEN, MQ_RECEIVE, MQ_SEND, UMASK, frame  # noqa: E402
from servers import (HELLO, MASK, ONE_THREAD, OPENED, RECEIVED, REFUSED, SECONDS, SENT, STARTED, Wrong, connect, ends, is_answer,  # noqa: E402
                     is_same, leave_behind, serving)

ANN, BOB, EVE = 61101, 61102, 61103
USERS = {"root": 0, "ann": ANN, "bob": BOB}
MODE_DENIED = 15
FLOOD, LEFT_OVER = 200, 20
FEW_FILES, MANY_USERS = 24, 40
LONGEST_PATH = 107


class Folder:
    """A folder for sockets, and a user file beside it."""

    def __init__(self, room, users=None, name="sockets"):
        room = pathlib.Path(room)
        room.chmod(0o711)  # users pass through, to what they may open
        self.path, self.users = room / name, room / "users"
        self.path.mkdir()
        self.path.chmod(0o755)
        self.write(USERS if users is None else users)

    def write(self, users):
        self.users.write_text("".join(f"{name}:k{at}:{uid}:{uid}::\n" for at, (name, uid) in enumerate(users.items())))

    @property
    def address(self):
        return f"unix-users:{self.path}"

    def socket(self, name):
        return f"unix:{self.path / name}"

    def files(self):
        return sorted(os.listdir(self.path))

    def serving(self, programs, *words, **how):
        return serving(programs, self.address, *ONE_THREAD, *words, users=self.users, **how)

    def fails(self, programs, *words, fault=b"mqserve: net\n", status=4, prepare=None, address=None, one_thread=True):
        """A server that doesn't start, and leaves the folder as it was."""
        before = self.files()
        command = programs.command("mqserve", ["serve", str(self.users), address or self.address, "--stop-after", "0",
                                               *(ONE_THREAD if one_thread else []), *words])
        ended = subprocess.run(command, stdout=subprocess.PIPE, stderr=subprocess.PIPE, timeout=SECONDS, preexec_fn=prepare)
        is_same("fault", ended.stderr[:len(fault)], fault)
        is_same("status", ended.returncode, status)
        is_same("files", self.files(), before)


@contextlib.contextmanager
def acting_as(uid):
    """Files are opened as this user."""
    os.setegid(uid)
    os.seteuid(uid)
    try:
        yield
    finally:
        os.seteuid(0)
        os.setegid(0)


def join(folder, name, uid=None):
    """The user's connection at the socket of this name, by default its own."""
    with acting_as(USERS[name] if uid is None else uid):
        return connect(folder.socket(name))


def begun(folder, name, uid=None):
    """The same once the server has started its session."""
    stream = join(folder, name, uid)
    is_answer(stream, STARTED)
    return stream


def facts(path):
    found = os.lstat(path)
    return stat.S_ISSOCK(found.st_mode), stat.S_IMODE(found.st_mode), found.st_uid, found.st_gid


# ---- cases


def each_has_its_own(programs, folder):
    """Each user has a socket, which is its own whatever the mask is; nobody else opens it but root; nothing is left at the end."""
    for mask in (0o022, 0o777, 0):
        log = folder.path.parent / "log"
        with folder.serving(programs, "--stop-after", "3", "--log", str(log), mask=mask) as server:
            is_same("files", folder.files(), [".lock", "ann", "bob", "root"])
            for name, uid in USERS.items():
                is_same(f"socket, mode and owner of {name}", facts(folder.path / name), (True, 0o600, uid, uid))
            is_same("the lock", facts(folder.path / ".lock"), (False, 0o600 & ~mask, 0, 0))
            for name, uid in (("ann", BOB), ("bob", ANN), ("root", ANN), ("ann", EVE)):
                with contextlib.suppress(PermissionError):
                    join(folder, name, uid).close()
                    raise Wrong(f"{uid} connects at the socket of {name}")
            for name in ("bob", "ann"):
                begun(folder, name).close()
            with connect(folder.socket("ann")) as stream:
                is_answer(stream, STARTED)
            ends(server, 3)
        is_same("files", folder.files(), [])
        found = re.findall(r"event=hello connection=(\d) user=(\d+)", log.read_text())
        is_same("who was greeted", sorted(found), [("0", str(BOB)), ("1", str(ANN)), ("2", str(ANN))])
        log.unlink()


def two_share_a_queue(programs, folder):
    """One user makes a queue and sends; another receives, and may not send."""
    with folder.serving(programs, "--stop-after", "2") as server:
        with begun(folder, "ann") as ann, begun(folder, "bob") as bob:
            ann.sendall(frame(MQ_OPEN, b"\0\5/jobs\2\1\1\xa4\0") + frame(MQ_SEND, struct.pack(">QI", 0, 5) + b"hi"))
            is_answer(ann, OPENED)
            is_answer(ann, SENT)
            bob.sendall(frame(MQ_OPEN, b"\0\5/jobs\2\0\0\0\0") + frame(MQ_OPEN, b"\0\5/jobs\1\0\0\0\0"))
            is_same("rule", is_answer(bob, REFUSED), struct.pack(">H", MODE_DENIED))
            description = is_answer(bob, OPENED)
            bob.sendall(frame(MQ_RECEIVE, description + struct.pack(">I", 8192)))
            is_same("message", is_answer(bob, RECEIVED), struct.pack(">I", 5) + b"hi")
        ends(server, 2)


def hello_all_the_same(programs, folder):
    """A hello is a fault where the server has said it: the one that was sent is the second."""
    log = folder.path.parent / "log"
    with folder.serving(programs, "--stop-after", "1", "--log", str(log)) as server:
        with join(folder, "ann") as stream:
            stream.sendall(frame(HELLO, b"\0\2k1") + frame(UMASK, b"\0\0"))
            is_answer(stream, STARTED)
            is_same("the end", stream.recv(1), b"")
        ends(server, 1)
    is_same("how it ended", re.findall("ending=.*", log.read_text()), ["ending=Wire fault=BadOpcode"])


def requests_at_once(programs, folder):
    """What a client sends before it reads anything is stepped behind the hello, byte by byte too, also where it leaves at once."""
    with folder.serving(programs, "--stop-after", "4") as server:
        with join(folder, "ann") as stream:
            stream.sendall(frame(UMASK, b"\0\0") * 2)
            is_answer(stream, STARTED)
            is_same("masks", [is_answer(stream, MASK), is_answer(stream, MASK)], [b"\0\x12", b"\0\0"])
        with join(folder, "ann") as stream:
            for byte in frame(UMASK, b"\0\0"):
                stream.sendall(bytes([byte]))
            is_answer(stream, STARTED)
            is_answer(stream, MASK)
        with join(folder, "ann") as stream:
            stream.sendall(frame(MQ_OPEN, b"\0\5/left\3\1\1\x80\0"))
        with begun(folder, "ann") as stream:
            stream.sendall(frame(MQ_OPEN, b"\0\5/left\3\0\0\0\0"))
            is_answer(stream, OPENED)
        ends(server, 4)


def silent_client(programs, folder):
    """Who sends nothing is started all the same, at once, also while others wait in a call, and while all others have left."""
    with folder.serving(programs, "--stop-after", "3") as server:
        with begun(folder, "ann"), begun(folder, "bob"):
            pass
        begun(folder, "root").close()
        ends(server, 3)


def flood_at_one(programs, folder):
    """Who floods one socket keeps nobody from another: the next user is accepted second."""
    log = folder.path.parent / "log"
    with folder.serving(programs, "--stop-after", str(FLOOD + 1), "--log", str(log)) as server, contextlib.ExitStack() as stack:
        server.send_signal(signal.SIGSTOP)
        # It goes on for a moment: until it has stopped it may accept.
        os.waitpid(server.pid, os.WUNTRACED)
        for _ in range(FLOOD):
            stack.enter_context(join(folder, "ann"))
        bob = stack.enter_context(join(folder, "bob"))
        server.send_signal(signal.SIGCONT)
        is_answer(bob, STARTED)
        stack.close()
        ends(server, FLOOD + 1)
    [number] = re.findall(rf"event=hello connection=(\d+) user={BOB}\b", log.read_text())
    is_same("accepted as", int(number) <= 1, True)


def left_over(programs, folder):
    """Sockets that nobody listens at are replaced, of a server that was killed too, whoever owns them."""
    leave_behind(folder.socket("ann"))
    with folder.serving(programs):
        begun(folder, "ann").close()
    is_same("files of a server that was killed", folder.files(), [".lock", "ann", "bob", "root"])
    with folder.serving(programs, "--stop-after", "1") as server:
        begun(folder, "bob").close()
        ends(server, 1)
    is_same("files", folder.files(), [])


def taken(programs, folder):
    """A folder that a server serves isn't served by another, and the first isn't told."""
    with folder.serving(programs, "--stop-after", "1") as server:
        folder.fails(programs)
        begun(folder, "ann").close()
        ends(server, 1)


def what_is_not_ours(programs, folder):
    """A file of a user's name that is no socket, a link, a folder, or a socket that another program listens at: all that was made goes
    again, and this stays. So it is with the lock."""
    place = folder.path / "bob"
    place.write_text("kept")
    folder.fails(programs)
    is_same("the file", place.read_text(), "kept")
    place.unlink()
    place.symlink_to(folder.users)
    folder.fails(programs)
    place.unlink()
    place.mkdir()
    folder.fails(programs)
    place.rmdir()
    with socket.socket(socket.AF_UNIX) as other:
        other.bind(str(place))
        other.listen()
        folder.fails(programs)
        place.unlink()
    lock = folder.path / ".lock"
    os.mkfifo(lock)
    folder.fails(programs)
    lock.unlink()
    lock.symlink_to(folder.users)
    folder.fails(programs)
    lock.unlink()
    is_same("files", folder.files(), [])


def folders_of_others(programs, folder):
    """A folder that others may write to is taken where it is sticky alone, and one of another user never, nor a link or a file."""
    for mode in (0o777, 0o775, 0o757):
        folder.path.chmod(mode)
        folder.fails(programs)
    folder.path.chmod(0o1777)
    with folder.serving(programs, "--stop-after", "1") as server:
        begun(folder, "ann").close()
        ends(server, 1)
    folder.path.chmod(0o755)
    os.chown(folder.path, ANN, ANN)
    folder.fails(programs)
    os.chown(folder.path, 0, 0)
    link = folder.path.with_name("link")
    link.symlink_to(folder.path)
    for place in (link, folder.users, folder.path / "absent"):
        folder.fails(programs, address=f"unix-users:{place}")


def own_copy(programs, folder, *front):
    """The server where other users get, behind these words, and its files of ANN."""
    room = folder.path.parent
    shutil.copy(programs.files["mqserve"], room / "mqserve")
    folder.users.chmod(0o644)
    os.chown(folder.path, ANN, ANN)
    return servers.Programs(room, [*programs.front, *front])


def no_right(programs, folder):
    """A process that may not give files away serves itself alone; where there are others it leaves nothing."""
    programs = own_copy(programs, folder, "setpriv", "--reuid", str(ANN), "--regid", str(ANN), "--clear-groups")
    for users in ({"ann": ANN, "bob": BOB}, {"bob": BOB, "ann": ANN}, {"root": 0}):
        folder.write(users)
        folder.fails(programs)
    folder.write({"ann": ANN})
    with folder.serving(programs, "--stop-after", "1") as server:
        begun(folder, "ann").close()
        ends(server, 1)


def that_right_alone(programs, folder):
    """A process that has this right of root's and no other serves all, and anew where it was killed."""
    programs = own_copy(programs, folder, "setpriv", "--reuid", str(ANN), "--regid", str(ANN), "--clear-groups", "--inh-caps=-all,+chown",
                        "--ambient-caps=-all,+chown", "--bounding-set=-all,+chown")
    with folder.serving(programs):
        begun(folder, "bob").close()
    is_same("files of a server that was killed", folder.files(), [".lock", "ann", "bob", "root"])
    with folder.serving(programs, "--stop-after", "2") as server:
        is_same("socket, mode and owner of bob", facts(folder.path / "bob"), (True, 0o600, BOB, BOB))
        for name in ("bob", "ann"):
            begun(folder, name).close()
        ends(server, 2)
    is_same("files", folder.files(), [])


def given_to_others(programs, folder):
    """A process without root's other rights replaces no socket whose owner, group or mode it wouldn't give, since it can't ask there."""
    programs = own_copy(programs, folder, "setpriv", "--reuid", str(ANN), "--regid", str(ANN), "--clear-groups", "--inh-caps=-all,+chown",
                        "--ambient-caps=-all,+chown", "--bounding-set=-all,+chown")
    place = folder.path / "bob"
    for owner, group, mode in ((BOB, EVE, 0o600), (EVE, BOB, 0o600), (BOB, BOB, 0o640)):
        leave_behind(folder.socket("bob"))
        os.chown(place, owner, group)
        place.chmod(mode)
        folder.fails(programs)
        is_same("the socket", facts(place), (True, mode, owner, group))
        place.unlink()


def no_account(programs, folder):
    """No file has the ID 4,294,967,295 as its owner."""
    folder.write({"ann": ANN, "bob": 2**32 - 1})
    folder.fails(programs)


def too_many(programs, folder):
    """With fewer open files than users it doesn't start."""
    folder.write({f"u{number}": ANN + number for number in range(MANY_USERS)})
    folder.fails(programs, prepare=lambda: resource.setrlimit(resource.RLIMIT_NOFILE, (FEW_FILES, FEW_FILES)))
    with folder.serving(programs, "--stop-after", "1") as server:
        begun(folder, "u0", ANN).close()
        ends(server, 1)


def long_paths(programs, folder):
    """A path has 107 bytes at most."""
    for size in (LONGEST_PATH, LONGEST_PATH + 1):
        room = size - len(f"{folder.path}//ann")
        inner = Folder(folder.path, {"b": BOB, "ann": ANN}, room * "n")
        if size > LONGEST_PATH:
            inner.fails(programs)
            continue
        with inner.serving(programs, "--stop-after", "1") as server:
            begun(inner, "ann").close()
            ends(server, 1)


def wrong_users(programs, folder):
    """Names that a user file can't have, and two users of one name, are faults of the file, before any socket is made."""
    for name in ("", ".", "..", ".lock", "a/b", "a\0b", "A", "a" * 33):
        folder.users.write_text(f"ann:k1:{ANN}:{ANN}::\n{name}:k2:{BOB}:{BOB}::\n")
        folder.fails(programs, fault=b"mqserve: users BadLine 2\n", status=3)
    folder.users.write_text(f"ann:k1:{ANN}:{ANN}::\nann:k2:{BOB}:{BOB}::\n")
    folder.fails(programs, fault=b"mqserve: users DuplicateName 2\n", status=3)


def wrong_arguments(programs, folder):
    """Workers don't serve users' sockets, and these have one mode."""
    for words in ([], ["--workers", "2"]):
        folder.fails(programs, *words, one_thread=False, fault=b"error: invalid value address: unix-users:DIR stands with --one-thread\n", status=2)
    folder.fails(programs, "--socket-mode", "0660", fault=b"error: invalid value socket-mode: ", status=2)


def by_mqctl(programs, folder):
    """`mqctl` takes no key: by a socket's path it is that user, and by the folder the user who runs it, whose socket it finds by its
    owner. Lines of standard input come behind the hello that the server says."""
    own = f"unix-user:{folder.path}"
    with folder.serving(programs, "--stop-after", "5") as server:
        is_same("opened", servers.told(programs, f"{own}/ann", "mq-open", "/jobs", "rw", "--create", "--mode", "0600"), b"opened 0\n")
        is_same("whose it is", servers.told(programs, own, "stat", "mq", "/jobs"), b"stat %d %d 0600\n" % (ANN, ANN))
        is_same("another's", servers.told(programs, f"{own}/bob", "send", "/jobs", "5", "hi"), b"refused 15 EACCES ModeDenied\n")
        ended = subprocess.run(programs.command("mqctl", [own]), input=b"umask 077\numask 0\n", stdout=subprocess.PIPE, timeout=SECONDS)
        is_same("lines and status", (ended.stdout, ended.returncode), (b"mask 022\nmask 077\n", 0))
        # Whatever else is in the folder: what servers left, and a name that is no text.
        for number in range(LEFT_OVER):
            leave_behind(folder.socket(f"left{number}"))
        pathlib.Path(os.fsdecode(os.fsencode(folder.path) + b"/\xff")).touch()
        is_same("at the one that serves", servers.told(programs, own, "umask", "0"), b"mask 022\n")
        ends(server, 5)


def mqctl_of_its_user(programs, folder):
    """Root, who may open each socket of the folder, acts by its own."""
    folder.write({"root": 0, **{f"u{number}": ANN + number for number in range(LEFT_OVER)}})
    own = f"unix-user:{folder.path}"
    with folder.serving(programs, "--stop-after", "2") as server:
        is_same("opened", servers.told(programs, own, "mq-open", "/jobs", "rw", "--create", "--mode", "0600"), b"opened 0\n")
        is_same("whose it is", servers.told(programs, own, "stat", "mq", "/jobs"), b"stat 0 0 0600\n")
        ends(server, 2)


def exchanged(programs, folder):
    """A socket that was put in the place of the server's own stays when the server ends."""
    with folder.serving(programs, "--stop-after", "1") as server, socket.socket(socket.AF_UNIX) as other:
        with begun(folder, "ann"):
            os.unlink(folder.path / "bob")
            other.bind(str(folder.path / "bob"))
        ends(server, 1)
    is_same("files", folder.files(), ["bob"])


CASES = {
    "a socket of each user": each_has_its_own,
    "two users share a queue": two_share_a_queue,
    "a hello all the same": hello_all_the_same,
    "requests at once": requests_at_once,
    "clients that say nothing": silent_client,
    "a flood at one socket": flood_at_one,
    "sockets that are left over": left_over,
    "a folder that is in use": taken,
    "files that are not ours": what_is_not_ours,
    "folders of others": folders_of_others,
    "no right to give files away": no_right,
    "this right alone": that_right_alone,
    "sockets that were given to others": given_to_others,
    "a user that no file has": no_account,
    "more users than open files": too_many,
    "long paths": long_paths,
    "users that are wrong": wrong_users,
    "arguments that are wrong": wrong_arguments,
    "mqctl": by_mqctl,
    "mqctl by the socket of its user": mqctl_of_its_user,
    "a socket that is exchanged": exchanged,
}


def judged(programs, case):
    """Returns what is other than it must be, or nothing."""
    with tempfile.TemporaryDirectory() as room:
        try:
            case(programs, Folder(room))
        except (Wrong, OSError, ValueError, subprocess.TimeoutExpired) as fault:
            return f"{type(fault).__name__}: {fault}"
    return ""


def main():
    programs = servers.programs_given(__doc__)
    if os.geteuid() != 0:
        print("users' sockets: only root gives files away; passed over")
        return 0
    failed = 0
    for name, case in CASES.items():
        difference = judged(programs, case)
        failed += bool(difference)
        print(f"users' sockets: {name}: {difference or 'as it must be'}", flush=True)
    print(f"{len(CASES) - failed} as they must be, {failed} not")
    return 1 if failed else 0


if __name__ == "__main__":
    sys.exit(main())
