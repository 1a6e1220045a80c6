#!/usr/bin/env python3
"""The programs mqserve and mqctl, and what a crate stands on. Proved ones stand in crates/NAME/out, where `make build` and `make
test` leave them. Where there is no proved server, `rt try` builds one with checks and runs it; what that writes comes once it has ended.

`tools/programs.py USERS ADDRESS [OPTIONS]` runs a server on one thread, or by workers if OPTIONS have --workers."""

import os
import pathlib
import shlex
import shutil
import sys

TOP = pathlib.Path(__file__).resolve().parent.parent
CRATES = TOP / "crates"
NAMES = ["mqserve", "mqctl"]

# How long `make build` takes on four cores; CONTRIBUTING.md says how that was measured.
BUILD_TAKES = "54 minutes"
NOT_PROVED = (
    "Not proved: `rt try` builds this server with checks, and it serves in a minute or two. "
    f"`make build` proves it (four cores: {BUILD_TAKES})."
)
NO_KIT = "there is no rt, the command of Rattle's kit, on the PATH"
# The longest that such a server runs: a day.
TRIED_SECONDS = "86400"


def uses():
    """What each crate of crates.txt uses of the others."""
    text = (TOP / "crates.txt").read_text(encoding="utf-8")
    lines = [line.partition(":") for line in text.splitlines() if line and not line.startswith("#")]
    named = {head.split()[0]: words.split() for head, _, words in lines}
    return {name: [word for word in words if word in named] for name, words in named.items()}


def below(name, lines):
    """The crate, and all that it stands on."""
    found, left = set(), [name]
    while left:
        crate = left.pop()
        if crate not in found:
            found.add(crate)
            left += lines[crate]
    return found


def proved(name):
    """The file of the proved program, or None where none was built."""
    file = CRATES / name / "out" / name
    return file if file.is_file() else None


def is_current(name):
    """Whether the proved program stands, and is newer than all sources that it is built of."""
    file = proved(name)
    sources = (source for crate in below(name, uses()) for source in (CRATES / crate / "src").rglob("*.rt"))
    return file is not None and all(source.stat().st_mtime < file.stat().st_mtime for source in sources)


def server(users, address, options):
    """The command of a server, and the folder to start it in. `rt try` runs it in a folder of its own, so paths are absolute."""
    by_workers = any(word == "--workers" or word.startswith("--workers=") for word in options)
    how = [*([] if by_workers else ["--one-thread"]), *options]
    file = proved("mqserve")
    if file:
        return [str(file), "serve", users, address, *how], TOP
    trying = ["rt", "try", "--seconds", TRIED_SECONDS, "--data", f"users={users}"]
    return [*trying, "--", "serve", "users", address, *how], CRATES / "mqserve"


def main(words):
    if len(words) < 2:
        print("programs.py USERS ADDRESS [OPTIONS]", file=sys.stderr)
        return 2
    users, address, *options = words
    for front in ("unix:", "unix-users:"):
        if address.startswith(front):
            address = front + os.path.abspath(address[len(front) :])
    command, folder = server(os.path.abspath(users), address, options)
    if not proved("mqserve"):
        print(NOT_PROVED)
        if not shutil.which("rt"):
            print(NO_KIT, file=sys.stderr)
            return 1
    print(f"$ {shlex.join(command)}", flush=True)
    os.chdir(folder)
    os.execvp(command[0], command)


if __name__ == "__main__":
    sys.exit(main(sys.argv[1:]))
