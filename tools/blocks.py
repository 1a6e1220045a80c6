#!/usr/bin/env python3
"""Runs the blocks of shell of the pages for users and operators, as a reader would type them: `tools/blocks.py [PAGE..]`, as `make blocks` does.

A page's ```sh blocks run in one shell, in a folder of their own, in their order, with the programs and clients as `make install` puts them in
place. A ```text block that follows directly is what one prints on both streams; there `...` stands for any text, and alone on a line for any
lines. A block without one may print anything, and none of its commands may fail. A line before a block can say more:

    <!-- not run: why -->    the block is passed over
    <!-- file: NAME -->      the block, of any language, becomes the file NAME in the page's folder

A block with a command of others that isn't here, as curl, is passed over too, and that is said.

After a command that ends with `&` the next one waits until a server has said that it serves, or for a second. What still runs at the end of a
page is ended, and a page may take 60 seconds. MQSERVED and MQCTL are programs to take in place of the built ones."""

import difflib
import os
import pathlib
import re
import select
import shutil
import signal
import subprocess
import sys
import tempfile
import time
from collections import namedtuple

sys.dont_write_bytecode = True
from programs import TOP, proved  # noqa: E402

PAGES = ["README.md", "docs/use/*.md", "docs/run/*.md"]
# How long a page may take, how long its ports may be in use before it, and how long a block's last output may take.
PAGE_SECONDS, PORT_SECONDS, OUTPUT_SECONDS, END_SECONDS = 60, 30, 3, 5
FENCE = re.compile(r"( *)(```+)(\w*)\s*$")
MARK = re.compile(r"\s*<!-- (not run|file): (.*?) -->\s*$")
PORT = re.compile(r"(?:127\.0\.0\.1|localhost|\[::1\]):(\d+)")
LISTENING = "0A"
# Commands of others that pages use, and that not every machine has.
OTHERS = re.compile(r"(?m)(?:^|[|;&(] *)(curl|cc|man|prlimit|setpriv)\b")

# A block of a page: the number of its first line, its language, its text, what the line before says of it, and whether it follows another directly.
Block = namedtuple("Block", "line language text mark follows")
# What a page wants done: a file to be written, or commands with what they print, which may be None.
Step = namedtuple("Step", "line name text wanted")

# The shell runs the block of each number that it is sent, and answers with 1 if a command failed.
SHELL = r"""
__settle() {
    [ "$!" = "$__last" ] && return
    __last=$!
    for __try in 1 2 3 4 5 6 7 8 9 10 11 12 13 14 15 16 17 18 19 20; do
        [ "$(grep -c '^serving ' "$__out")" -gt "$__served" ] && break
        sleep 0.05
    done
    __served=$(grep -c '^serving ' "$__out")
}
while IFS= read -r __number <&%(asked)d; do
    __out=$__folder/$__number.out __served=0 __failed=0 __last=$!
    exec > "$__out" 2>&1 < /dev/null
    trap __settle DEBUG
    trap __failed=1 ERR
    eval "$(cat "$__folder/$__number.sh")" %(asked)d<&- %(told)d>&-
    trap - DEBUG ERR
    __settle
    echo "$__failed" >&%(told)d
done
"""


def blocks(page):
    """The fenced blocks of a page."""
    lines, at, end = page.splitlines(), 0, None
    while at < len(lines):
        opened = FENCE.match(lines[at])
        if not opened:
            at += 1
            continue
        close = next((n for n in range(at + 1, len(lines)) if lines[n].strip() == opened[2]), len(lines))
        text = "".join(f"{line[len(opened[1]):] if line.startswith(opened[1]) else line.lstrip()}\n" for line in lines[at + 1 : close])
        before = MARK.match(lines[at - 1]) if at else None
        follows = end is not None and not "".join(lines[end + 1 : at]).strip()
        yield Block(at + 1, opened[3], text, before.groups() if before else None, follows)
        at, end = close + 1, close


def steps(page):
    """What the page wants done, and how many blocks are passed over."""
    found, passed, expects = [], 0, False
    for block in blocks(page):
        kind, words = block.mark or (None, None)
        if kind == "file":
            found.append(Step(block.line, words, block.text, None))
        elif block.language == "sh" and kind:
            passed += 1
        elif block.language == "sh":
            found.append(Step(block.line, None, block.text, None))
        elif block.language == "text" and block.follows and expects:
            found[-1] = found[-1]._replace(wanted=block.text)
        expects = block.language == "sh" and not kind
    return found, passed


def pattern(wanted):
    """What a block may print, where `...` stands for any text."""
    lines = [r"(?:.*\n)*" if line.strip() == "..." else re.escape(line).replace(r"\.\.\.", ".*") + r"\n" for line in wanted.splitlines()]
    return re.compile("".join(lines))


def is_listening(port):
    """Whether somebody listens at the port."""
    tables = [pathlib.Path(f"/proc/net/{name}") for name in ("tcp", "tcp6")]
    lines = [line.split() for table in tables if table.exists() for line in table.read_text().splitlines()[1:]]
    return any(line[3] == LISTENING and int(line[1].rsplit(":", 1)[1], 16) == port for line in lines)


def wait_for(is_so, seconds):
    """Waits until it is so; whether it came to be."""
    end = time.monotonic() + seconds
    while not is_so():
        if time.monotonic() > end:
            return False
        time.sleep(0.05)
    return True


class Shell:
    """The shell of a page, in its folder."""

    def __init__(self, room, environment):
        self.folder, (asked, self.asking), (self.telling, told) = room / "said", os.pipe(), os.pipe()
        self.folder.mkdir()
        (room / "page").mkdir()
        script = f"__folder={self.folder}\n" + SHELL % {"asked": asked, "told": told}
        self.process = subprocess.Popen(["bash", "--norc", "-c", script], cwd=room / "page", env={**environment, "HOME": str(room / "page")},
                                        pass_fds=[asked, told], stdin=subprocess.DEVNULL, start_new_session=True)
        self.end, self.is_done = time.monotonic() + PAGE_SECONDS, False
        os.close(asked)
        os.close(told)

    def run(self, number, text):
        """Runs a block. Whether a command failed, or None if it didn't come to its end in time."""
        (self.folder / f"{number}.sh").write_text(text, encoding="utf-8")
        os.write(self.asking, f"{number}\n".encode())
        ready, _, _ = select.select([self.telling], [], [], max(0, self.end - time.monotonic()))
        told = os.read(self.telling, 16) if ready else b""
        self.is_done = not told
        return told.strip() == b"1" if told else None

    def has_ended(self):
        """Whether the shell itself ended, as by `exit`."""
        return wait_for(lambda: self.process.poll() is not None, 0.2)

    def printed(self, number):
        """What the block has printed so far, with an end of line at its end."""
        file = self.folder / f"{number}.out"
        said = file.read_text(encoding="utf-8", errors="replace") if file.exists() else ""
        return said if said.endswith("\n") or not said else said + "\n"

    def close(self):
        """Ends the shell and all that it started, which is one group of processes."""
        for ending in (signal.SIGTERM, signal.SIGKILL):
            try:
                os.killpg(self.process.pid, ending)
            except ProcessLookupError:
                break
            if wait_for(self.is_over, END_SECONDS):
                break
        self.process.wait()
        os.close(self.asking)
        os.close(self.telling)

    def is_over(self):
        """Whether no process of the group runs any more. One that has ended may stay in the table of processes until it is waited for."""
        self.process.poll()
        for file in pathlib.Path("/proc").glob("[0-9]*/stat"):
            try:
                state, _, group = file.read_text().rsplit(") ", 1)[1].split()[:3]
            except (OSError, UnicodeDecodeError):
                continue
            if int(group) == self.process.pid and state not in "ZX":
                return False
        return True


def fault(shell, number, step):
    """What is wrong with a block once it has run, or None."""
    has_failed = shell.run(number, step.text)
    if has_failed is None:
        why = "the shell ended" if shell.has_ended() else f"the page took {PAGE_SECONDS} seconds"
        return f"{why}; it printed:\n{shell.printed(number)}"
    if step.wanted is None:
        return f"a command failed:\n{shell.printed(number)}" if has_failed else None
    wanted = pattern(step.wanted)
    if wait_for(lambda: wanted.fullmatch(shell.printed(number)), OUTPUT_SECONDS):
        return None
    lines = (text.splitlines() for text in (step.wanted, shell.printed(number)))
    return "\n".join(difflib.unified_diff(*lines, "the page", "printed", lineterm="", n=9))


def missing(todo):
    """The steps with a command of others that isn't here."""
    return [step for step in todo if not step.name and not all(map(shutil.which, OTHERS.findall(step.text)))]


def run(path, environment):
    """Runs a page's blocks: how many ran, how many were passed over, and what was wrong."""
    todo, passed = steps(path.read_text(encoding="utf-8"))
    path = os.path.relpath(path, TOP)
    ports = {int(port) for step in todo if not step.name for port in PORT.findall(step.text)}
    for port in ports:
        if not wait_for(lambda: not is_listening(port), PORT_SECONDS):
            return 0, passed, [f"{path}: somebody listens at port {port}"]
    ran, wrong = 0, []
    for step in missing(todo):
        passed += 1
        print(f"{path}:{step.line}: a command isn't here; passed over")
        todo.remove(step)
    room = pathlib.Path(tempfile.mkdtemp(prefix="blocks-"))
    shell = Shell(room, environment)
    try:
        for number, step in enumerate(todo):
            if step.name:
                (room / "page" / step.name).write_text(step.text, encoding="utf-8")
                continue
            ran += 1
            if said := fault(shell, number, step):
                wrong.append(f"{path}:{step.line}: {said}")
            if shell.is_done:
                break
    finally:
        shell.close()
        shutil.rmtree(room, ignore_errors=True)
    return ran, passed, wrong


def install(stage):
    """Puts all in place below the folder; what a reader's shell needs to find it there."""
    given = {name: os.environ.get(variable) or proved(name) for name, variable in (("mqserve", "MQSERVED"), ("mqctl", "MQCTL"))}
    if not all(given.values()):
        sys.exit("blocks: the programs aren't built; make build builds them, and MQSERVED and MQCTL name others")
    (stage / "programs").mkdir()
    for name, file in given.items():
        shutil.copy2(file, stage / "programs" / name)
    kept = {name: value for name, value in os.environ.items() if not re.match(r"MQ|MAKE|LD_PRELOAD|PYTHON", name)}
    subprocess.run(["make", "-s", "--no-print-directory", "-C", TOP, "install", f"PREFIX={stage}/usr", "DESTDIR=", f"PROGRAMS={stage}/programs"],
                   env=kept, stdout=subprocess.DEVNULL, check=True)
    usr = f"{stage}/usr"
    return {**kept, "PATH": f"{usr}/bin:{os.path.dirname(sys.executable)}:{os.environ['PATH']}", "CPATH": f"{usr}/include",
            "LIBRARY_PATH": f"{usr}/lib", "LD_LIBRARY_PATH": f"{usr}/lib", "PKG_CONFIG_PATH": f"{usr}/lib/pkgconfig",
            "PYTHONPATH": f"{usr}/lib/python3/dist-packages", "PYTHONDONTWRITEBYTECODE": "1", "MANPATH": f"{usr}/share/man"}


def main(words):
    paths = [pathlib.Path(word) for word in words] or [path for pages in PAGES for path in sorted(TOP.glob(pages))]
    if not shutil.which("cc"):
        print("blocks: no C compiler here for the clients; passed over")
        return 0
    ran = passed = 0
    wrong = []
    with tempfile.TemporaryDirectory(prefix="blocks-") as stage:
        environment = install(pathlib.Path(stage))
        for path in paths:
            told = run(path, environment)
            ran, passed, wrong = ran + told[0], passed + told[1], wrong + told[2]
            print("\n".join(told[2]), end="\n" if told[2] else "", flush=True)
    print(f"{ran} blocks ran, {passed} passed over, {len(wrong)} wrong")
    return 1 if wrong else 0


if __name__ == "__main__":
    sys.exit(main(sys.argv[1:]))
