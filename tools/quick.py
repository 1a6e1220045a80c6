#!/usr/bin/env python3
"""Tells quickly whether a change is good, without proof: the layout of the files, the documents, the tests, and the programs
over inputs whose outcome is known. With the name of a crate it proves that crate too, and runs only what stands on it. Where
proved programs stand it also runs what only these can show.

Prints a line for each part. One that failed is told with the command that runs it alone. The last line is 'N passed, M failed'."""

import argparse
import concurrent.futures
import os
import pathlib
import re
import shutil
import subprocess
import sys
import tempfile
import time

from programs import CRATES, NAMES, NO_KIT, TOP, below, is_current, uses

# In how many shares the rows of a program run side by side: each is a build of its own.
SHARES = {"mqserve": 2}
# Tests' crates that are built as one, since each build begins with all that lies below.
TESTS = [["test_core", "test_library", "test_log"], ["test_scripts", "test_words", "test_client"], ["test_server"], ["test_metrics"]]
# What a test may take: 60 seconds are too few for the longest ones beside other work.
SECONDS = "600"
# What a failed part is told of at most.
LINES = 60
# How a line of `rt fmt` begins that tells of a wrong layout, or of an edit that doesn't fit its file any more.
WRONG_LAYOUT = ("rt: formatted ", "rt: note: must-fail/")
# What only proved programs show, and the command of each.
BY_PROVED = {
    "rows of proved programs": "rows/run.py",
    "servers": "rows/servers.py",
    "bounds of servers": "rows/bounds.py",
    "users' sockets": "rows/user_sockets.py",
    "trails of servers": "rows/served_trails.py",
    "retellings": "rows/retellings.py",
    "random retellings": "rows/retold.py",
    "numbers of servers": "rows/metrics.py",
    "random scripts two ways": "rows/two_ways.py",
    "demo": "demo/run.py",
    "clients": "make -ks --no-print-directory clients-test",
    "blocks of documents": "tools/blocks.py",
}


class Part:
    """A part of the whole: its name, what a person types to run it alone, and what runs it here."""

    def __init__(self, name, alone, run):
        self.name, self.alone, self.run = name, alone, run


def run(*words, **how):
    """The status, standard output, and both streams, of a command."""
    how = {"stdin": subprocess.DEVNULL, "stdout": subprocess.PIPE, "stderr": subprocess.PIPE, **how}
    ended = subprocess.run(words, errors="replace", **how)
    return ended.returncode, ended.stdout, ended.stderr + ended.stdout


def last_line(out):
    return (out.splitlines() or [""])[-1]


def layout(names):
    """Formats copies of these crates: nothing may change."""
    wrong = []
    with tempfile.TemporaryDirectory(prefix="quick-") as room:
        for name in names:
            shutil.copytree(CRATES / name, f"{room}/{name}", ignore=shutil.ignore_patterns("out"))
            status, _, said = run("rt", "fmt", cwd=f"{room}/{name}")
            lines = [line for line in said.splitlines() if status or line.startswith(WRONG_LAYOUT)]
            wrong += [f"crates/{name}: {line}" for line in lines]
    return not wrong, f"{len(names)} crates as `rt fmt` leaves them", "\n".join(wrong)


def command(words):
    """Runs a script of the repository, whose last line has its counts."""
    status, out, said = run(*words.split(), cwd=TOP)
    return status == 0, last_line(out), said


def tests(names):
    """Runs the tests of these crates as `rt try` builds them, in one crate where they are several."""
    with tempfile.TemporaryDirectory(prefix="quick-") as room:
        folder = together(names, pathlib.Path(room)) if len(names) > 1 else CRATES / names[0]
        status, _, said = run("rt", "try", "--test", "--seconds", SECONDS, cwd=folder)
    counted = re.search(r"\d+ passed", said)
    wrong = [line for line in said.splitlines() if not line.endswith(" ok")]
    return status == 0, counted[0] if counted else "no test ran", "\n".join(wrong)


def together(names, room):
    """Makes a repository in which a crate `tests` has the tests of these crates, each in a module of its name. The others are
    copies of those here."""
    lines = (TOP / "crates.txt").read_text(encoding="utf-8").splitlines()
    used = {word for line in lines if line.split(":")[0] in names for word in line.split(":")[1].split()}
    (room / "crates.txt").write_text("\n".join([*lines, f"tests: {' '.join(sorted(used))}", ""]))
    shutil.copy(TOP / "HANDLES", room)
    sources = room / "crates" / "tests" / "src"
    sources.mkdir(parents=True)
    for crate in CRATES.iterdir():
        shutil.copytree(crate, room / "crates" / crate.name, ignore=shutil.ignore_patterns("out", "must-fail", "more-edits", "data"))
    for name in names:
        shutil.copytree(CRATES / name / "src", sources / name)
        for file in (sources / name).rglob("*.rt"):
            file.write_text(re.sub(r"\bcrate::", f"crate::{name}::", file.read_text(encoding="utf-8")))
        whole = (sources / name / "lib.rt").rename(sources / f"{name}.rt")
        whole.write_text(whole.read_text(encoding="utf-8").replace("#![tactic(auto)]\n", ""))
    modules = [f"#[cfg(test)]\nmod {name};\n" for name in names]
    (sources / "lib.rt").write_text("".join(["//! Tests of several crates.\n#![tactic(auto)]\n", *modules]))
    return room / "crates" / "tests"


def streams():
    """Runs the program that feeds streams to a hub, over its data. The scripts that it runs too are rows of mqserve."""
    folder = CRATES / "test_rows"
    data = [word for file in sorted(folder.glob("data/streams/*")) for word in ("--data", f"streams/{file.name}={file}")]
    status, out, said = run("rt", "try", *data, "--", "streams", cwd=folder)
    wanted = (folder / "stdout").read_text()
    return status == 0 and out and wanted.endswith(out), f"{len(out.splitlines())} streams", said


def proof(name, words):
    """Proves the crate, after the libraries below it that have changed."""
    status, out, said = run(*words, cwd=CRATES / name)
    return status == 0, last_line(out), said


def proof_of(crate):
    has_tests = any("#[test]" in file.read_text(encoding="utf-8") for file in (CRATES / crate / "src").rglob("*.rt"))
    words = ["rt", "check", *["--test"] * has_tests]
    return Part(f"proof of {crate}", f"cd crates/{crate} && {' '.join(words)}", lambda: proof(crate, words))


def by_command(name, words):
    return Part(name, words, lambda: command(words))


def tests_of(names):
    alone = " && ".join(f"(cd crates/{name} && rt try --test --seconds {SECONDS})" for name in names)
    return Part(", ".join(names), alone, lambda: tests(names))


def parts_for(crate):
    """The parts without proof that stand on the crate, or all. The longest come first."""
    lines = uses()
    stand_on_it = lambda *names: not crate or any(crate in below(name, lines) for name in names)
    if crate:
        yield proof_of(crate)
    for name in filter(stand_on_it, NAMES):
        shares = SHARES.get(name, 1)
        for share in [f"{number}/{shares}" for number in range(1, shares + 1)] if shares > 1 else [""]:
            yield by_command(f"rows of {name} {share}".strip(), f"rows/tried.py {name} {share}".strip())
    for names in ([name for name in names if stand_on_it(name)] for names in TESTS):
        if names:
            yield tests_of(names)
    if stand_on_it("test_rows"):
        yield Part("streams", "tools/quick.py --part streams", streams)
    yield by_command("files of trails", "rows/trails.py --check")
    yield Part("layout", "tools/quick.py --part layout", lambda: layout([crate] if crate else lines))
    yield by_command("documents", "tools/documents.py")
    yield by_command("tests of documents", "tools/test_documents.py")
    if not crate:
        yield by_command("user files", "tools/test_users.py")
        yield by_command("how a server is started", "tools/test_programs.py")
    if are_current():
        for name, words in BY_PROVED.items():
            yield by_command(name, words)


def are_current():
    """Whether proved programs stand that are newer than what they are built of."""
    return all(is_current(name) for name in NAMES)


def timed(part):
    start = time.monotonic()
    return (*part.run(), time.monotonic() - start)


def report(part, is_well, what, said, seconds):
    print(f"{'passed' if is_well else 'FAILED'}  {part.name}: {what} ({seconds:.0f} s)", flush=True)
    if not is_well:
        print("\n".join(f"    {line}" for line in said.splitlines()[-LINES:]), flush=True)


def run_all(parts, at_once):
    """Runs the parts side by side; which failed, and how many passed."""
    failed = []
    with concurrent.futures.ThreadPoolExecutor(at_once) as pool:
        runs = {pool.submit(timed, part): part for part in parts}
        for done in concurrent.futures.as_completed(runs):
            report(runs[done], *done.result())
            failed += [] if done.result()[0] else [runs[done]]
    return failed, len(parts) - len(failed)


def say_left_out(crate):
    print(f"Left out: {f'proofs but that of {crate}' if crate else 'all proofs'}, wrong bodies, test_memory, workloads.")
    if not are_current():
        print(f"Left out, since no proved programs stand that are newer than their sources: {', '.join(BY_PROVED)}.")
    print("`.ci/run` has all of these.")


def main():
    parser = argparse.ArgumentParser(description="Tells quickly whether a change is good, without the whole proof.")
    parser.add_argument("crate", nargs="?", help="a crate to prove, with only the tests that stand on it")
    parser.add_argument("--jobs", type=int, default=len(os.sched_getaffinity(0)), help="how many parts at a time")
    parser.add_argument("--part", help="only the part of this name")
    asked = parser.parse_args()
    if asked.crate and asked.crate not in uses():
        parser.error(f"crates.txt has no crate {asked.crate}")
    parts = [part for part in parts_for(asked.crate) if asked.part in (None, part.name)]
    if not parts:
        parser.error(f"there is no part {asked.part} here")
    if not asked.part and not shutil.which("rt"):
        print(NO_KIT, file=sys.stderr)
        return 1
    failed, passed = run_all(parts, asked.jobs)
    if not asked.part:
        say_left_out(asked.crate)
    for part in failed:
        print(f"failed: {part.name}; alone: {part.alone}")
    print(f"{passed} passed, {len(failed)} failed")
    return 1 if failed else 0


if __name__ == "__main__":
    sys.exit(main())
