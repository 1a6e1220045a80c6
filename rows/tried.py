#!/usr/bin/env python3
"""Runs a program without proof over the inputs whose outcome is known: `tried.py mqserve` or `tried.py mqctl`. With `2/3` behind
it, over every third of them, from the second on.

`rt try --cases` builds the program once, with checks, and runs it on each input. Standard output, standard error and the exit status
are compared as rows/run.py does. Prints a line for each case that differs, and a last line with the counts; the status is 1 where one
differs. What needs more than an input and arguments, as a client or a full disk, is left to rows/run.py."""

import os
import pathlib
import re
import subprocess
import sys
import tempfile

sys.dont_write_bytecode = True
import run  # noqa: E402

# The checks take a millisecond a call, so the long inputs are shorter.
CALLS = 2_000
# How long one case may take.
SECONDS = "300"


def is_plain(case):
    """Whether an input and arguments are all that the case needs."""
    is_served = case.served is not None or case.clients
    is_line = not re.search(rb"[\n\xff]", b"".join(case.arguments))
    return isinstance(case.given, bytes) and not case.writes_to and not is_served and is_line


def cases_of(program):
    """The cases of the program, and by names that are files' names those that can be tried."""
    found = [case for folder, name in run.FOLDERS.items() if name == program for case in run.cases_of(folder, name)]
    found += [case for case in [run.page_case(), *run.made_cases(CALLS)] if case.program == program]
    return found, {re.sub(r"\W+", "_", case.name): case for case in found if is_plain(case)}


def lay_out(cases, folder):
    """Writes the inputs and arguments into the folder. Returns the files that the arguments name."""
    named = {}
    for name, case in cases.items():
        pathlib.Path(folder, name).write_bytes(case.given)
        pathlib.Path(folder, f"{name}.args").write_bytes(b"".join(argument + b"\n" for argument in case.arguments))
        for argument in map(os.fsdecode, case.arguments):
            if (case.folder / argument).is_file():
                named[argument] = case.folder / argument
    return named


def outputs(told):
    """What each case printed: it stands behind a line `== NAME`."""
    parts = re.split(rb"(?m)^== (\w+)\n", told)
    return {name.decode(): out for name, out in zip(parts[1::2], parts[2::2])}


def ends(told):
    """How each case ended, and what it wrote to standard error, which stands before the line that says so."""
    found = re.findall(rb"(?ms)(.*?)^case=(\w+) (.*?)$\n?", told)
    return {name.decode(): (end.decode(), err) for err, name, end in found}


def differences(cases, tried):
    """A line for each case that differs."""
    out, ended = outputs(tried.stdout), ends(tried.stderr)
    for name, case in cases.items():
        end, err = ended.get(name, ("it wasn't run", b""))
        streams = (("standard output", out.get(name, b""), case.out), ("standard error", err, case.err))
        status = re.match(r"run=ended status=(\d+) ", end)
        if not status:
            yield f"{case.name}: {end}: {err.decode(errors='replace')}"
        elif int(status[1]) != case.status:
            yield f"{case.name}: status {status[1]}, and not {case.status}"
        else:
            yield from (f"{case.name}: {which}: {run.first_difference(*both)}" for which, *both in streams if both[0] != both[1])


def share_of(cases, share):
    """Every so many of the cases: those of the share 2/3 are the second, the fifth, and so on."""
    number, shares = map(int, share.split("/"))
    return dict(list(cases.items())[number - 1::shares])


def main():
    words = re.fullmatch(r"(mqserve|mqctl)(?: (([1-9])/([1-9])))?", " ".join(sys.argv[1:]))
    if not words or words[2] and words[3] > words[4]:
        sys.exit(__doc__)
    program, share = words[1], words[2] or "1/1"
    found, every = cases_of(program)
    cases = share_of(every, share)
    with tempfile.TemporaryDirectory(prefix="tried-") as folder:
        data = [word for name, file in lay_out(cases, folder).items() for word in ("--data", f"{name}={file}")]
        command = ["rt", "try", "--seconds", SECONDS, "--cases", folder, *data]
        tried = subprocess.run(command, cwd=run.TOP / "crates" / program, stdout=subprocess.PIPE, stderr=subprocess.PIPE)
    if not ends(tried.stderr):
        sys.exit(f"`rt try` ran no case of {program} (status {tried.returncode}):\n{tried.stderr.decode(errors='replace')}")
    wrong = list(differences(cases, tried))
    for line in wrong:
        print(line)
    print(f"{program}: {len(cases) - len(wrong)} as written, {len(wrong)} not; {len(found) - len(every)} need a proved program")
    return 1 if wrong else 0


if __name__ == "__main__":
    sys.exit(main())
