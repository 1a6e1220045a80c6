#!/usr/bin/env python3
"""Compares the recipe for a call, in docs/dev/recipes.md, with the files that a call touched.

`tools/recipes.py CALL..` prints the files that name a call, as MqGive, in any of its spellings, and marks those that the recipe doesn't
name. Without a CALL it looks at the newest ones. The status is 1 where one of these isn't named."""

import re
import shutil
import subprocess
import sys
from pathlib import Path

ROOT = Path(__file__).resolve().parent.parent
PAGE = "docs/dev/recipes.md"
# The newest calls: an older one stands in examples, benchmarks and pages that a new one need not touch.
NEWEST = ["MqGive", "MqTimedSend", "MqTimedReceive", "SemTimedWait"]
# Wrong bodies are made where there is something new, not in a file that a recipe could name; pictures show some calls for all, a page has
# results of tests, and the claims are generated.
LEFT_OUT = re.compile(r"/(must-fail|more-edits)/|^tools/recipes\.py$|^docs/pictures/|^docs/dev/claims\.md$|^docs/use/conformance\.md$")


def calls():
    """The names of all calls."""
    text = (ROOT / "crates/ipc_terms/src/op.rt").read_text(encoding="utf-8")
    return re.findall(r"^    (\w+) = \d+,", text.split("pub enum CallOp {", 1)[1].split("\n}", 1)[0], re.M)


def spelled(call):
    """A pattern for the call in code, commands, C and POSIX: MqTimedSend, mq_timed_send, mq-timedsend, MQ_TIMED_SEND, mq_timedsend."""
    lower = re.sub(r"(?<!^)(?=[A-Z])", "_", call).lower()
    short = re.sub(r"_(timed|try)_", r"_\1", lower)
    words = {call, lower, short, lower.upper(), lower.replace("_", "-"), short.replace("_", "-")}
    return re.compile("|".join(rf"(?<![A-Za-z]){re.escape(word)}(?!\w)" for word in words))


def listed():
    """Each file of the repository, from the top; where git can't tell, each but for what is built."""
    told = subprocess.run(["git", "ls-files"], cwd=ROOT, capture_output=True, text=True) if shutil.which("git") else None
    if told and told.returncode == 0 and told.stdout:
        return told.stdout.splitlines()
    return [str(path.relative_to(ROOT)) for path in ROOT.rglob("*") if not {"out", ".git"} & set(path.relative_to(ROOT).parts)]


def tracked():
    """The files among which one is looked for."""
    return sorted(path for path in listed() if not LEFT_OUT.search(path) and (ROOT / path).is_file())


def files_of(call, paths):
    """The files that name the call."""
    pattern = spelled(call)
    return [path for path in paths if pattern.search((ROOT / path).read_text(encoding="utf-8", errors="replace"))]


def recipe():
    """What the recipe names: files and folders by their paths or the ends of these, and documents."""
    text = (ROOT / PAGE).read_text(encoding="utf-8")
    [section] = re.findall(r"(?ms)^##+ Add a call\n(.*?)(?=^##+ |\Z)", text)
    quoted = re.findall(r"`([\w./-]+)`", section)
    return {name.rstrip("/") for name in quoted} | set(re.findall(r"\b[\w/-]+\.md\b", section))


def is_named(path, names):
    """Whether the recipe names the file, or a folder that it stands in; an .out stands beside its .in."""
    beside = re.sub(r"\.out$", ".in", path)
    return any(f"/{it}".endswith(f"/{name}") or f"/{name}/" in f"/{it}" for name in names for it in (path, beside))


def unnamed(call, paths, names):
    return [path for path in files_of(call, paths) if not is_named(path, names)]


def main(asked):
    paths, names, wrong = tracked(), recipe(), 0
    for call in asked:
        if call not in calls():
            sys.exit(f"there is no call {call}: {', '.join(calls())}")
        for path in files_of(call, paths):
            is_missing = not is_named(path, names)
            wrong += is_missing
            print(f"{call}: {path}{', which the recipe has not' if is_missing else ''}")
    return 1 if wrong else 0


if __name__ == "__main__":
    sys.exit(main(sys.argv[1:] or NEWEST))
