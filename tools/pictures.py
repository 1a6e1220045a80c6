#!/usr/bin/env python3
"""Draws the pictures of the documents: docs/pictures/NAME.svg of each docs/pictures/NAME.txt, speeds.svg of the table of bench/README.md
and crates.svg of crates.txt. With --check it writes nothing, and its status is 1 where a picture isn't what it would write.

A text has a line `boxes WIDTH HEIGHT TITLE` or `sequence WIDTH TITLE | ACTOR | ACTOR ..`, and then what drawing_boxes.py or drawing_steps.py
says. Empty lines and lines that begin with # are passed over."""

import math
import re
import sys
from pathlib import Path

sys.dont_write_bytecode = True
import drawing_boxes  # noqa: E402
import drawing_steps  # noqa: E402
import programs  # noqa: E402
from drawing import SMALL, Box, Picture, TooWide  # noqa: E402

ROOT = Path(__file__).resolve().parent.parent
PICTURES = ROOT / "docs/pictures"
KINDS = {"boxes": drawing_boxes.draw, "sequence": drawing_steps.draw}

# The servers of the plot, as bench/README.md calls them, and the jobs that are shown.
PEERS = {"mqserve --one-thread": "mqserve", "Redis": "Redis", "beanstalkd": "beanstalkd", "kernel's queues, no server": "kernel's queues"}
JOBS = {"One connection, a request at a time": "one by one", "One connection, by 8": "by 8"}
BAR, GAP, LEFT, RIGHT = 18, 26, 130, 90
LOWEST, HIGHEST = 10_000, 10_000_000
# How the names of crates begin that only test and measure.
OF_TESTS = ("test_", "bench_", "workloads")
CRATE, ROW = 106, 42


def drawn_text(path):
    lines = [line for line in path.read_text(encoding="utf-8").splitlines() if line.strip() and not line.startswith("#")]
    kind, words = lines[0].split(" ", 1)
    return KINDS[kind](words, lines[1:]).svg()


def speeds():
    """Messages a second by server, for each job that is shown."""
    text = (ROOT / "bench/README.md").read_text(encoding="utf-8").split("## Figures", 1)[1]
    found = dict.fromkeys(JOBS)
    for job in JOBS:
        rows = text.split(f"**{job}**", 1)[1].split("| **", 1)[0]
        rates = dict(re.findall(r"(?m)^\| ([^|]+?) \| ([\d,]+) \|", rows))
        found[job] = {peer: int(rates[peer].replace(",", "")) for peer in PEERS}
    return found


def drawn_speeds():
    """A bar for each server in each job, on a logarithmic axis."""
    found, width = speeds(), 440
    picture = Picture(LEFT + width + RIGHT, 74 + len(JOBS) * (GAP + len(PEERS) * (BAR + 6)), "Messages a second, on a logarithmic axis")

    def across(rate):
        return LEFT + width * (math.log10(rate) - math.log10(LOWEST)) / (math.log10(HIGHEST) - math.log10(LOWEST))

    top, foot = 12, picture.height - 50
    for power in range(round(math.log10(LOWEST)), round(math.log10(HIGHEST)) + 1):
        picture.line([(across(10**power), top), (across(10**power), foot)], head=False, dashed=True)
        picture.text(across(10**power), foot + 18, f"{10**power:,}", "middle", "faint", SMALL)
    picture.text(LEFT + width / 2, foot + 38, "messages a second", "middle", "faint")
    for job, shown in JOBS.items():
        picture.text(LEFT - 10, top + 16, shown, "end", bold=True)
        top += GAP
        for peer, name in PEERS.items():
            rate = found[job][peer]
            picture.bar(Box(LEFT, top, across(rate) - LEFT, BAR), "proved" if name == "mqserve" else "plain")
            picture.text(LEFT - 10, top + 13, name, "end")
            picture.text(across(rate) + 6, top + 13, f"{rate:,}", size=SMALL)
            top += BAR + 6
    return picture.svg()


def layers():
    """The crates by layer: one uses crates of lower layers alone, and one of the layer right below its own."""
    uses, found = programs.uses(), {}

    def layer(crate):
        if crate not in found:
            found[crate] = 1 + max(map(layer, uses[crate]), default=0)
        return found[crate]

    highest = max(map(layer, uses))
    return [[crate for crate in uses if found[crate] == number] for number in range(1, highest + 1)]


def drawn_crates():
    """A row for each layer, the lowest at the foot."""
    rows = layers()
    picture = Picture(16 + CRATE * max(map(len, rows)), 44 + ROW * len(rows), "The crates: one uses only crates of lower rows")
    for number, row in enumerate(rows, 1):
        left = (picture.width - CRATE * len(row)) / 2
        for place, name in enumerate(row):
            box = Box(left + CRATE * place + 3, 8 + ROW * (len(rows) - number), CRATE - 6, ROW - 10)
            picture.box(box, "tested" if name.startswith(OF_TESTS) else "proved", [])
            picture.text(box.middle, box.centre + 4, name, "middle", size=SMALL, room=box.width)
    picture.text(picture.width / 2, picture.height - 12, "One uses only crates of lower rows. Blue: tests and measurements.", "middle", "faint", SMALL + 1)
    return picture.svg()


def drawn():
    """Each picture's path, and what it must be."""
    yield PICTURES / "speeds.svg", drawn_speeds()
    yield PICTURES / "crates.svg", drawn_crates()
    for path in sorted(PICTURES.glob("*.txt")):
        yield path.with_suffix(".svg"), drawn_text(path)


def main(words):
    is_check, stale = words == ["--check"], 0
    for path, wanted in drawn():
        if path.exists() and path.read_text(encoding="utf-8") == wanted:
            continue
        stale += 1
        print(f"{path.relative_to(ROOT)} {'is stale: make pictures draws it' if is_check else 'is drawn'}")
        if not is_check:
            path.write_text(wanted, encoding="utf-8")
    return 1 if is_check and stale else 0


if __name__ == "__main__":
    try:
        sys.exit(main(sys.argv[1:]))
    except TooWide as text:
        sys.exit(str(text))
