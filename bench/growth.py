#!/usr/bin/env python3
"""Measures how the cost of a step grows with the number of things that there are.

For each kind of thing a script is run with 1,000, 10,000 and 100,000 of them by the program that was built. Prints the
microseconds of processor time a step, and writes the curves to growth.svg beside this file. An answer that is not the
one that the script must get ends it, with status 1 and without a figure.

Then it measures rounds of a server on one thread beside parked timed calls, as parked_rounds.py does by itself.
"""

import argparse
import math
import os
import subprocess
import sys
import tempfile
from pathlib import Path

from parked_rounds import show_rounds

HERE = Path(__file__).resolve().parent
PROGRAM = HERE.parent / "crates" / "mqserve" / "out" / "mqserve"
SIZES = (1_000, 10_000, 100_000)

# A session holds at most 1,024 descriptions.
HELD = 1_000

# A queue has room for so many messages at most.
MOST_MESSAGES = 65_536

USERS = "root:r00t:0:0::1000000000000000\n.\n"


def shuffled(n):
    """The numbers below n, in an order that is neither theirs nor its reverse."""
    stride = 7_919  # a prime that divides no size
    return [number * stride % n for number in range(n)]


def sessions(n):
    return [(f"s{s} hello r00t", f"s{s} started {s}") for s in range(n)]


def opened_queues(n):
    steps = sessions(-(-n // HELD))
    for q in range(n):
        label = f"s{q // HELD}"
        steps.append((f"{label} mq-open /q{q} rw --create --maxmsg 1 --msgsize 1", f"{label} opened {q}"))
    return steps


def closed_queues(n):
    return opened_queues(n) + [(f"s{q // HELD} mq-close {q}", f"s{q // HELD} done") for q in shuffled(n)]


def unlinked_queues(n):
    return closed_queues(n) + [(f"s0 mq-unlink /q{q}", "s0 done") for q in shuffled(n)]


def descriptions(n):
    steps = sessions(-(-n // HELD))
    steps += [(f"s{d // HELD} mq-open /q rw --create", f"s{d // HELD} opened {d}") for d in range(n)]
    return steps + [(f"s{d // HELD} mq-close {d}", f"s{d // HELD} done") for d in shuffled(n)]


def messages(n, priority_of):
    """One queue that gets n messages, or as many as it takes, and then gives them all."""
    n = min(n, MOST_MESSAGES)
    opened = f"s0 mq-open /q rw --create --maxmsg {MOST_MESSAGES} --msgsize 16"
    sent = [(priority_of(m), m) for m in range(n)]
    steps = sessions(1) + [(opened, "s0 opened 0")]
    steps += [(f"s0 mq-send 0 {priority} {m}", "s0 sent") for priority, m in sent]
    sent.sort(key=lambda it: -it[0])
    return steps + [("s0 mq-receive 0 16", f"s0 received {priority} {m}") for priority, m in sent]


def few_priorities(n):
    return messages(n, lambda m: m % 5)


def many_priorities(n):
    return messages(n, lambda m: m * 7_919 % 32_768)


def ended_sessions(n):
    return sessions(n) + [(f"s{s} hangup", None) for s in shuffled(n)]


def waiting_sessions(n):
    steps = sessions(n)
    steps += [(f"s{s} sem-open /s --create", f"s{s} opened {s}") for s in range(n)]
    return steps + [(f"s{s} sem-wait {s}", None) for s in range(n)]


def interrupted_sessions(n):
    steps = waiting_sessions(n)
    for s in shuffled(n):
        steps.append((f"s{s} interrupt", f"s{s} interrupted EINTR\ns{s} done"))
    return steps


# The first deadline of a timed wait.
SOON = 1_000


def timed_waits(n):
    """So many timed waits that are parked, each with a deadline of its own, in no order."""
    steps = sessions(n)
    steps += [(f"s{s} sem-open /s --create", f"s{s} opened {s}") for s in range(n)]
    return steps + [(f"s{s} sem-timedwait {s} {SOON + late}", None) for s, late in enumerate(shuffled(n))]


def ticks_of_nothing(n):
    return timed_waits(n) + [(f"z tick {number % SOON}", None) for number in range(n)]


def ticks_of_one(n):
    steps, ends = timed_waits(n), {late: s for s, late in enumerate(shuffled(n))}
    return steps + [(f"z tick {SOON + late}", f"s{ends[late]} refused 32 ETIMEDOUT TimedOut") for late in range(n)]


def records(n):
    steps = sessions(1) + [("s0 mq-open /q rw --create", "s0 opened 0")]
    return steps + [("s0 mq-getattr 0", "s0 attrs 0 10 8192 0") for _ in range(n)]


def sends_behind_records(n):
    steps = records(n)
    for m in range(PAIRS):
        steps += [(f"s0 mq-send 0 0 {m}", "s0 sent"), ("s0 mq-receive 0 8192", f"s0 received 0 {m}")]
    return steps


PAIRS = 20_000

# A name, the script, and the script of which only what it adds is measured.
KINDS = (
    ("queues opened and closed", closed_queues, None),
    ("queues unlinked", unlinked_queues, closed_queues),
    ("descriptions opened and closed", descriptions, None),
    ("messages of 5 priorities", few_priorities, None),
    ("messages of 32,768 priorities", many_priorities, None),
    ("sessions started and ended", ended_sessions, None),
    ("waiting sessions interrupted", interrupted_sessions, waiting_sessions),
    ("ticks that end no timed wait", ticks_of_nothing, timed_waits),
    ("ticks that end one each", ticks_of_one, timed_waits),
    ("sends and receives behind records", sends_behind_records, records),
)


def seconds_of(steps):
    """The processor time of a run of the steps."""
    with tempfile.TemporaryFile("w+") as source, tempfile.TemporaryFile("w+") as output:
        source.write(USERS + "".join(f"{words}\n" for words, _ in steps))
        source.flush()
        source.seek(0)
        child = subprocess.Popen(
            [PROGRAM, "script", "--queues-max", "65536", "--msg-max", "10"], stdin=source, stdout=output
        )
        _, status, usage = os.wait4(child.pid, 0)
        output.seek(0)
        if status or output.read() != "".join(f"{answer}\n" for _, answer in steps if answer):
            sys.exit("an answer is not the one that the script must get")
    return usage.ru_utime + usage.ru_stime


def microseconds(n, script, without, runs):
    """The processor time of a step, the least of the runs."""
    steps, fewer = script(n), without(n) if without else []
    best = min(seconds_of(steps) for _ in range(runs))
    if fewer:
        best -= min(seconds_of(fewer) for _ in range(runs))
    return best / (len(steps) - len(fewer)) * 1e6


COLOURS = ("#1b9e77", "#d95f02", "#7570b3", "#e7298a", "#66a61e", "#e6ab02", "#a6761d", "#666666", "#1f78b4", "#b2df8a")

LEFT, TOP, WIDTH, HEIGHT, KEYS = 70, 40, 420, 320, 270


def plot(curves):
    """The curves as an SVG: the number of things to the right, microseconds a step upwards, both by powers of ten."""
    highest = max(cost for _, costs in curves for cost in costs)
    decades = max(1, math.ceil(math.log10(highest)))

    def across(index):
        return LEFT + WIDTH * index / (len(SIZES) - 1)

    def up(cost):
        return TOP + HEIGHT - HEIGHT * math.log10(max(cost, 1)) / decades

    lines = [
        f'<svg xmlns="http://www.w3.org/2000/svg" width="{LEFT + WIDTH + KEYS}" height="{TOP + HEIGHT + 60}"'
        ' font-family="sans-serif" font-size="12">',
        '<rect width="100%" height="100%" fill="white"/>',
    ]
    for decade in range(decades + 1):
        y = up(10**decade)
        lines.append(f'<line x1="{LEFT}" y1="{y:.1f}" x2="{LEFT + WIDTH}" y2="{y:.1f}" stroke="#ddd"/>')
        lines.append(f'<text x="{LEFT - 8}" y="{y + 4:.1f}" text-anchor="end">{10**decade:,}</text>')
    for index, size in enumerate(SIZES):
        lines.append(f'<text x="{across(index):.1f}" y="{TOP + HEIGHT + 20}" text-anchor="middle">{size:,}</text>')
    lines.append(f'<text x="{LEFT + WIDTH / 2}" y="{TOP + HEIGHT + 45}" text-anchor="middle">number</text>')
    lines.append(f'<text x="{LEFT}" y="{TOP - 18}" text-anchor="middle">microseconds a step</text>')
    for (name, costs), colour, row in zip(curves, COLOURS, range(len(curves))):
        points = " ".join(f"{across(index):.1f},{up(cost):.1f}" for index, cost in enumerate(costs))
        y = TOP + 10 + 20 * row
        lines.append(f'<polyline points="{points}" fill="none" stroke="{colour}" stroke-width="2"/>')
        lines.append(f'<rect x="{LEFT + WIDTH + 15}" y="{y - 5}" width="14" height="3" fill="{colour}"/>')
        lines.append(f'<text x="{LEFT + WIDTH + 35}" y="{y}">{name}</text>')
    return "\n".join([*lines, "</svg>\n"])


def main():
    parser = argparse.ArgumentParser(description=__doc__)
    parser.add_argument("runs", nargs="?", type=int, default=3, help="runs of each script, 3 where nothing is given")
    runs = parser.parse_args().runs
    if not PROGRAM.exists():
        sys.exit("no program was built yet: run `make build` first")
    print(f"{'microseconds a step':36}" + "".join(f"{size:>12,}" for size in SIZES))
    curves = []
    for name, script, without in KINDS:
        costs = [microseconds(size, script, without, runs) for size in SIZES]
        print(f"{name:36}" + "".join(f"{cost:12.1f}" for cost in costs), flush=True)
        curves.append((name, costs))
    (HERE / "growth.svg").write_text(plot(curves))
    show_rounds(PROGRAM, runs)


if __name__ == "__main__":
    main()
