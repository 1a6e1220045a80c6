"""Plots the figures of peers.py as an SVG."""

import math
import statistics

LEFT, WIDTH, RIGHT = 250, 420, 90
TOP, ROW, GAP, BOTTOM = 20, 18, 44, 46

OUR_COLOUR, OTHERS = "#d95f02", "#555555"


def shown_count(number):
    """With three significant digits."""
    return f"{int(float(f'{number:.3g}')):,}"


def decades(figures):
    """The powers of ten between which all rates lie."""
    rates = [it.rate for each in figures.values() for it in each]
    low = math.floor(math.log10(min(rates)))
    return low, max(low + 1, math.ceil(math.log10(max(rates))))


def text(x, y, words, anchor="start", style=""):
    return f'<text x="{x:.1f}" y="{y:.1f}" text-anchor="{anchor}"{style}>{words}</text>'


def line(x1, y1, x2, y2, colour, width):
    ends = f'x1="{x1:.1f}" y1="{y1:.1f}" x2="{x2:.1f}" y2="{y2:.1f}"'
    return f'<line {ends} stroke="{colour}" stroke-width="{width}"/>'


def plot(works, peers, ours, figures):
    """A panel for each work: a line from the least rate of each peer to the greatest, and a dot for the median."""
    low, high = decades(figures)

    def across(rate):
        return LEFT + WIDTH * (math.log10(rate) - low) / (high - low)

    marks, y = [], TOP
    for work in works:
        marks.append(text(LEFT, y, work.shown, style=' font-weight="bold"'))
        for peer in (peer for peer in peers if (work, peer) in figures):
            y += ROW
            rates = [it.rate for it in figures[work, peer]]
            median = statistics.median(rates)
            colour = OUR_COLOUR if peer in ours else OTHERS
            marks.append(text(LEFT - 10, y + 4, peers[peer], "end"))
            marks.append(line(across(min(rates)), y, across(max(rates)), y, colour, 2))
            marks.append(f'<circle cx="{across(median):.1f}" cy="{y}" r="4" fill="{colour}"/>')
            marks.append(text(LEFT + WIDTH + RIGHT - 10, y + 4, shown_count(median), "end"))
        y += GAP
    foot = y - GAP + ROW
    grid = []
    for decade in range(low, high + 1):
        x = across(10**decade)
        grid.append(line(x, TOP + 6, x, foot, "#dddddd", 1))
        grid.append(text(x, foot + 16, f"{10**decade:,}", "middle"))
    grid.append(text(LEFT + WIDTH / 2, foot + 34, "messages a second", "middle"))
    size = f'width="{LEFT + WIDTH + RIGHT}" height="{foot + BOTTOM}"'
    head = f'<svg xmlns="http://www.w3.org/2000/svg" {size} font-family="sans-serif" font-size="12">'
    return "\n".join([head, '<rect width="100%" height="100%" fill="white"/>', *grid, *marks, "</svg>\n"])
