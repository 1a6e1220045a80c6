"""Draws boxes, arrows and text as an SVG that reads well on a light and on a dark page, and refuses text that its box may cut off."""

from html import escape

FONT = "system-ui, -apple-system, 'Segoe UI', Helvetica, Arial, 'DejaVu Sans', sans-serif"
SIZE, SMALL, LINE = 13, 11, 17
# The widest font that may be chosen takes about so much of its size for a character.
WIDEST = 0.6

# Each colour on a light page, and on a dark one.
COLOURS = {
    "paper": ("#ffffff", "#0d1117"),
    "ink": ("#1f2328", "#e6edf3"),
    "faint": ("#59636e", "#9198a1"),
    "plain": ("#f6f8fa", "#212830"),
    "proved": ("#dafbe1", "#12361f"),
    "tested": ("#ddf4ff", "#0c2d4d"),
    "trusted": ("#fff1e5", "#3d2410"),
}


class TooWide(Exception):
    """A text that its place may be too narrow for."""


def style():
    def rules(shade):
        for name, shades in COLOURS.items():
            yield f".{name} {{ fill: {shades[shade]}; }}"
        yield f".line {{ stroke: {COLOURS['faint'][shade]}; fill: none; }}"
        yield f".head {{ fill: {COLOURS['faint'][shade]}; }}"

    dark = " ".join(rules(1))
    return "\n".join([*rules(0), f"@media (prefers-color-scheme: dark) {{ {dark} }}"])


class Box:
    """Where something stands, and where arrows meet it."""

    def __init__(self, left, top, width, height):
        self.left, self.top, self.width, self.height = left, top, width, height
        self.right, self.bottom = left + width, top + height
        self.middle, self.centre = left + width / 2, top + height / 2


class Picture:
    def __init__(self, width, height, title):
        self.width, self.height, self.title, self.marks = width, height, title, []

    def text(self, x, y, words, anchor="start", kind="ink", size=SIZE, bold=False, room=None):
        """A line of text, which the room and the picture must be wide enough for."""
        width = len(words) * size * WIDEST
        left = {"start": x, "middle": x - width / 2, "end": x - width}[anchor]
        if left < 0 or left + width > self.width or (room is not None and width > room):
            raise TooWide(f"{self.title}: {words!r} takes up to {width:.0f}")
        weight = ' font-weight="600"' if bold else ""
        self.marks.append(f'<text x="{x:g}" y="{y:g}" text-anchor="{anchor}" font-size="{size}" class="{kind}"{weight}>{escape(words)}</text>')

    def box(self, box, kind, lines, dashed=False):
        """A box with lines of text in its middle, of which the first is the heading."""
        dashes = ' stroke-dasharray="5 4"' if dashed else ""
        place = f'x="{box.left:g}" y="{box.top:g}" width="{box.width:g}" height="{box.height:g}" rx="6"'
        self.marks += [f'<rect {place} class="{kind}"/>', f'<rect {place} class="line"{dashes}/>']
        top = box.centre - LINE * len(lines) / 2 + LINE - 4
        for row, words in enumerate(lines):
            size = SIZE if row == 0 else SMALL + 1
            self.text(box.middle, top + row * LINE, words, "middle", "ink" if row == 0 else "faint", size, row == 0, box.width - 8)

    def area(self, box, kind, heading):
        """A box around others, with its heading at the top."""
        self.box(box, kind, [])
        self.text(box.left + 12, box.top + 20, heading, bold=True, room=box.width - 20)

    def line(self, points, dashed=False, head=True):
        """A line through the points, with an arrow's head at its end."""
        dashes = ' stroke-dasharray="5 4"' if dashed else ""
        end = ' marker-end="url(#head)"' if head else ""
        path = " ".join(f"{x:g},{y:g}" for x, y in points)
        self.marks.append(f'<polyline points="{path}" class="line" stroke-width="1.5"{dashes}{end}/>')

    def bar(self, box, kind):
        place = f'x="{box.left:g}" y="{box.top:g}" width="{box.width:.1f}" height="{box.height:g}"'
        self.marks += [f'<rect {place} rx="2" class="{kind}"/>', f'<rect {place} rx="2" class="line"/>']

    def svg(self):
        size = f'width="{self.width:g}" height="{self.height:g}" viewBox="0 0 {self.width:g} {self.height:g}"'
        head = '<marker id="head" viewBox="0 0 10 10" refX="9" refY="5" markerWidth="7" markerHeight="7" orient="auto"><path d="M0,0 L10,5 L0,10 z" class="head"/></marker>'
        return "\n".join([
            f'<svg xmlns="http://www.w3.org/2000/svg" {size} font-family="{FONT}" role="img">',
            f"<title>{escape(self.title)}</title>",
            f"<style>\n{style()}\n</style>",
            f"<defs>{head}</defs>",
            f'<rect width="{self.width:g}" height="{self.height:g}" rx="8" class="paper"/>',
            *self.marks,
            "</svg>\n",
        ])
