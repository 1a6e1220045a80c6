"""Boxes and arrows of a text:

    area KIND LEFT TOP WIDTH HEIGHT | HEADING
    box NAME KIND LEFT TOP WIDTH HEIGHT | LINE | LINE ..
    arrow NAME NAME [via X Y] [| LABEL]
    note LEFT TOP | WORDS

KIND is a colour of drawing.py, with `-` behind it for a dashed line. An arrow meets the sides of two boxes that face each other; one by way of
a corner leaves downwards or upwards and meets the other box from a side."""

from drawing import SMALL, Box, Picture


def middles(one, other):
    """Where an arrow leaves one box and meets the other."""
    if one.right <= other.left or other.right <= one.left:
        low, high = max(one.top, other.top), min(one.bottom, other.bottom)
        level = (low + high) / 2 if low < high else None
        ends = (one.right, other.left) if one.right <= other.left else (one.left, other.right)
        return [(ends[0], level or one.centre), (ends[1], level or other.centre)]
    low, high = max(one.left, other.left), min(one.right, other.right)
    ends = (one.bottom, other.top) if one.bottom <= other.top else (one.top, other.bottom)
    return [((low + high) / 2, ends[0]), ((low + high) / 2, ends[1])]


def by_corner(one, other, x, y):
    """The same by way of a corner, which is below or above the first box."""
    return [(x, one.bottom if y > one.bottom else one.top), (x, y), (other.left if x < other.left else other.right, y)]


def label(picture, points, words):
    """Above the arrow's last part, where it doesn't cross it; right of one that goes up or down."""
    (x, y), (to_x, to_y) = points[-2:]
    x, y, rise = (x + to_x) / 2, (y + to_y) / 2, (to_y - y) * (to_x - x)
    if x == to_x:
        picture.text(x + 8, y + 4, words, "start", "faint", SMALL)
    elif rise:
        picture.text(x + (8 if rise > 0 else -8), y - 6, words, "start" if rise > 0 else "end", "faint", SMALL)
    else:
        picture.text(x, y - 6, words, "middle", "faint", SMALL)


def draw(head, lines):
    width, height, title = head.split(" ", 2)
    picture, boxes = Picture(int(width), int(height), title), {}
    for line in lines:
        place, *words = [part.strip() for part in line.split("|")]
        what, *rest = place.split()
        if what == "area":
            picture.area(Box(*map(int, rest[1:])), rest[0], words[0])
        elif what == "box":
            boxes[rest[0]] = Box(*map(int, rest[2:]))
            picture.box(boxes[rest[0]], rest[1].rstrip("-"), words, rest[1].endswith("-"))
        elif what == "note":
            picture.text(int(rest[0]), int(rest[1]), words[0], kind="faint", size=SMALL + 1)
        else:
            ends = boxes[rest[0]], boxes[rest[1]]
            points = by_corner(*ends, *map(int, rest[3:])) if "via" in rest else middles(*ends)
            picture.line(points)
            if words:
                label(picture, points, words[0])
    return picture
