"""A sequence of a text, from top to bottom:

    ACTOR -> ACTOR | WORDS          a message; --> is a dashed one
    at ACTOR | WORDS | WORDS ..     what an actor does
    gap WORDS                       a line across, with words

Actors are numbered as the head names them, from 1 on."""

from drawing import LINE, SIZE, SMALL, WIDEST, Box, Picture

TOP, HEAD, STEP = 14, 34, 40


def heights(lines):
    for line in lines:
        yield STEP if not line.startswith("at ") else LINE * line.count("|") + 24


def step(picture, places, line, y):
    """One line of the text at this height."""
    place, *words = [part.strip() for part in line.split("|")]
    if place.startswith("gap "):
        picture.line([(10, y + 22), (picture.width - 10, y + 22)], dashed=True, head=False)
        room = len(place[4:]) * SIZE * WIDEST + 12
        picture.bar(Box(picture.width / 2 - room / 2, y + 11, room, 22), "paper")
        picture.text(picture.width / 2, y + 27, place[4:], "middle", bold=True)
    elif place.startswith("at "):
        room = picture.width / len(places) - 14
        box = Box(places[int(place[3:]) - 1] - room / 2, y, room, LINE * len(words) + 14)
        picture.box(box, "plain", [])
        for row, text in enumerate(words):
            picture.text(box.middle, y + 20 + row * LINE, text, "middle", size=SMALL + 1, room=room - 6)
    else:
        one, arrow, other = place.split()
        ends = places[int(one) - 1], places[int(other) - 1]
        picture.line([(ends[0], y + 26), (ends[1], y + 26)], dashed=arrow == "-->")
        picture.text(sum(ends) / 2, y + 19, words[0], "middle", size=SMALL + 1, room=abs(ends[0] - ends[1]) - 8)


def draw(head, lines):
    width, rest = head.split(" ", 1)
    actors = [actor.strip() for actor in rest.split("|")]
    title = actors.pop(0)
    width = int(width)
    picture = Picture(width, TOP + HEAD + 10 + sum(heights(lines)) + 14, title)
    places = [width * (2 * number + 1) / (2 * len(actors)) for number in range(len(actors))]
    foot = picture.height - 8
    for place, actor in zip(places, actors):
        picture.line([(place, TOP + HEAD), (place, foot)], head=False, dashed=True)
        picture.box(Box(place - 80, TOP, 160, HEAD), "tested", [actor])
    y = TOP + HEAD + 10
    for line, height in zip(lines, heights(lines)):
        step(picture, places, line, y)
        y += height
    return picture
