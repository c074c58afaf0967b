#!/usr/bin/env python3
"""Draws people by their first two measures, with the main directions of the whole table (docs/WALK.md).

    draw_directions.py PEOPLE.csv LISTING > PICTURE.svg

LISTING is that of the sheet that make_sheet.py makes of PEOPLE.csv. Only sums, products, quotients and roots are taken, which
round alike on every machine, and each place is a whole number: the same files always give the same bytes.
"""
import csv
import html
import math
import struct
import sys

# Ten of the picture's units are one dot of the screen.
PLOT, LEFT, TOP, RIGHT, UNDER, LINE = 4600, 700, 200, 250, 700, 220
# How far from the mean the ellipse and the lines go.
SPREADS = 2
# The lines of the directions with the largest values; further ones are not drawn.
STYLES = (("#1f4e9c", "none"), ("#b3450b", "160 60"), ("#1d7335", "40 50"))
# A quarter of a circle is drawn as the cubic curve with such handles, which is as good as one.
HANDLE = 0.5522847498
QUARTERS = (((1, HANDLE), (HANDLE, 1), (0, 1)), ((-HANDLE, 1), (-1, HANDLE), (-1, 0)),
            ((-1, -HANDLE), (-HANDLE, -1), (0, -1)), ((HANDLE, -1), (1, -HANDLE), (1, 0)))


def read_people(path):
    with open(path, encoding="utf-8") as file:
        head, *rows = csv.reader(file)
    return [html.escape(name) for name in head[1:]], [(html.escape(row[0]), [float(cell) for cell in row[1:]]) for row in rows]


def number(bits):
    return struct.unpack(">d", bytes.fromhex(bits))[0]


def read_directions(path):
    """Each direction's value, numbers and place in the listing, the largest value first."""
    with open(path, encoding="utf-8") as file:
        lines = [line.split() for line in file]
    directions = [(max(number(line[2]), 0.0), [], int(line[1])) for line in lines if line[0] == "value"]
    for line in lines:
        if line[0] == "row":
            directions[int(line[3])][1].append(number(line[4]))
    return sorted(directions, reverse=True)


def circle_to_ellipse(directions):
    """What takes the circle of radius 1 to the ellipse, both around 0. It is the shadow of the body with all the directions."""
    # fsum rounds once: sum does not do the same in every Python.
    xx, xy, yy = (math.fsum(value * d[i] * d[j] for value, d, _ in directions) for i, j in ((0, 0), (0, 1), (1, 1)))
    across = math.sqrt(xx)
    slope = xy / across if across > 0 else 0.0
    up = math.sqrt(max(yy - slope * slope, 0.0))
    return lambda x, y: (SPREADS * across * x, SPREADS * (slope * x + up * y))


class Frame:
    """Whole fives of centimetres around all places, one scale both ways."""

    def __init__(self, places):
        self.low, self.high = zip(*((5 * math.floor(min(part) / 5), 5 * math.ceil(max(part) / 5)) for part in zip(*places)))
        self.scale = PLOT // max(high - low for low, high in zip(self.low, self.high))
        self.width, self.height = (self.scale * (high - low) for low, high in zip(self.low, self.high))

    def at(self, place):
        x, y = place
        return LEFT + round(self.scale * (x - self.low[0])), TOP + round(self.scale * (self.high[1] - y))


def grid(frame, names):
    right, bottom = LEFT + frame.width, TOP + frame.height
    for x in range(frame.low[0], frame.high[0] + 1, 5):
        at, _ = frame.at((x, 0))
        yield '<path d="M%d %dV%d" stroke="#dddddd" stroke-width="8"/>' % (at, TOP, bottom)
        yield '<text x="%d" y="%d" text-anchor="middle">%d</text>' % (at, bottom + 220, x)
    for y in range(frame.low[1], frame.high[1] + 1, 5):
        _, at = frame.at((0, y))
        yield '<path d="M%d %dH%d" stroke="#dddddd" stroke-width="8"/>' % (LEFT, at, right)
        yield '<text x="%d" y="%d" text-anchor="end">%d</text>' % (LEFT - 70, at + 50, y)
    yield '<text x="%d" y="%d" text-anchor="middle">%s, cm</text>' % (LEFT + frame.width // 2, bottom + 450, names[0])
    x, y = 180, TOP + frame.height // 2
    yield '<text x="%d" y="%d" text-anchor="middle" transform="rotate(-90 %d %d)">%s, cm</text>' % (x, y, x, y, names[1])


def ellipse(frame, mean, to_ellipse):
    def at(place):
        x, y = to_ellipse(*place)
        return "%d %d" % frame.at((mean[0] + x, mean[1] + y))

    curves = "".join("C" + " ".join(map(at, quarter)) for quarter in QUARTERS)
    return '<path d="M%s%sZ" fill="#f3f0e6" stroke="#777777" stroke-width="12"/>' % (at((1, 0)), curves)


def lines(frame, mean, directions):
    for (colour, dashes), (value, d, which) in zip(STYLES, directions):
        x, y = (SPREADS * math.sqrt(value) * part for part in d[:2])
        if x > 0:
            x, y = -x, -y
        ends = frame.at((mean[0] - x, mean[1] - y)) + frame.at((mean[0] + x, mean[1] + y))
        yield '<path d="M%d %dL%d %d" stroke="%s" stroke-width="34" stroke-dasharray="%s"/>' % (*ends, colour, dashes)
        # The number stands 1.2 cm beyond the left end.
        length = math.sqrt(x * x + y * y)
        further = 1 + 1.2 / length if length > 0 else 1
        at = frame.at((mean[0] + further * x, mean[1] + further * y))
        yield '<text x="%d" y="%d" text-anchor="middle" font-weight="bold" fill="%s">%d</text>' % (at[0], at[1] + 55, colour, which)


def dots(frame, people):
    for name, measures in people:
        x, y = frame.at(measures[:2])
        yield '<circle cx="%d" cy="%d" r="45"/>' % (x, y)
        yield '<text x="%d" y="%d">%s</text>' % (x + 65, y + 55, name)


def words(frame, directions, names):
    total = math.fsum(value for value, _, _ in directions)
    top = TOP + frame.height + UNDER
    for place, ((colour, dashes), (value, d, which)) in enumerate(zip(STYLES, directions)):
        y = top + place * LINE
        yield '<path d="M%d %dh440" stroke="%s" stroke-width="34" stroke-dasharray="%s"/>' % (LEFT, y, colour, dashes)
        told = ", ".join(["%s %.2f" % pair for pair in zip(names[:3], d)] + [".."] * (len(names) > 3))
        share = 100 * value / total
        yield '<text x="%d" y="%d" font-size="145">direction %d, %.1f%%: %s</text>' % (LEFT + 540, y + 50, which, share, told)


def picture(people_path, listing_path):
    names, people = read_people(people_path)
    directions = read_directions(listing_path)
    mean = [math.fsum(part) / len(people) for part in zip(*(measures[:2] for _, measures in people))]
    to_ellipse = circle_to_ellipse(directions)
    reach = [to_ellipse(x, y) for quarter in QUARTERS for x, y in quarter]
    frame = Frame([measures[:2] for _, measures in people] + [(mean[0] + x, mean[1] + y) for x, y in reach])
    width = LEFT + frame.width + RIGHT
    height = TOP + frame.height + UNDER + min(len(STYLES), len(directions)) * LINE
    yield '<svg xmlns="http://www.w3.org/2000/svg" width="%d" height="%d" viewBox="0 0 %d %d" font-family="sans-serif" ' \
        'font-size="160">' % (width // 10, height // 10, width, height)
    yield "<title>%s and %s of %d people, and the main directions</title>" % (names[0], names[1], len(people))
    yield '<rect width="%d" height="%d" fill="#ffffff"/>' % (width, height)
    yield from grid(frame, names)
    yield ellipse(frame, mean, to_ellipse)
    yield from lines(frame, mean, directions)
    yield from dots(frame, people)
    yield from words(frame, directions, names)
    yield "</svg>"


print("\n".join(picture(*sys.argv[1:])))
