#!/usr/bin/env python3
"""Writes a sheet with the table of how far measures go together (docs/WALK.md).

    make_sheet.py < PEOPLE.csv > SHEET             a real table: one column for each measure
    make_sheet.py outline < POINTS.csv > SHEET     an outline table: two columns for each point, across and along

The first line of the CSV has the names of the columns, and each further line a person, the name first.
"""
import csv
import struct
import sys
from fractions import Fraction

REAL, OUTLINE = 0, 1
OPEN, REAL_ENTRY, OUTLINE_ENTRY, CLOSE_WITH_VECTORS = 1, 2, 3, 7


def columns(lines, kind):
    """For each measure or point a list with a pair for each person. A measure has no second part: it is 0."""
    people = [[Fraction(cell) for cell in row[1:]] for row in list(csv.reader(lines))[1:]]
    if kind == REAL:
        return [[(x, Fraction(0)) for x in column] for column in zip(*people)]
    parts = list(zip(*people))
    return [list(zip(across, along)) for across, along in zip(parts[0::2], parts[1::2])]


def mean(numbers):
    return sum(numbers) / len(numbers)


def from_mean(column):
    across, along = (mean(part) for part in zip(*column))
    return [(x - across, y - along) for x, y in column]


def together(ones, others):
    """The mean of one times the conjugate of the other, which for measures is the mean of their products."""
    return (
        mean([a * c + b * d for (a, b), (c, d) in zip(ones, others)]),
        mean([b * c - a * d for (a, b), (c, d) in zip(ones, others)]),
    )


def sheet(lines, kind):
    measures = [from_mean(column) for column in columns(lines, kind)]
    # In these formats < is little-endian without gaps, B one byte, H two bytes, and d a binary64 in eight bytes.
    out = struct.pack("<BBH", OPEN, kind, len(measures))
    for column in range(len(measures)):
        for row in range(column, len(measures)):
            # The entry is a fraction with all its digits up to here: float rounds it, once.
            across, along = (float(part) for part in together(measures[row], measures[column]))
            if kind == REAL:
                out += struct.pack("<BHHd", REAL_ENTRY, row, column, across)
            else:
                out += struct.pack("<BHHdd", OUTLINE_ENTRY, row, column, across, along)
    return out + struct.pack("<B", CLOSE_WITH_VECTORS)


sys.stdout.buffer.write(sheet(sys.stdin, OUTLINE if sys.argv[1:] == ["outline"] else REAL))
