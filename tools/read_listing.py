#!/usr/bin/env python3
"""Reads a listing (docs/SHEETS.md) and says beside each line, in decimals, what it means (docs/WALK.md).

    read_listing.py [NAME..] < LISTING

The names are those of the measures or points, in the order of the sheet; without them each is called by its row.
"""
import math
import struct
import sys

KINDS = {"0": "measures", "1": "points"}
REFUSALS = {
    "2": "the sheet is too long",
    "3": "the entry's size is not finite",
    "4": "the tolerance is below zero or not finite",
    "5": "the limit is 0 or above 1,000,000",
    "7": "the table was not settled before its limit of passes",
    "8": "two of the table's values could not be worked out",
    "10": "no command has this byte",
    "11": "the sheet ends inside the command",
    "12": "the command is not allowed there",
    "13": "a kind, side, row, column or second part that cannot be",
    "14": "it was given before",
}


def number(bits):
    """The binary64 that sixteen hexadecimal digits stand for, the highest first."""
    return struct.unpack(">d", bytes.fromhex(bits))[0]


def decimal(bits):
    return "%.4g" % number(bits)


def share(value, values):
    """A value's part of their sum. There is none where a value is below zero by more than rounding leaves."""
    total = math.fsum(values)
    if total > 0 and min(values) >= -1e-9 * max(values):
        value = max(value, 0.0)
        return ", %.1f%% of all, spread %.4g" % (100 * value / total, math.sqrt(value))
    return ""


def meaning(fields, values, names):
    if fields[0] == "kind":
        kind, side, largest, passes = fields[1::2]
        return "%s %s, largest size %s, settled in %s passes" % (side, KINDS[kind], decimal(largest), passes)
    if fields[0] == "value":
        direction, bits = fields[1:]
        return "direction %s: value %s%s" % (direction, decimal(bits), share(number(bits), values))
    if fields[0] == "row":
        row, direction, *parts = fields[1], fields[3], *fields[4:]
        told = "%s" if len(parts) == 1 else "%s across, %s along"
        return "direction %s: %s " % (direction, names.get(row, "row " + row)) + told % tuple(map(decimal, parts))
    return "at byte %s: %s" % (fields[3], REFUSALS[fields[1]])


def read(listing, names):
    lines = [line.split() for line in listing]
    values = []
    for place, fields in enumerate(lines):
        if fields[0] == "kind":
            values = [number(value[2]) for value in lines[place + 1:place + 1 + int(fields[3])]]
        yield "%-49s %s" % (" ".join(fields), meaning(fields, values, names))


for told in read(sys.stdin, {str(row): name for row, name in enumerate(sys.argv[1:])}):
    print(told)
