#!/usr/bin/env python3
"""A model of the sheet format (docs/SHEETS.md), written apart from the code, and the sheets of the tests.

    sheets.py list                  the sheets, a line of hexadecimal digits each
    sheets.py one HEX               the listing of one sheet, with # for passes and * for each number that solving gives
    sheets.py expect < LISTINGS     the listings of all sheets, a line each with a bar for each newline

LISTINGS are those that a program over nalgebra itself writes (docs/COMPARISON.md), in the form that `expect` writes. `expect` holds
each against the model, field by field: what is read of the sheet must be the model's, and where the model has a mark a number of
that form must stand; in place of a table the refusal may stand that solving it gives. It writes what passed, and ends at what
does not.
"""
import math
import random
import re
import struct
import sys

MARKS = {"#": "[0-9]+", "*": "[0-9A-F]{16}"}
OPERANDS = {1: 3, 2: 12, 3: 20, 4: 8, 5: 4, 6: 0, 7: 0}


def bits(x):
    return "7FF8000000000000" if x != x else "%016X" % struct.unpack("<Q", struct.pack("<d", x))[0]


def size(parts):
    return abs(parts[0]) if len(parts) == 1 else abs(parts[0]) + abs(parts[1])


def listing(sheet):
    """the lines, each with the place of the command that it is told for"""
    if len(sheet) > 32768:
        return [("refused 2 at 0", 0)]
    lines, place, table = [], 0, None
    while place < len(sheet):
        code = sheet[place]
        if code not in OPERANDS:
            return lines + [("refused 10 at %d" % place, place)]
        operands = sheet[place + 1:place + 1 + OPERANDS[code]]
        if len(operands) < OPERANDS[code]:
            return lines + [("refused 11 at %d" % place, place)]
        table, told, number = command(code, operands, table)
        if number:
            return lines + [("refused %d at %d" % (number, place), place)]
        lines += [(line, place) for line in told]
        place += 1 + OPERANDS[code]
    return lines


def command(code, operands, table):
    """(the table open afterwards, the lines listed, the refusal's number or 0)"""
    if code == 1:
        if table is not None:
            return table, [], 12
        kind, side = struct.unpack("<BH", operands)
        if kind > 1 or not 1 <= side <= 32:
            return table, [], 13
        return dict(kind=kind, side=side, cells={}, tolerance=None, limit=None), [], 0
    if table is None or (code == 2 and table["kind"] != 0) or (code == 3 and table["kind"] != 1):
        return table, [], 12
    if code in (2, 3):
        row, column, *parts = struct.unpack("<HH" + "d" * (code - 1), operands)
        if row < column or row >= table["side"] or (row == column and code == 3 and parts[1] != 0):
            return table, [], 13
        if not math.isfinite(size(parts)):
            return table, [], 3
        if (row, column) in table["cells"]:
            return table, [], 14
        return dict(table, cells={**table["cells"], (row, column): parts}), [], 0
    if code == 4:
        (tolerance,) = struct.unpack("<d", operands)
        if not math.isfinite(tolerance) or tolerance < 0:
            return table, [], 4
        if table["tolerance"] is not None:
            return table, [], 14
        return dict(table, tolerance=tolerance), [], 0
    if code == 5:
        (limit,) = struct.unpack("<I", operands)
        if not 1 <= limit <= 1000000:
            return table, [], 5
        if table["limit"] is not None:
            return table, [], 14
        return dict(table, limit=limit), [], 0
    largest = max([0.0] + [size(parts) for parts in table["cells"].values()])
    side = range(table["side"])
    lines = ["kind %d side %d largest %s passes #" % (table["kind"], table["side"], bits(largest))]
    lines += ["value %d *" % i for i in side]
    if code == 7:
        lines += ["row %d column %d *" % (r, c) + " *" * table["kind"] for c in side for r in side]
    return None, lines, 0


def open_(kind, side):
    return struct.pack("<BBH", 1, kind, side)


def entry(row, column, *parts):
    return struct.pack("<BHH" + "d" * len(parts), 1 + len(parts), row, column, *parts)


def tolerance(x):
    return struct.pack("<Bd", 4, x)


def limit(n):
    return struct.pack("<BI", 5, n)


VALUES, VECTORS = b"\x06", b"\x07"
INF, NAN = math.inf, math.nan
REAL = open_(0, 2) + entry(1, 0, 1.0)
OUTLINE = open_(1, 2) + entry(1, 0, 2.0, -3.0)


def sheets():
    # whole sheets: nothing, an open table, each kind, several tables, defaults and limits
    yield from (b"", open_(0, 1), open_(0, 1) + VALUES, open_(1, 32) + VECTORS, REAL + VALUES, OUTLINE + VECTORS)
    yield open_(0, 3) + entry(0, 0, 4.0) + entry(1, 0, 2.0) + entry(1, 1, 3.0) + entry(2, 2, 1.0) + VALUES
    yield REAL + VALUES + OUTLINE + VALUES + open_(0, 1) + entry(0, 0, -7.5) + VECTORS
    yield open_(0, 2) + entry(0, 0, -0.0) + entry(1, 1, 5e-324) + VALUES + OUTLINE + tolerance(-0.0) + limit(1000000) + VALUES
    yield open_(1, 2) + entry(0, 0, 3.0, -0.0) + entry(1, 0, 1e308, -7e307) + tolerance(1e-300) + limit(1) + VECTORS
    yield open_(0, 32) + b"".join(entry(r, c, r - 40.5 * c) for r in range(32) for c in range(r + 1)) + VALUES
    # every refusal, alone and after a table that stays listed
    bad = [
        b"\x00", b"\x08", b"\xff", b"\x01", b"\x01\x00\x02", REAL + b"\x00", REAL + b"\x02\x00\x00\x00\x00\x00",
        REAL + open_(0, 2), REAL + b"\x01\x00", entry(0, 0, 1.0), entry(0, 0, 1.0, 0.0), tolerance(0.5), limit(5), VALUES, VECTORS,
        REAL + entry(1, 0, 1.0, 1.0), OUTLINE + entry(1, 0, 1.0), REAL + VALUES + VALUES, REAL + VALUES + limit(3),
        open_(2, 2), open_(255, 2), open_(0, 0), open_(1, 0), open_(0, 33), open_(0, 65535),
        REAL + entry(0, 1, 1.0), REAL + entry(2, 0, 1.0), REAL + entry(2, 2, 1.0), REAL + entry(65535, 0, 1.0),
        OUTLINE + entry(1, 1, 1.0, 1.0), OUTLINE + entry(1, 1, 1.0, NAN), OUTLINE + entry(0, 0, INF, 5e-324),
        REAL + entry(1, 1, INF), REAL + entry(1, 1, -INF), REAL + entry(1, 1, NAN), OUTLINE + entry(1, 1, NAN, 0.0),
        open_(1, 2) + entry(1, 0, 1e308, 1e308), open_(1, 2) + entry(1, 0, 0.0, NAN), REAL + entry(1, 0, INF),
        REAL + tolerance(-5e-324), REAL + tolerance(-1.0), REAL + tolerance(INF), REAL + tolerance(NAN),
        REAL + tolerance(0.0) + tolerance(-1.0), REAL + limit(0), REAL + limit(1000001), REAL + limit(0xFFFFFFFF),
        REAL + limit(9) + limit(0),
        REAL + entry(1, 0, 2.0), OUTLINE + entry(1, 0, 2.0, -3.0), open_(0, 1) + entry(0, 0, 0.0) + entry(0, 0, 0.0),
        REAL + tolerance(0.0) + tolerance(0.0), REAL + limit(9) + limit(9),
    ]
    for sheet in bad:
        yield sheet
        yield OUTLINE + VALUES + sheet + VALUES + REAL + VALUES
    # a sheet cut at every byte
    whole = REAL + tolerance(0.25) + limit(7) + VALUES + OUTLINE + entry(1, 1, 4.0, 0.0) + VECTORS + b"\x01"
    for n in range(len(whole) + 1):
        yield whole[:n]
    # damaged copies: each byte changed once, and bytes drawn at random
    draw = random.Random(20)
    for n in range(len(whole)):
        yield whole[:n] + bytes([whole[n] ^ 1 << draw.randrange(8)]) + whole[n + 1:]
    for n in range(120):
        yield bytes(draw.choice((0, 1, 1, 2, 3, 4, 5, 6, 7, 8, 255)) for _ in range(draw.randrange(1, 60)))
    yield from solved(random.Random(21))


def table(kind, rows, *options, ask=VECTORS):
    """a table by its lower rows, from the top; zeros are not typed"""
    cells = [(r, c, x) for r, row in enumerate(rows) for c, x in enumerate(row) if x != 0]
    typed = b"".join(entry(r, c, *([x] if kind == 0 else [x.real, 0.0 if r == c else x.imag])) for r, c, x in cells)
    return open_(kind, len(rows)) + typed + b"".join(options) + ask


def solved(draw):
    """sheets whose tables are hard to solve, or not solved, or of many sides"""
    # known values, and refusals of the solver: alone, behind a solved table, and before what is not read
    swap = [[0.0], [1.0, 0.0]]
    for rows in ([[-3.0]], [[0.0], [0.0, 0.0]], swap, [[0.0], [5.0, 0.0]], [[2.0], [1.0, 3.0], [1.0, 1.0, 4.0]]):
        for n in (1, 2, 3):
            yield table(0, rows, limit(n))
    yield table(0, swap, ask=VALUES) + table(0, swap, limit(1)) + table(0, swap) + b"\x09"
    yield table(0, swap, limit(1), ask=VALUES) + b"\x02\x00"
    yield table(0, swap, limit(2)) + open_(0, 2) + entry(1, 0, 1.0) + entry(1, 0, 1.0)
    # where the steps that are taken lose digits, as docs/DIFFERENCES.md tells
    small = 2.0 ** -537
    yield table(0, [[0.0], [small, 0.0], [0.0, 1.0, 1.0]])
    yield table(0, [[1.0], [2.0 ** -27, 0.0], [0.0, 2.0 ** -530, 0.0]])
    yield table(0, [[1.0], [2.0 ** -27, 0.0], [0.0, 1.5 * 2.0 ** -511, 0.0]])
    yield table(0, [[1.0], [0.0, 0.0], [0.0, 2.0 ** -60, 0.0]])
    yield table(0, swap, tolerance(1.5))
    yield table(0, [[0.0], [1.0, 0.0], [1.0, 1.0, 0.0]], tolerance(0.0))
    yield table(0, [[0.0], [0.0, 0.0], [1.0, 3.0, 0.0]], tolerance(0.0), limit(40))
    yield table(1, [[0j], [2 + 3j, 0j]])
    yield table(1, [[0j], [1.5 * 2.0 ** -538 + 0j, 0j], [1 + 0j, 0j, 0j]])
    yield table(0, [[1e308], [-1e308, 1e308], [5e-324, 1e308, -1e308]])
    yield table(0, [[5e-324], [5e-324, 1e-323], [0.0, 5e-324, 0.0]])
    yield open_(1, 2) + entry(0, 0, 3.0, -0.0) + entry(1, 0, 1e308, -7e307) + tolerance(1e-300) + limit(9) + VECTORS
    # drawn: dense, banded, graded, of few values; both kinds, with values and with vectors
    for n in range(90):
        kind, side = n % 2, 1 + n * 5 % 9
        part = (lambda: draw.uniform(-1, 1)) if n % 3 else (lambda: draw.choice((-1.0, 0.0, 0.5, 2.0)))
        band, grade = draw.choice((1, 2, 9)), draw.choice((0, 0, 4, 40))
        rows = [[(complex(part(), part()) if kind else part()) * (r - c <= band) * 2.0 ** (-grade * (r + c)) for c in range(r + 1)]
                for r in range(side)]
        options = [tolerance(draw.choice((1e-3, 1e-9, 2.0 ** -52, 0.0)))] if n % 5 == 0 else []
        options += [limit(draw.choice((1, 2, 4, 7)))] if n % 7 == 0 else []
        yield table(kind, rows, *options, ask=VALUES if n % 4 == 3 else VECTORS)
    # the largest side
    whole = [[draw.uniform(-1, 1) for c in range(r + 1)] for r in range(32)]
    yield table(0, whole)
    yield table(1, [[complex(x, -x * x) for x in row] for row in whole], ask=VALUES)
    # the limit where none is typed, 1000: settled in 999 passes, and refused for needing 1000
    yield table(0, [[-1.0], [-2.0, 3.0], [0.5, -2.0, 1.5]], tolerance(0.0))
    yield table(0, [[3.0], [0.0, -2.0], [1.5, 0.0, 7.0]], tolerance(0.0))


def held(sheet, told):
    """whether a listing is one that the model allows: `told` are its lines"""
    model = listing(sheet)
    for n, line in enumerate(told):
        if n == len(model):
            return False
        wanted, place = model[n]
        fields, marks = line.split(" "), wanted.split(" ")
        # a table that is not solved lists nothing, and ends the listing
        if wanted.startswith("kind") and line in ("refused 7 at %d" % place, "refused 8 at %d" % place):
            return n + 1 == len(told)
        if len(fields) != len(marks) or not all(re.fullmatch(MARKS.get(m, m), f) for f, m in zip(fields, marks)):
            return False
    return len(told) == len(model)


def main():
    what = sys.argv[1] if len(sys.argv) > 1 else ""
    if what == "list":
        for sheet in sheets():
            print(sheet.hex().upper())
    elif what == "expect":
        listings = sys.stdin.read().splitlines()
        for sheet, line in zip(sheets(), listings, strict=True):
            if not held(sheet, line.split("|")[:-1]):
                sys.exit("not a listing of %s: %s" % (sheet.hex().upper(), line))
            print(line)
    elif what == "one":
        print("\n".join(line for line, place in listing(bytes.fromhex(sys.argv[2]))))
    else:
        sys.exit(__doc__)


main()
