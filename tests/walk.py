#!/usr/bin/env python3
"""Walks docs/WALK.md anew, and compares each file to the byte with docs/walk, and each reading with the page.

    walk.py             lists the sheets with `rt run` in crates/directions, which first proves and builds what is not
    walk.py PROGRAM     lists them with PROGRAM, a built `directions`
"""
import csv
import os
import re
import struct
import subprocess
import sys

TOP = os.path.join(os.path.dirname(os.path.abspath(__file__)), "..")
PROGRAM = os.path.abspath(sys.argv[1]) if sys.argv[1:] else None
failed = 0


def stored(path):
    with open(os.path.join(TOP, "docs", path), "rb") as file:
        return file.read()


def made(tool, *words, given=b""):
    command = [sys.executable, os.path.join("tools", tool), *words]
    return subprocess.run(command, cwd=TOP, input=given, stdout=subprocess.PIPE, check=True).stdout


def listed(sheet):
    command, folder = ([PROGRAM], TOP) if PROGRAM else (["rt", "run"], os.path.join(TOP, "crates/directions"))
    done = subprocess.run(command, cwd=folder, input=sheet, stdout=subprocess.PIPE, stderr=subprocess.PIPE)
    if done.returncode != 0:
        sys.exit("walk: directions fails:\n" + done.stderr.decode())
    return done.stdout


def agree(what, is_so):
    global failed
    failed += not is_so
    print("walk: %s: %s" % (what, "the same" if is_so else "NOT the same"))


def rows(name, told):
    """A line of the page's table for each person of a CSV."""
    people = list(csv.reader(stored("walk/%s.csv" % name).decode().splitlines()))[1:]
    return ["| %s |" % " | ".join([person] + told(list(map(int, cells)))) for person, *cells in people]


def signed(number):
    return ("%d" % number).replace("-", "−")


def entries(sheet, names):
    """The lines of the page's table of how far measures go together, for a sheet with whole numbers."""
    form = "<BHHd" if sheet[1] == 0 else "<BHHdd"
    cells = {}
    for _, row, column, across, *along in struct.iter_unpack(form, sheet[4:-1]):
        cells[column, row] = ", ".join(map(signed, [across, *(-part for part in along)]))
        cells[row, column] = ", ".join(map(signed, [across, *along]))
    return ["| **%s** | " % name.capitalize() + " | ".join(cells[row, column] for column in range(len(names))) + " |"
            for row, name in enumerate(names)]


def told_of_measures(cells):
    off = [cell - mean for cell, mean in zip(cells, (76, 102, 104))]
    return list(map(signed, cells + off + [off[0] * off[1]]))


def told_of_points(cells):
    return ["%d, %d" % point for point in zip(cells[0::2], cells[1::2])]


def walk(name, kind, names, page, table):
    sheet = made("make_sheet.py", *kind, given=stored("walk/%s.csv" % name))
    agree(name + ".sheet", sheet == stored("walk/%s.sheet" % name))
    listing = listed(sheet)
    agree(name + ".listing", listing == stored("walk/%s.listing" % name))
    reading = made("read_listing.py", *names, given=listing).decode()
    agree("the reading of %s.listing" % name, "\n\n" + re.sub("^", "    ", reading[:-1], flags=re.M) + "\n\n" in page)
    agree("the page's table of " + name, "\n".join(["|", *table, ""]) in page)
    agree("the page's table of how far they go together", "\n".join(["|", *entries(sheet, names), ""]) in page)
    return sheet


def main():
    page = stored("WALK.md").decode()
    sheet = walk("people", [], ["waist", "hip", "length"], page, rows("people", told_of_measures))
    walk("points", ["outline"], ["underarm", "shoulder", "neck"], page, rows("points", told_of_points))
    agree("the page's bytes of people.sheet", bytes.fromhex("".join(re.findall("^    ((?:[0-9A-F]{2} )+)", page, re.M))) == sheet)
    agree("walk.svg", made("draw_directions.py", "docs/walk/people.csv", "docs/walk/people.listing") == stored("walk.svg"))
    if failed:
        sys.exit("walk: %d of these differ" % failed)


main()
