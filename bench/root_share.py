#!/usr/bin/env python3
"""How much of the time of `repeat KIND solve library SIDE COUNT` goes to drawing the digits of roots:

    bench/root_share.py PROGRAM KIND SIDE COUNT

PROGRAM is `repeat` as cargo made it. perf tells where the processor is, many times a second; a sample counts where it lies in a loop
that draws digits. The compiler puts the root into its callers, so such a loop is known by its form: a backward jump over at most 40
instructions of which four or more are moves on the carry, and none is of a float.
"""
import bisect
import re
import subprocess
import sys
import tempfile


def output(*words):
    return subprocess.run(words, capture_output=True, text=True, check=True).stdout


def digit_loops(program):
    """The loops that draw digits, each as its first and last address."""
    places, code = [], []
    for line in output("objdump", "-d", "--no-show-raw-insn", program).splitlines():
        found = re.match(r"\s+([0-9a-f]+):\t(\S+)\s*(.*)", line)
        if not found:
            continue
        place = int(found.group(1), 16)
        places.append(place)
        code.append(found.group(2))
        if not found.group(2).startswith("j"):
            continue
        target = re.match(r"([0-9a-f]+)", found.group(3))
        start = bisect.bisect_left(places, int(target.group(1), 16)) if target else len(places)
        body = code[start:]
        carry = sum(name in ("cmovb", "cmovae") for name in body)
        if 0 < len(body) <= 40 and carry >= 4 and not any(name.endswith(("sd", "ss", "pd", "ps")) for name in body):
            yield places[start], place


def mapped(events, program):
    """How far the program's code lies from the addresses in its file."""
    name = program.rsplit("/", 1)[-1]
    for line in events.splitlines():
        found = re.search(r"MMAP2? .*\[0x([0-9a-f]+)\(0x[0-9a-f]+\) @ (?:0x)?([0-9a-f]+) .*r-xp .*/" + re.escape(name) + "$", line)
        if found:
            return int(found.group(1), 16), int(found.group(2), 16)
    sys.exit("root_share.py: perf tells no place of the program")


def code_offset(program):
    """What an address of the code is more than its place in the file."""
    for line in output("readelf", "-lW", program).splitlines():
        words = line.split()
        if words[:1] == ["LOAD"] and "E" in line.split("0x")[-2]:
            return int(words[2], 16) - int(words[1], 16)
    sys.exit("root_share.py: no code in the program")


def main():
    if len(sys.argv) != 5:
        sys.exit("usage: root_share.py PROGRAM KIND SIDE COUNT")
    program, kind, side, count = sys.argv[1:]
    loops = sorted(digit_loops(program))
    with tempfile.NamedTemporaryFile() as data:
        record = ["perf", "record", "-q", "-F", "8000", "-e", "cpu-clock:u", "-o", data.name]
        subprocess.run([*record, program, kind, "solve", "library", side, count], check=True)
        told = output("perf", "script", "-i", data.name, "-F", "ip", "--show-mmap-events")
    start, offset = mapped(told, program)
    shift = offset - start + code_offset(program)
    samples = [int(line.strip(), 16) + shift for line in told.splitlines() if re.fullmatch(r"\s*[0-9a-f]+", line)]
    drawing = sum(any(first <= sample <= last for first, last in loops) for sample in samples)
    print(f"{kind} {side}: {100 * drawing / len(samples):.1f} % of {len(samples)} samples draw digits")


main()
