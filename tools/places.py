#!/usr/bin/env python3
"""Lists the places in crates/*/src that docs/DESIGN-PASS.md counts, point by point: `tools/places.py [POINT]`.

A line is found by its form alone; docs/DESIGN-PASS.md says what became of each.
"""
import collections
import glob
import os
import re
import sys

LINES = {
    "1": [
        ("an enum", r"^(pub(\(crate\))? )?enum \w+"),
        ("a flag in a struct", r"^\s+(pub(\(crate\))? )?\w+: bool,"),
        ("a kind or a refusal as a number", r"\bkind: u8\b|\bnumber: u8\b|-> (Option<)?u8\b"),
        ("a refusal in an Option", r"Option<(Fault|Refusal|Rejected)>"),
        ("a Result in a Result", r"Result<Result<"),
        ("an Ok or an Err handed on by hand", r"^\s*(Ok\((\w+)\) => (Ok\(\2\)|\2),|Err\(\w+\) => (return )?(Ok\()?Err\(.*)"),
        ("an Option opened by hand", r"^\s*(None|Some\(\w+\)) => "),
        ("a bool that says whether something was done", r"\bfn (settle_pair)\b"),
    ],
    "2": [
        ("a function or type named for a width or a kind",
         r"\bfn \w*(f32|f64|u8|u16|u32|u64|wide|narrow|real|reals|outline|numbers)\w*[<(]|^(pub )?enum (Width|Kind) "),
        ("an impl for one number kind", r"^impl \w+ for (f32|f64|Complex<f32>|Complex<f64>)"),
        ("two functions of one shape", r"\bfn (end_from|start_from|cancel_y|try_new|values_of|vectors_of|symmetric_eigenvalues|symmetric_eigen"
         r"|with_all_rows|with_both|fault_of|zeros|filled|lengths_agree|set_tolerance|set_limit|fits|fit|width_fits|check)[<(]"),
    ],
    "3": [
        ("a while or a loop", r"^\s*('\w+: )?(while|loop)\b"),
        ("a for over a range", r"^\s*('\w+: )?for \w+ in .*\.\."),
        ("a recursion that counts down", r"\bfn (draw|push_hex)\("),
    ],
    "4": [
        ("printing by hand", r"\bfn (hex_digit|push_hex|hex16|\w+_line|push_(line|heading|headings|refusal)|text)\("),
        ("a conversion by hand", r"\bfn (number|of|from|fault_of|handed_on|number_of|operand_bytes|command)[<(]"),
        ("a type with no Debug, Clone or PartialEq derived", r"^#\[derive\((Drop|Clone, Copy)\)\]"),
    ],
    "6": [
        ("numbered fields", r"^\s+(pub(\(crate\))? )?[a-z]\d: "),
        ("a length handed along with its buffer or in its place", r"\b(length|count): usize\b"),
    ],
    "7": [
        ("a match on which step or which kind", r"\bmatch (width|kind|command|direction|desk|shape|self|case\.shape)\b"),
    ],
}


def sources():
    top = os.path.join(os.path.dirname(os.path.abspath(__file__)), "..")
    for path in sorted(glob.glob(os.path.join(top, "crates/*/src/*.rt"))):
        with open(path, encoding="utf-8") as file:
            yield os.path.relpath(path, top), file.read()


def by_line(point):
    total = 0
    for what, form in LINES[point]:
        found = [
            (path, i + 1, line.strip())
            for path, text in sources()
            for i, line in enumerate(text.split("\n"))
            if re.search(form, line) and not line.strip().startswith(("//", "ghost"))
        ]
        total += len(found)
        print(f"  {what}: {len(found)}")
        for path, line, text in found:
            print(f"    {path}:{line}: {text}")
    return total


def functions(text):
    """Each function's name, parameter list and clauses."""
    for m in re.finditer(r"^\s*(?:pub(?:\(crate\))? )?fn (\w+)(.*?)(?=^\s*(?:pub(?:\(crate\))? )?fn |\Z)", text, re.S | re.M):
        head = re.split(r"\n\s*\{\n|;\n", m.group(2), maxsplit=1)[0]
        yield m.group(1), head


def together():
    """Facts in three or more contracts, and pairs of parameters that three or more functions take, none the one without the other."""
    facts = collections.defaultdict(set)
    takes = collections.defaultdict(set)
    for path, text in sources():
        crate = path.split("/")[1]
        for name, head in functions(text):
            for fact in re.findall(r"requires(?: \w+)? \{(.*?)\}\n", head + "\n", re.S):
                for part in fact.split(" × "):
                    facts[(crate, re.sub(r"\s+|[()]|\.(old|now)", " ", part).strip())].add(name)
            arguments = re.search(r"\((.*?)\)\s*(?:->|\n|ensures|requires|$)", head, re.S)
            names = re.findall(r"(\w+): ", arguments.group(1)) if arguments else []
            for x in names:
                takes[(crate, x)].add(name)
    total = 0
    print("  a fact that three or more contracts require")
    for (crate, fact), names in sorted(facts.items(), key=lambda x: (-len(x[1]), x[0])):
        if len(names) >= 3:
            total += 1
            print(f"    {crate}: {fact}: {len(names)}: {', '.join(sorted(names))}")
    print("  parameters of three or more functions, none without the other")
    done = set()
    for (crate, x), names in sorted(takes.items()):
        group = tuple(sorted(y for (c, y), other in takes.items() if c == crate and len(names & other) == len(names)))
        if len(names) >= 3 and len(group) >= 2 and (crate, group) not in done:
            done.add((crate, group))
            total += 1
            print(f"    {crate}: {', '.join(group)}: {len(names)}: {', '.join(sorted(names))}")
    return total


def proofs():
    """Lines of the proof files and of the lemmas among the definitions, crate by crate."""
    top = os.path.join(os.path.dirname(os.path.abspath(__file__)), "..")
    total = 0
    for crate in sorted(os.listdir(os.path.join(top, "crates"))):
        files = glob.glob(os.path.join(top, "crates", crate, "proofs/**/*.antt"), recursive=True)
        answers = sum(len(re.findall(r"^(?:abbrev )?pub \S+ : goal\.", open(f, encoding="utf-8").read(), re.M)) for f in files)
        lines = sum(len(open(f, encoding="utf-8").read().split("\n")) - 1 for f in files)
        total += answers
        if files:
            print(f"    {crate}: {len(files)} files, {answers} answers and invariants, {lines} lines")
    return total


def main():
    for point in sys.argv[1:] or ["1", "2", "3", "4", "5", "6", "7", "8"]:
        print(f"point {point}")
        total = together() if point == "5" else proofs() if point == "8" else by_line(point)
        print(f"  in all: {total}")


main()
