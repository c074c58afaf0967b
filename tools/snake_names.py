#!/usr/bin/env python3
"""Spells the repository's own definitions, lemmas, fields and constructors as today's Rattle does: words in snake case,
types in camel case. Names from the source, goals, strings and std's words stay.

usage: python3 tools/snake_names.py [--list]     at the top of the repository, once, after port.py
"""

import os
import re
import sys

WORD = re.compile(r"[A-Za-z_](?:[\w'′]|-(?=[\w'′]))*")
HEAD = re.compile(r"^(\s*)((?:(?:abbrev|unfoldable|pub|inline|opaque) )*)(record|data)?\s*([A-Za-z_](?:[\w'′]|-(?=[\w'′]))*)((?: [A-Za-z_][\w'′-]*)*) ?(?=[:({])")
IMPORT = re.compile(r"^use [^\n{]*\{([^}]*)\}", re.M)
# Where a file of answers gives a name of its own: a let, a binder, or a lemma whose type is no goal.
BOUND = re.compile(r"\blet ([\w'′-]+)|[(λ] ?([\w'′-]+) :|^([\w'′-]+) : (?!goal\.)", re.M)
# Names that would fall together with a definition's, or be taken for it.
CHOSEN = {
    "all-rows-fit": "all_rows_of_q_fit",
    "column-of": "column_is",
    "complexSizes": "outline_sizes",
    "either-cell": "either_cell_is",
    "in-turn": "joined_in_turn",
    "no-rows-width": "no_rows_width_is",
    "root-bits": "root_bits_is_root",
    "three-updates": "three_updates_put",
    "turned-all": "turned_throughout",
    "whole-root": "whole_root_floor",
    "with-digit": "with_digit_floor",
    "wrong-room": "wrong_has_room",
}
SKIP = {"use", "where", "module", "record", "data", "let", "in", "mod", "pub", "abbrev", "unfoldable", "mutual"}


def files(root, ending):
    for folder, dirs, names in os.walk(os.path.join(root, "crates")):
        dirs[:] = sorted(d for d in dirs if d != "out")
        for f in sorted(names):
            if f.endswith(ending):
                yield os.path.join(folder, f)


def is_own(path):
    """A file of definitions or lemmas, not of answers, invariants or choices for a function."""
    return os.path.basename(path) not in ("Answers.antt", "Invariants.antt", "Choices.antt", "Proof.antt", "Lib.antt")


def defined(text):
    """Names that a file gives: (name, whether it is a field or constructor)."""
    block = None  # indentation of the record or data that we are in
    for line in text.split("\n"):
        if not line.strip() or line.lstrip().startswith("--"):
            continue
        m = HEAD.match(line)
        indent = len(line) - len(line.lstrip())
        if block is not None and indent <= block:
            block = None
        if not m or m.group(4) in SKIP:
            continue
        if m.group(3):
            block = indent
            yield m.group(4), False
        elif block is not None:
            if indent == block + 2:
                yield m.group(4), True
        elif indent in (0, 2) or m.group(2).startswith("pub "):
            yield m.group(4), False


def snake(name):
    if name in CHOSEN:
        return CHOSEN[name]
    if name[0].isupper():
        parts = name.split("-")
        return "".join(p[:1].upper() + p[1:] for p in parts)
    out = re.sub(r"(?<=[a-z0-9])([A-Z])", lambda m: "_" + m.group(1).lower(), name.replace("-", "_"))
    return out.replace("′", "'")


def local(path, text):
    """The names with a dash that a file gives to its own use: lemmas in it, lets and binders."""
    lines = [line for line in text.split("\n") if not line.startswith("use ") and not line.lstrip().startswith("--")]
    body = "\n".join(lines)
    if is_own(path):
        imported = {w for m in IMPORT.finditer(text) for n in m.group(1).split(",") for w in n.split(" as ")}
        imported = {w.strip() for w in imported}
        found = {m.group(0) for m in WORD.finditer(body) if body[m.start() - 1 : m.start()] != "."}
        found -= imported
    else:
        found = {n for m in BOUND.finditer(body) for n in m.groups() if n}
    return {n: snake(n) for n in found if "-" in n}


def main(argv):
    root = "."
    names, members = {}, set()
    for path in files(root, ".antt"):
        if not is_own(path):
            continue
        with open(path, encoding="utf-8") as f:
            for name, member in defined(f.read()):
                new = snake(name)
                if new != name:
                    names[name] = new
                    if member:
                        members.add(name)
    seen = {}
    for path in [*files(root, ".antt"), *files(root, ".rt")]:
        with open(path, encoding="utf-8") as f:
            for w in WORD.findall(f.read()):
                seen.setdefault(w, set()).add(path)
    if "--list" in argv:
        by_new = {}
        for old, new in sorted(names.items()):
            by_new.setdefault(new, []).append(old)
            note = "" if new not in seen else "   NEW NAME STANDS: " + " ".join(sorted(seen[new])[:4])
            print(f"{old} -> {new}{' (member)' if old in members else ''}{note}")
        for new, olds in by_new.items():
            if len(olds) > 1:
                print("FALL TOGETHER:", olds, "->", new)
        return 0

    def turn(text):
        def one(m):
            word = m.group(0)
            if word not in names:
                return word
            before = text[max(0, m.start() - 1) : m.start()]
            if before == "." and word not in members:
                # a projection or a path: a path's last module is capitalised
                owner = re.search(r"([A-Za-z_][\w'′-]*)\.$", text[: m.start()])
                if not owner or not owner.group(1)[0].isupper():
                    return word
            return names[word]

        return WORD.sub(one, text)

    for path in [*files(root, ".antt"), *files(root, ".rt")]:
        with open(path, encoding="utf-8") as f:
            text = f.read()
        new = turn(text)
        if path.endswith(".antt"):
            own = local(path, new)
            taken = set(own.values()) & set(WORD.findall(new))
            if taken:
                print(f"left: {path}: these names are taken: {sorted(taken)}")
                own = {n: m for n, m in own.items() if m not in taken}
            new = WORD.sub(lambda m: m.group(0) if new[m.start() - 1 : m.start()] == "." else own.get(m.group(0), m.group(0)), new)
        if new != text:
            with open(path, "w", encoding="utf-8") as f:
                f.write(new)
    return 0


if __name__ == "__main__":
    raise SystemExit(main(sys.argv[1:]) or 0)
