#!/usr/bin/env python3
"""Plants bugs in a crate, one at a time, and says what becomes of each: `tools/plant.py CRATE [--count N] [--seed S] [--file NAME]
[--list]`.

Each bug is one line of crates/CRATE/src turned into another of the same shape: another operand, a neighbouring comparison, another
constant, two arguments exchanged, a write left out, another refusal. Clauses, ghost lines, comments and signatures are left alone.
Works on a copy. A bug is caught where `rt must-fail` refuses it; one of a program that the prover lets through is caught where
`rt run` prints something else than the crate's stdout. What is not caught is listed at the end: status 1 if there is any.
"""
import argparse
import glob
import os
import random
import re
import shutil
import subprocess
import sys
import tempfile

EXCHANGES = [
    (r" < ", (" <= ", " > ")), (r" <= ", (" < ",)), (r" > ", (" >= ", " < ")), (r" >= ", (" > ",)),
    (r" == ", (" != ",)), (r" != ", (" == ",)), (r" \+ ", (" - ",)), (r" - ", (" + ",)), (r" \* ", (" + ",)), (r" / ", (" * ",)), (r" % ", (" / ",)),
    (r" && ", (" || ",)), (r" \|\| ", (" && ",)), (r" >> ", (" << ",)), (r" << ", (" >> ",)), (r"\btrue\b", ("false",)), (r"\bfalse\b", ("true",)),
    (r"if !", ("if ",)), (r"\.\.=", ("..",)), (r"\.rev\(\)", ("",)), (r"\.rposition\(", (".position(",)), (r"\.rfind\(", (".find(",)),
    (r"\.add\(", (".sub(",)), (r"\.sub\(", (".add(",)), (r"\.mul\(", (".add(",)), (r"\.scale\(", (".unscale(",)), (r"\.unscale\(", (".scale(",)),
    (r"\.neg\(\)", ("",)), (r"\.conjugate\(\)", ("",)), (r"\.signum\(\)", ("", ".split_sign().1")), (r"\.modulus\(\)", (".abs()", ".real()")),
    (r"\.abs\(\)", ("",)), (r"\.real\(\)", (".modulus()",)), (r"\.size\(\)", (".modulus()",)), (r"\bzero\(\)", ("one()",)), (r"\bone\(\)", ("zero()",)),
    (r"\bTWO\b", ("HALF",)), (r"\bHALF\b", ("TWO",)), (r"\bMINUS_TWO\b", ("TWO",)), (r"\.lt\(", (".le(",)), (r"\.le\(", (".lt(",)),
    (r"\bstart\b", ("end",)), (r"\bend\b", ("start",)), (r"\bfirst\b", ("second",)), (r"\bsecond\b", ("first",)), (r"\brow\b", ("column",)),
    (r"\bcolumn\b", ("row",)), (r"\.re\b", (".im",)), (r"\.im\b", (".re",)), (r"\bvalues\b", ("offs",)), (r"\bReal\b", ("Outline",)),
    (r"\bForward\b", ("Back",)), (r"\bBack\b", ("Forward",)), (r"Fault::Side\b", ("Fault::Length",)), (r"Fault::Length\b", ("Fault::Side",)),
    (r"Fault::Tolerance\b", ("Fault::Limit",)), (r"Fault::Limit\b", ("Fault::Tolerance",)), (r"Fault::Width\b", ("Fault::Side",)),
    (r"Fault::Column\b", ("Fault::Width",)), (r"SheetFault::Order\b", ("SheetFault::Operand",)), (r"\bValues\b", ("Vectors",)), (r"\bVectors\b", ("Values",)),
    (r"\.is_ok\(\)", (".is_err()",)), (r"\.is_some\(\)", (".is_none()",)), (r"\.is_finite\(\)", (".is_zero()",)), (r"\.is_zero\(\)", (".is_finite()",)),
]
NOT_CODE = ("//", "#[", "#![", "use ", "pub use", "pub(crate) use", "mod ", "pub mod", "fn ", "pub fn", "pub(crate) fn", "final fn", "impl", "struct ",
            "pub struct", "pub(crate) struct", "enum ", "pub enum", "pub(crate) enum", "trait ", "pub trait", "pub(crate) trait", "type ", "where",
            "}", ")")


def code_lines(text):
    """The numbers of the lines of bodies."""
    inside = 0
    signature = False
    for number, line in enumerate(text.split("\n")):
        bare = line.strip()
        if inside > 0:
            inside += line.count("{") - line.count("}")
            continue
        if re.match(r"(requires|ensures|ghost|law)\b", bare):
            inside = max(0, line.count("{") - line.count("}"))
            continue
        if re.match(r"(pub(\(crate\))? |final )?fn ", bare) and not bare.endswith(("{", "}", ";")) and "(" in bare and ")" not in bare:
            signature = True
        if signature:
            signature = not bare.startswith(")")
            continue
        if bare and not bare.startswith(NOT_CODE):
            yield number, line


def turned(line):
    """The lines that stand for a bug in this one."""
    for form, others in EXCHANGES:
        for found in re.finditer(form, line):
            for other in others:
                yield line[:found.start()] + other + line[found.end():]
    for found in re.finditer(r"(?<![\w.#])(0x[0-9A-Fa-f_]+|\d[\d_]*)(?![\w.])", line):
        digits = found.group(1).replace("_", "")
        value = int(digits, 16 if digits.startswith("0x") else 10)
        for other in {value + 1, max(0, value - 1)} - {value}:
            yield line[:found.start()] + str(other) + line[found.end():]
    for found in re.finditer(r"\((&?(?:mut )?[\w.]+), (&?(?:mut )?[\w.]+)(?=[,)])", line):
        if found.group(1) != found.group(2):
            yield f"{line[:found.start()]}({found.group(2)}, {found.group(1)}{line[found.end():]}"
    indent = re.match(r"\s*", line).group(0)
    if re.match(r"\s*[\w.\[\]*+ ()-]+ [-+*]?= .*;$", line) and not line.strip().startswith("let"):
        yield indent
    if re.match(r"\s*[a-z][\w.]*(::<[^>]*>)?\(.*\)\??;$", line):
        yield indent
    found = re.search(r"\[([a-z]\w*)\]", line)
    if found:
        yield f"{line[:found.start()]}[{found.group(1)} + 1]{line[found.end():]}"


def bugs(crate):
    for path in sorted(glob.glob(f"crates/{crate}/src/**/*.rt", recursive=True)):
        with open(path, encoding="utf-8") as file:
            text = file.read()
        for number, line in code_lines(text):
            if text.count(line) == 1:
                for other in dict.fromkeys(turned(line)):
                    if other != line:
                        yield os.path.relpath(path, f"crates/{crate}"), number + 1, line, other


def tried(work, crate, chosen):
    folder = os.path.join(work, "crates", crate, "must-fail")
    shutil.rmtree(folder, ignore_errors=True)
    os.makedirs(folder)
    for k, (path, _, old, new) in enumerate(chosen):
        with open(os.path.join(folder, f"b{k:03}.edit"), "w", encoding="utf-8") as file:
            file.write(f"file: {path}\nold: {old}\nnew: {new}\n")
    out = subprocess.run(["rt", "must-fail", crate], cwd=work, capture_output=True, text=True)
    said = dict(re.findall(rf"must-fail {crate}/b(\d+)\.edit:? (.*)", out.stdout + out.stderr))
    return [said.get(f"{k:03}", "") for k in range(len(chosen))]


def prints_otherwise(work, crate, path, old, new):
    """Whether the program's output or status is another with this bug."""
    folder = os.path.join(work, "crates", crate)
    source = os.path.join(folder, path)
    with open(source, encoding="utf-8") as file:
        text = file.read()
    with open(source, "w", encoding="utf-8") as file:
        file.write(text.replace(old, new))
    given = os.path.join(folder, "stdin")
    with open(given if os.path.exists(given) else os.devnull, "rb") as stdin:
        out = subprocess.run(["rt", "run"], cwd=folder, stdin=stdin, capture_output=True)
    with open(source, "w", encoding="utf-8") as file:
        file.write(text)
    wanted = os.path.join(folder, "stdout")
    expected = open(wanted, "rb").read() if os.path.exists(wanted) else b""
    return out.returncode != 0 or out.stdout != expected


def main():
    parser = argparse.ArgumentParser()
    parser.add_argument("crate")
    parser.add_argument("--count", type=int, default=40)
    parser.add_argument("--seed", type=int, default=1)
    parser.add_argument("--file", default="", help="only in files whose name has this in it")
    parser.add_argument("--list", action="store_true")
    args = parser.parse_args()
    os.chdir(os.path.join(os.path.dirname(os.path.abspath(__file__)), ".."))
    pool = [bug for bug in bugs(args.crate) if args.file in bug[0]]
    random.Random(args.seed).shuffle(pool)
    if args.list:
        for path, number, old, new in pool:
            print(f"{path}:{number}\n  - {old.strip()}\n  + {new.strip() or '(left out)'}")
        return 0
    top = tempfile.mkdtemp(prefix="plant.")
    work = os.path.join(top, "repository")
    shutil.copytree(".", work, ignore=shutil.ignore_patterns(".git"))
    caught, survived, bad = {"at a fact of src/": 0, "at a fact of proofs/": 0, "by its output": 0}, [], 0
    while pool and sum(caught.values()) + len(survived) < args.count:
        chosen, pool = pool[:args.count - sum(caught.values()) - len(survived)], pool[args.count - sum(caught.values()) - len(survived):]
        for (path, number, old, new), said in zip(chosen, tried(work, args.crate, chosen)):
            if said.startswith("refused"):
                caught["at a fact of proofs/" if re.search(r"\bproofs/\S+: error", said) and "src/" not in said else "at a fact of src/"] += 1
            elif "NOT REFUSED" in said:
                if os.path.exists(f"crates/{args.crate}/src/main.rt") and prints_otherwise(work, args.crate, path, old, new):
                    caught["by its output"] += 1
                else:
                    survived.append((path, number, old, new))
            else:
                bad += 1
                if "BAD EDIT" not in said:
                    print(f"not tried: {path}:{number}: {said}")
    shutil.rmtree(top, ignore_errors=True)
    for path, number, old, new in survived:
        print(f"{path}:{number}\n  - {old.strip()}\n  + {new.strip() or '(left out)'}")
    told = ", ".join(f"{count} {how}" for how, count in caught.items() if count)
    print(f"{args.crate}: {sum(caught.values()) + len(survived)} bugs planted, {sum(caught.values())} caught ({told}), "
          f"{len(survived)} not caught; {bad} more did not compile")
    return 1 if survived else 0


if __name__ == "__main__":
    sys.exit(main())
