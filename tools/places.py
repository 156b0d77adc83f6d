#!/usr/bin/env python3
"""Lists where the code may still be written in an older form, by kind, and counts the lines.

usage: places.py [FOLDER]        (the repository's folder; the present one where none is given)

The lists are candidates, to be read one by one. Kinds:
  1  enums, results whose error is a number or whose value is a flag, sentinels, matches with a constant arm
  2  pairs of functions of one shape: alike but for names, numbers and texts
  3  loops over a range or an index, and loops without `for`
  4  conversions by `as`, by matches on numbers, and by arithmetic on bytes; comparisons of parts
  5  clauses that stand in three contracts or more, and runs of three parameters that three functions share
  6  arrays and counts in structs
  7  parameters that are flags, and matches that choose what to run
"""
import collections
import pathlib
import re
import sys

ROOT = pathlib.Path(sys.argv[1] if len(sys.argv) > 1 else ".")
FILES = sorted(ROOT.glob("crates/*/src/**/*.rt"))

LINES = {
    1: [
        r"^\s*(pub(\(crate\))? )?enum ",
        r"Result<[^;]*, (usize|u8|u16|bool)>|Result<bool>",
        r"const NONE|Told::call\(0|section: 0",
        r"^\s*(None|Err\(_\)|_) => (0|None|NONE|false|Ok\(\(\)\)|Ok\(false\)|&\w+\[)",
    ],
    3: [r"^\s*(loop|while)\b", r"\bfor .* in .*\.\.", r"\bfor \(\w+, .*enumerate\(\)"],
    4: [
        r" as (u8|u16|u32|u64|usize)\b",
        r"^\s*(0|1|Attribute::\w+|Section::\w+) => (\d|Attribute)",
        r"\* 256",
        r"\.number\(\) [=!]= |fault\.tell\(\)\.(number|spot)|\w\.(number|spot|section|item), ",
    ],
    6: [r"^\s*(pub )?(\w+): \[", r"^\s*(pub )?(count|len|start|end|from): (usize|u8|u16)"],
    7: [r"\w+: bool\b(?!.*->)", r"^\s*match (call|click)\b", r"dyn |fn\("],
}


def numbered(path):
    return enumerate(path.read_text().split("\n"), 1)


def show(path, number, text):
    print(f"    {path.relative_to(ROOT)}:{number}: {text.strip()[:110]}")


def by_lines(point):
    found = 0
    for path in FILES:
        for number, text in numbered(path):
            if any(re.search(p, text) for p in LINES[point]):
                show(path, number, text)
                found += 1
    print(f"{point}: {found} lines\n")


HEAD = re.compile(r"^ *(?:pub(?:\(crate\))? )?fn (\w+)", re.M)


def functions():
    """Each function with its text: from its head to the line that closes it."""
    for path in FILES:
        text = path.read_text()
        for head in HEAD.finditer(text):
            indent = re.match(r" *", head.group(0)).group(0)
            end = text.find(f"\n{indent}}}\n", head.start())
            if end > 0:
                yield path, head.group(1), text[head.start():end]


def contract_free(text):
    return "\n".join(l for l in text.split("\n") if not re.match(r"\s*(requires|ensures|//)", l))


def shape(text):
    text = re.sub(r'b?"[^"]*"|\b[A-Za-z_]\w*\b|\b\d\w*\b', "x", contract_free(text))
    return re.sub(r"\s+", " ", text)


def twins():
    groups = collections.defaultdict(list)
    for path, name, text in functions():
        if len(contract_free(text).split("\n")) >= 3:
            groups[shape(text)].append(f"{path.relative_to(ROOT)}: {name}")
    pairs = [g for g in groups.values() if len(g) > 1]
    for group in pairs:
        print("    " + "  ~  ".join(group))
    print(f"2: {sum(len(g) for g in pairs)} functions in {len(pairs)} groups\n")


def repeated():
    clauses, runs = collections.defaultdict(set), collections.defaultdict(set)
    for path, name, text in functions():
        where = f"{path.relative_to(ROOT)}: {name}"
        for clause in re.findall(r"(?:requires|ensures) (?:\w+ )?\{ (.*) \}$", text, re.M):
            for part in re.split(r"\) × \(", clause.strip("()")):
                clauses[re.sub(r"\b(self|reader|review|next)\b", "x", part)].add(where)
        head = text.split("{")[0].split("requires")[0].split("ensures")[0]
        parameters = re.findall(r"(\w+): [^,)]+", head[head.find("("):head.rfind(")")])
        for i in range(len(parameters) - 2):
            runs[tuple(parameters[i:i + 3])].add(where)
    found = 0
    for kind in (clauses, runs):
        for what, places in sorted(kind.items(), key=lambda c: str(c[0])):
            if len(places) >= 3:
                found += 1
                text = what if isinstance(what, str) else "(" + ", ".join(what) + ")"
                print(f"    {len(places)} × {text[:120]}: {', '.join(sorted(p.split(': ')[1] for p in places))}")
    print(f"5: {found} clauses and runs of parameters\n")


by_lines(1)
twins()
by_lines(3)
by_lines(4)
repeated()
by_lines(6)
by_lines(7)
