#!/usr/bin/env python3
"""Brings the repository's own definitions and lemmas to snake case, and its own types to upper camel case.

usage: tools/snake_names.py [--write]      at the top of the repository

A name is one of the repository's own where a file of specs/ or proofs/ declares it. Names that the toolchain makes
(goals, steps of a proof's argument) keep their dashes, and so do names of the toolchain's library. Without --write the
script only tells what it would rename, and which new names fall together with a name that stands already.
"""
import collections
import os
import re
import sys

HEAD = re.compile(r"^\s*(?:\| )?(?:(?:abbrev|unfoldable|pub)\s+)*([^\s:(){}.,;=λ→|]+(?: [^\s:(){}.,;=λ→|]+)*) :(?: |$)")
FIELD = re.compile(r"\(([^\s:(){}]+(?: [^\s:(){}]+)*) : ")
TOKEN = re.compile(r"[\w'ℕℤ-]+")
WORDS = re.compile(r"^[A-Za-z][\w']*(?:-[\w']+)+$")


def files(kinds):
    for folder, dirs, names in os.walk("crates"):
        dirs[:] = sorted(d for d in dirs if d != "out")
        for name in sorted(names):
            if name.endswith(kinds):
                yield os.path.join(folder, name)


def declared():
    """The repository's own names that have a dash, each with the files that declare it."""
    own = collections.defaultdict(set)
    for path in files(".antt"):
        for line in open(path, encoding="utf-8"):
            if line.lstrip().startswith("--") or " : goal." in line:
                continue
            m = HEAD.match(line)
            if m:
                for name in m.group(1).split():
                    if WORDS.match(name):
                        own[name].add(path)
    return own


# What would fall together with a word of the library.
OTHERWISE = {"bit-and": "bit_bit_and", "bit-or": "bit_bit_or"}

# Arguments and modules that go by another name in a file, and names that only comments have.
ALSO = "book-fault name-fault required-of barred-of each-other low-other hand-is to-come then-stand of-a of-b".split()


def respelled(name):
    if name in OTHERWISE:
        return OTHERWISE[name]
    name = name.replace("getD-", "get_or-")
    if name[0].isupper():
        return "".join(part[0].upper() + part[1:] for part in name.split("-"))
    return name.replace("-", "_")


def turned(text, new):
    """The text with the names respelled; not the fields of a proof's argument, which the toolchain names."""
    def word(m):
        name = m.group(0)
        if name not in new or re.search(r"\b[cwl]\.$", text[: m.start()]):
            return name
        return new[name]
    return TOKEN.sub(word, text)


def clauses(text, new):
    """The same in a source file: imports, clauses and ghost items alone, comments and strings left as they are."""
    out = []
    inside = False
    for line in text.split("\n"):
        code = line.strip()
        ghost = inside or re.match(r"(pub )?(ghost|requires|ensures)\b", code) or "#[tactic" in code
        if ghost and not code.startswith("//"):
            line = turned(line, new)
            inside = code.count("{") > code.count("}") if not inside else inside and code.count("}") <= code.count("{")
        out.append(line)
    return "\n".join(out)


def main():
    new = {name: respelled(name) for name in [*declared(), *ALSO]}
    stands = set()
    for path in files((".antt", ".rt")):
        stands |= set(TOKEN.findall(open(path, encoding="utf-8").read()))
    for name, to in sorted(new.items()):
        if to in stands:
            print(f"falls together: {name} and {to}")
    both = collections.Counter(new.values())
    for to, n in both.items():
        if n > 1:
            print(f"falls together: {n} names become {to}")
    changed = 0
    for path in files((".antt", ".rt", ".edit")):
        old = open(path, encoding="utf-8").read()
        text = turned(old, new) if path.endswith(".antt") else clauses(old, new) if path.endswith(".rt") else old
        if text != old:
            changed += 1
            if "--write" in sys.argv:
                open(path, "w", encoding="utf-8").write(text)
    print(f"{len(new)} names, {changed} files")


main()
