#!/usr/bin/env python3
"""Brings the names that the toolchain makes of a function's goals and steps to its present spelling, in proofs/F/.

usage: tools/goal_names.py [CRATE ..]      at the top of the repository

A name of the source keeps its underscores in such a name, and a word of the toolchain is in snake case.
"""
import os
import re
import sys

TOKEN = re.compile(r"[\w'ℕℤ+-]+")
WORDS = ["overflow-add", "overflow-sub", "overflow-mul", "overflow-cast", "overflow-shl", "overflow-shr", "overflow-step",
         "slice-bounds", "offset-bounds", "nonzero-div", "nonzero-rem", "in-default", "in-err", "in-ok", "type-inv",
         "invariant-of", "from-residual", "the-invariant"]


def sources():
    for folder, dirs, names in os.walk("crates"):
        dirs[:] = [d for d in dirs if d != "out"]
        for name in names:
            if name.endswith(".rt"):
                yield os.path.join(folder, name)


def identifiers():
    found = set()
    for path in sources():
        text = re.sub(r"//.*", "", open(path, encoding="utf-8").read())
        text = "\n".join(l for l in text.split("\n") if not re.match(r"\s*(ghost|requires|ensures)\b", l))
        found |= {w for w in re.findall(r"[A-Za-z][A-Za-z0-9]*(?:_[A-Za-z0-9]+)+", text)}
    return found | {"copy_from_slice", "to_vec", "as_slice", "as_mut_slice", "trailing_zeros", "count_ones", "iter_mut", "into_iter"}


def main(only):
    names = sorted(identifiers(), key=len, reverse=True)
    turn = [(re.compile(r"(?<![A-Za-z0-9_'])" + re.escape(n.replace("_", "-")) + r"(?![A-Za-z0-9_'])"), n) for n in names]
    turn += [(re.compile(r"(?<![A-Za-z0-9_'])" + w + r"(?![A-Za-z0-9_'])"), w.replace("-", "_")) for w in WORDS]
    changed = 0
    for folder, dirs, files in os.walk("crates"):
        dirs[:] = [d for d in dirs if d != "out"]
        parts = folder.split(os.sep)
        if len(parts) < 4 or parts[2] != "proofs" or (only and parts[1] not in only):
            continue
        for f in files:
            path = os.path.join(folder, f)
            text = open(path, encoding="utf-8").read()
            library = set()
            for m in re.finditer(r"^use ([^\s{]+)\.\{([^}]*)\}", text, re.M):
                if not (".Goals" in m.group(1) or ".Given" in m.group(1)):
                    library |= {w.split(" as ")[0].strip() for w in m.group(2).split(",")}

            def word(m):
                t = m.group(0)
                if "-" not in t or t in library:
                    return t
                for pattern, to in turn:
                    t = pattern.sub(to, t)
                return t

            new = TOKEN.sub(word, text)
            if new != text:
                changed += 1
                open(path, "w", encoding="utf-8").write(new)
    print(f"{changed} files")


main(sys.argv[1:])
