#!/usr/bin/env python3
"""Writes book files and case files from plain text, for examples and tests.

usage: files.py book < TEXT > book
       files.py case < TEXT > case

A book is a line for each rule, `HEAD : REQUIRED .. ! BARRED ..`, and a line `names NAME NAME ..` for
the names of the instances from 0 on. A case is a line for each step, `SAID .. : PROPOSED ..`. Marks are
numbers. Nothing is checked here: what the files hold is judged by the program.
"""
import sys


def pair(n):
    return bytes([n >> 8 & 0xFF, n & 0xFF])


def book(lines):
    rows, names = [], []
    for line in lines:
        if line.startswith("names"):
            names = line.split()[1:]
            continue
        head, body = line.split(":")
        required, _, barred = body.partition("!")
        required = [int(m) for m in required.split()]
        barred = [int(m) for m in barred.split()]
        row = pair(int(head)) + bytes([len(required), len(barred)])
        row += b"".join(pair(m) for m in required + barred)
        rows.append(row.ljust(32, b"\0"))
    named = b"".join(bytes([len(n)]) + n.encode("ascii") for n in names)
    return pair(len(rows)) + b"".join(rows) + bytes([len(names)]) + named


def marks(text):
    numbers = [int(m) for m in text.split()]
    return pair(len(numbers)) + b"".join(pair(m) for m in numbers)


def case(lines):
    steps = [marks(said) + marks(proposed) for said, proposed in (line.split(":") for line in lines)]
    return bytes([len(steps)]) + b"".join(steps)


def main():
    lines = [line.strip() for line in sys.stdin if line.strip()]
    sys.stdout.buffer.write({"book": book, "case": case}[sys.argv[1]](lines))


main()
