#!/usr/bin/env python3
"""What `sheet` must print for its stored input, worked out from docs/RULES.md and not from the program.

  tools/expected.py < crates/sheet/stdin > crates/sheet/stdout

It is not part of the gate, which compares the program's output with the stored file.
"""
import re
import sys


def picture(rows, columns):
    points = ".".join("." * (columns + 1))
    cells = "o".join("." * (columns + 1))
    lines = [points]
    for _ in range(rows):
        lines += [cells, points]
    return lines


def answer(line):
    match = re.fullmatch(rb"([0-9]{1,3}) ([0-9]{1,3}) ([0-9]{1,3})", line)
    if not match:
        return ["refused 1"]
    rows, columns, choice = (int(word) for word in match.groups())
    if rows > 32 or columns > 32 or choice not in range(1, 7):
        return ["refused 1"]
    return picture(rows, columns)


def main():
    text = sys.stdin.buffer.read()[:4096]
    lines = text.split(b"\n")
    if lines[-1] == b"":
        lines.pop()
    for line in lines:
        print("\n".join(answer(line)))


main()
