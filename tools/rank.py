#!/usr/bin/env python3
"""Lists the notes of a good schedule file in ranking order, written from docs/NOTES.md and docs/FORMAT.md, sharing no line with the proved program.

It reads standard input. What the program `rank` must print of its stored input was made with it.
"""
import sys

lines = sys.stdin.buffer.read().split(b"\n")
kind = lines[0].split(b" ")[1]
count = int(lines[3].split(b" ")[1])
notes = lines[5 : 5 + count]


def key(number):
    if kind == b"wear":
        block, erases = notes[number].split(b" ")
        return int(block), int(erases), number
    return notes[number], number


for place, number in enumerate(sorted(range(count), key=key)):
    sys.stdout.buffer.write(b"%d %d %s\n" % (place, number, notes[number]))
