#!/usr/bin/env python3
"""Turns a layout written as text into the bytes that `route` reads.

    tools/make_layout.py < samples/six-places.txt > six-places.layout

A line is one of

    place LOW HOPE STEPS [goal]     the next place, numbered from 0
    leg FROM TO COST                a leg; the legs of a place keep the order in which they are written

Text from '#' on is passed over. Nothing is judged here but the shape of the lines and that each number fits its
bytes: whether the layout is a floor is for `route` to say.
"""
import struct
import sys


def read(lines):
    places, legs = [], []
    for number, line in enumerate(lines, 1):
        words = line.split("#")[0].split()
        try:
            match words:
                case []:
                    pass
                case ["place", low, hope, steps]:
                    places.append((0, int(low), int(hope), int(steps)))
                case ["place", low, hope, steps, "goal"]:
                    places.append((1, int(low), int(hope), int(steps)))
                case ["leg", start, target, cost]:
                    legs.append((int(start), int(target), int(cost)))
                case _:
                    raise ValueError("neither a place nor a leg")
        except ValueError as fault:
            sys.exit(f"line {number}: {fault}")
    return places, legs


def write(places, legs):
    out, first = bytearray(), 0
    for place, (goal, low, hope, steps) in enumerate(places):
        out += struct.pack("<BBHIII", 83, goal, first, low, hope, steps)
        first += sum(start == place for start, _, _ in legs)
    for _, target, cost in sorted(legs, key=lambda leg: leg[0]):
        out += struct.pack("<BBHIII", 65, 0, cost, target, 0, 0)
    return bytes(out)


if __name__ == "__main__":
    try:
        sys.stdout.buffer.write(write(*read(sys.stdin)))
    except struct.error as fault:
        sys.exit(f"a number does not fit its bytes: {fault}")
