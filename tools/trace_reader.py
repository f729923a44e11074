#!/usr/bin/env python3
"""Reads a trace file of version 1 or 2 by the words of its description and prints its numbers: a reader that shares nothing with the library or with host/.

    tools/trace_reader.py FILE

A file that is refused is told by the code's name and the place, and ends the program with 1. Only Python's standard library is used.
"""

import struct
import sys

FIRST_NUMBERS = 32
HEADER_BYTES = {1: 32, 2: 36}
EDITIONS = (1, 2)
COORDINATES = range(-(2**23), 2**23)
DOUBLE_DELTAS = range(-(2**30) + 1, 2**30)


class Refused(Exception):
    """The name of a code, and a place."""


def refuse_first(code, numbers, offset, good):
    """Refuses the first number of a part that is not among the good ones, at its own byte."""
    for index, number in enumerate(numbers):
        if number not in good:
            raise Refused(code, offset + 4 * index)


def read(data):
    """The edition that is said, the adjustment and the four parts of a trace file of either version, or a refusal in the order of the checks."""
    if len(data) < FIRST_NUMBERS:
        raise Refused("SHORT", len(data))
    version, splines, points = struct.unpack_from("<3I", data, 0)
    (adjustment,) = struct.unpack_from("<i", data, 12)
    offsets = struct.unpack_from("<4I", data, 16)
    if version not in HEADER_BYTES:
        raise Refused("HEADER", 0)
    if len(data) < HEADER_BYTES[version]:
        raise Refused("SHORT", len(data))
    # Version 1 says no edition and is of edition 1.
    (edition,) = struct.unpack_from("<I", data, 32) if version == 2 else (None,)
    numbers = [splines, 2 * splines, 2 * points, 128 * splines]
    begins = [HEADER_BYTES[version]]
    for many in numbers:
        begins.append(begins[-1] + 4 * many)
    for index, (offset, begin) in enumerate(zip(offsets, begins)):
        if offset != begin:
            raise Refused("HEADER", 16 + 4 * index)
    if version == 2 and edition not in EDITIONS:
        raise Refused("EDITION", 32)
    end = begins[4]
    if len(data) < end:
        raise Refused("SHORT", len(data))
    if len(data) > end:
        raise Refused("TRAIL", end)
    counts, starts, deltas, coefficients = (
        struct.unpack_from("<%d%s" % (many, kind), data, begin)
        for many, kind, begin in zip(numbers, "Iiii", begins)
    )
    if sum(counts) != points:
        raise Refused("SHAPE", 0)
    refuse_first("COORD", starts, begins[1], COORDINATES)
    refuse_first("DELTA", deltas, begins[2], DOUBLE_DELTAS)
    return edition, adjustment, counts, starts, deltas, coefficients


def told(edition, adjustment, counts, starts, deltas, coefficients):
    """All numbers, spline by spline."""
    said = "" if edition is None else ", edition %d" % edition
    yield "%d splines, %d points, adjustment %d%s" % (len(counts), sum(counts), adjustment, said)
    used = 0
    for spline, count in enumerate(counts):
        x, y = starts[2 * spline : 2 * spline + 2]
        yield "spline %d starts at %d, %d and has %d points" % (spline, x, y, count)
        parts = {"double deltas": deltas[used : used + 2 * count]}
        used += 2 * count
        for index, name in enumerate(["X", "Y", "B", "sigma"]):
            first = 128 * spline + 32 * index
            parts[name] = coefficients[first : first + 32]
        for name, numbers in parts.items():
            yield "%s: %s" % (name, " ".join(map(str, numbers)))


def main(words):
    """Prints the numbers of the one file that is named."""
    if len(words) != 1:
        print("usage: tools/trace_reader.py FILE", file=sys.stderr)
        return 2
    with open(words[0], "rb") as file:
        data = file.read()
    try:
        for line in told(*read(data)):
            print(line)
    except Refused as refusal:
        print("%s at %d" % refusal.args)
        return 1
    return 0


if __name__ == "__main__":
    sys.exit(main(sys.argv[1:]))
