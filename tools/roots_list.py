#!/usr/bin/env python3
"""Writes crates/numbers/data/roots: 4,096 binary64 patterns, each followed by the pattern of its square root.

The roots are the machine's own IEEE 754 squareRoot (Python's math.sqrt). Both patterns are eight bytes, lowest first.
Where the answer is a NaN, 7FF8000000000000 is recorded. The list is the same at every run."""
import math
import os
import random
import struct

COUNT = 4096
INFINITY = 0x7FF0000000000000
NAN = 0x7FF8000000000000


def value(bits):
    return struct.unpack("<d", struct.pack("<Q", bits))[0]


def pattern(x):
    return struct.unpack("<Q", struct.pack("<d", x))[0]


def root(bits):
    x = value(bits)
    if math.isnan(x) or x < 0:
        return NAN
    return pattern(math.sqrt(x))


def chosen(rng):
    # zeros, the least, the largest, infinity; below zero and NaN
    yield from (0, 1 << 63, 1, 2, 3, (1 << 52) - 1, 1 << 52, (1 << 52) + 1, INFINITY - 1, INFINITY)
    yield from ((1 << 63) + 1, pattern(-1.0), pattern(-4.0), INFINITY | 1 << 63, NAN, INFINITY + 1)
    # powers of two: each subnormal one, every third of the others
    yield from (1 << k for k in range(52))
    yield from (e << 52 for e in range(1, 2047, 3))
    # squares, and one unit to either side
    for _ in range(400):
        n = rng.randrange(1, 1 << rng.randrange(1, 27))
        bits = pattern(float(n * n) * 2.0 ** (2 * rng.randrange(-500, 480)))
        yield from (bits - 1, bits, bits + 1)
    # just under and over powers of two, the exponent odd and even in turn
    for e in range(2, 2046, 15):
        yield from ((e << 52) - 1, (e << 52) + 1)
    # subnormals
    yield from (rng.randrange(1, 1 << rng.randrange(1, 53)) for _ in range(400))


def main():
    rng = random.Random(13)
    inputs = list(chosen(rng))
    inputs += [rng.randrange(0, INFINITY) for _ in range(COUNT - len(inputs))]
    path = os.path.join(os.path.dirname(os.path.abspath(__file__)), "..", "crates", "numbers", "data", "roots")
    with open(path, "wb") as out:
        for bits in inputs[:COUNT]:
            out.write(struct.pack("<QQ", bits, root(bits)))


main()
