#!/usr/bin/env python3
"""example_model.py: writes document 01's example, a tetrahedron that stands on half of a cube's top, as the file of a model:
examples/two_cells.in, and the same bytes as what the gate runs the program on, crates/lenoshale/stdin."""
import os
import struct

HOME = os.path.join(os.path.dirname(os.path.abspath(__file__)), "..")


def node(x, y, z):
    return b"N" + bytes(7) + struct.pack("<3d", x, y, z)


def cell(kind, words):
    return b"C" + bytes([kind, len(words), 0]) + struct.pack("<%dH" % len(words), *words) + bytes(28 - 2 * len(words))


def last(flags, cap, tolerance):
    return b"T" + bytes([flags]) + struct.pack("<H", cap) + bytes(4) + struct.pack("<d", tolerance) + bytes(16)


def main():
    square = [(0, 0), (1, 0), (1, 1), (0, 1)]
    points = [(x, y, z) for z in (0, 1) for x, y in square] + [(0, 0, 2)]
    records = [node(*p) for p in points] + [cell(1, [4, 5, 6, 8]), cell(2, range(8)), last(3, 9, 0.001)]
    for name in ("examples/two_cells.in", "crates/lenoshale/stdin"):
        path = os.path.join(HOME, name)
        os.makedirs(os.path.dirname(path), exist_ok=True)
        with open(path, "wb") as f:
            f.write(b"".join(records))


main()
