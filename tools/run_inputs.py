#!/usr/bin/env python3
"""run_inputs.py: writes the files of crates/file_runs/data, inputs at the program's limits, and what the program must print of them.

What must be printed follows from how each model is built, by document 01's rules; nothing is computed by the code under test."""
import os
import struct

CRATE = os.path.join(os.path.dirname(os.path.abspath(__file__)), "..", "crates", "file_runs")
SEPARATOR = 65535


def node(x, y, z):
    return struct.pack("<B7x3d", 78, x, y, z)


def cell(kind, words):
    """A cell's records: C, and K for what is left, 14 words each."""
    out = b""
    for i in range(0, len(words), 14):
        part = words[i:i + 14]
        head = struct.pack("<BBBx", 75 if i else 67, 0 if i else kind, len(part))
        out += head + struct.pack("<14H", *(part + [0] * (14 - len(part))))
    return out


def end(flags, cap, tolerance):
    return struct.pack("<BBH4xd16x", 84, flags, cap, tolerance)


def longest():
    """1,024 records: 1,000 nodes, 23 tetrahedra far apart, of which the last has two corners within the tolerance, and the end."""
    corners = [(0, 0, 0), (1, 0, 0), (0, 1, 0), (0, 0, 1)]
    nodes = [(10 * c + x, y, z) for c in range(250) for x, y, z in corners]
    nodes[91] = (220, 0.0005, 0)
    cells = [cell(1, list(range(4 * c, 4 * c + 4))) for c in range(23)]
    return b"".join(node(*n) for n in nodes) + b"".join(cells) + end(3, 500, 0.001), "4 22 22 88 91 2\ntotal 1 kept 1\n"


def findings(count):
    """One polyhedron whose nodes are all at one place, two in a ring: each node with the one before it is a finding."""
    words = []
    for n in range(0, count + 1, 2):
        words += ([SEPARATOR] if n else []) + [n, n + 1][:count + 1 - n]
    lines = ["4 0 0 %d %d 2\n" % (n, n + 1) for n in range(min(count, 512))]
    model = node(1, 2, 3) * (count + 1) + cell(4, words) + end(1, 65535, 0.25)
    return model, "".join(lines) + "total %d kept %d\n" % (count, min(count, 512))


def main():
    model, report = longest()
    assert len(model) == 32768
    rows = [("empty", b"", "refused 1\n"), ("longest", model, report), ("longer", model + b"\0", "refused 1\n")]
    rows += [("findings-%d" % n, *findings(n)) for n in (512, 599)]
    printed = ""
    for name, data, out in rows:
        printed += name + ":\n" + out
        with open(os.path.join(CRATE, "data", name), "wb") as f:
            f.write(data)
    with open(os.path.join(CRATE, "stdout"), "w") as f:
        f.write(printed)


main()
