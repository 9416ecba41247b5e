#!/usr/bin/env python3
"""area_sets.py: writes crates/numbers/data/areas, area tests with document 01's answer to each.

The test here is a reading of document 01's paragraph 'Area test', beside `common_nodes_span_area` of the reference, in doubles as Python
has them. A test is: the number of nodes and the length of the list (4 bytes each), the tolerance (8), three coordinates a node (8 each),
the listed nodes (4 each), document 01's answer as our number (a byte: 0 too few, 1 together, 2 no direction, 3 thin, 4 spans), and whether
the nodes span an area (a byte), which tools/rust/record.sh puts in place by the Rust; all little-endian. In the list each has its name
before it, with the name's length in a byte, and its size in 4 bytes.

A name begins with the wrong reading that its test tells, the answer of which is another: together-less, extent < eps for ≤; direction-equal,
root ≥ eps for > eps; direction-longest, the longest difference for the first that is long enough; eps-half and eps-zero, 32 × 2^-52 × scale
and 0 in eps for 64 × 2^-52 × scale. Names that begin with 'says' are for the answers."""
import math, os, struct

GRAIN = 64 * 2.0**-52
FAR = 2.0**19  # eps is 2^-27 beside it
STEP = GRAIN * FAR


def root(d):
    return math.sqrt(d[0] * d[0] + d[1] * d[1] + d[2] * d[2])


def cross(a, b):
    return (a[1] * b[2] - a[2] * b[1], a[2] * b[0] - a[0] * b[2], a[0] * b[1] - a[1] * b[0])


def number(points, tolerance):
    if len(points) < 3:
        return 0
    scale = max([1.0] + [abs(x) for p in points for x in p])
    eps = max(tolerance, GRAIN * scale)
    differences = [tuple(x - o for x, o in zip(p, points[0])) for p in points[1:]]
    extent = max(map(root, differences))
    if extent <= eps:
        return 1
    longer = [d for d in differences if root(d) > eps]
    if not longer:
        return 2
    return 4 if any(root(cross(longer[0], d)) > eps * extent for d in differences) else 3


def entry(name, tolerance, nodes, listed=None):
    listed = list(range(len(nodes))) if listed is None else listed
    answer = number([nodes[k] for k in listed], tolerance)
    data = struct.pack("<IId", len(nodes), len(listed), tolerance)
    data += b"".join(struct.pack("<3d", *p) for p in nodes)
    data += b"".join(struct.pack("<I", k) for k in listed)
    data += bytes([answer, answer == 4])
    return bytes([len(name)]) + name.encode() + struct.pack("<I", len(data)) + data


def far(*points):
    return [(x, y, FAR) for x, y in points]


def flat(*points):
    return [(x, y, 0.0) for x, y in points]


def ties(name, nodes):
    """A test whose tolerance is the root of the first difference, or of the largest where the name says so."""
    roots = [root(tuple(x - o for x, o in zip(p, nodes[0]))) for p in nodes[1:]]
    return (name, max(roots) if name.startswith("together") else roots[0], nodes)


def answers():
    corner = flat((0, 0), (1, 0), (0, 0.5))
    yield ("says-too-few", 0.0, corner, [0, 2])
    yield ("says-together", 2.0, corner)
    yield ("says-thin", 0.5, corner)
    yield ("says-spans", 0.25, corner)
    yield ("says-spans-of-some", 0.25, [(9.0, 9.0, 9.0)] + corner + [(0.5, 0.0, 0.0)], [1, 2, 3])
    yield ("says-thin-of-some", 0.25, [(9.0, 9.0, 9.0)] + corner + [(0.5, 0.0, 0.0)], [1, 2, 4])


def together():
    yield ("together-less-quarter", 0.25, flat((0, 0), (0.25, 0), (0, 0.25)))
    yield ("together-less-345", 1.25, [(1, 1, 1), (1.75, 2, 1), (1, 1.75, 2)])
    yield ("together-less-0.6875", 0.6875, [(0, 0, 0), (0.5, 0, 0.25), (0, 0.6875, 0), (-0.6875, 0, 0)])
    yield ("together-less-scale", 0.0, far((0, 0), (STEP, 0), (0, STEP)))
    yield ties("together-less-sought", [(0.87, -1.95, -1.94), (0.6, 1.27, -1.68), (-0.76, 0.92, -1.34), (1.44, -0.05, -1.76)])


def directions():
    yield ("direction-equal-quarter", 0.25, flat((0, 0), (0.25, 0), (0, 1), (1, 1)))
    yield ("direction-equal-345", 1.25, [(0, 0, 0), (0.75, 0, 1), (3, 0, 4), (4, 0, -3)])
    yield ("direction-equal-0.6875", 0.6875, [(1, 1, 1), (1, 1, 1.6875), (1, 3, 1), (3, 1, 1), (1, 1, 2)])
    yield ("direction-equal-scale", 0.0, far((0, 0), (STEP, 0), (0, 1), (1, 0)))
    yield ties("direction-equal-sought", [(1.16, -0.11, -1.23), (0.42, -0.62, 1.23), (0.89, -0.6, 1.9), (-1.68, -1.59, -0.12)])
    yield ("direction-longest-thin", 0.25, flat((0, 0), (0.3125, 0), (0, 0.75), (1, 0)))
    yield ("direction-longest-spans", 0.25, flat((0, 0), (0.125, 0.25), (0.9375, -0.25), (1, 0)))
    yield ("direction-longest-345", 0.5, flat((0, 0), (0.36, 0.48), (-0.64, 0.48), (0.9, 1.2)))
    yield ("direction-longest-scale", 0.0, far((0, 0), (1.25 * STEP, 0), (0, 0.75), (1, 0)))
    yield ("direction-longest-sought", 0.75, [(-0.2, 0.98, 1.69), (-0.54, 0.99, 0.78), (-1.42, 1.04, -0.83), (0.23, -0.01, 0.68)])


def margins():
    for name, part in (("eps-half", 0.75), ("eps-zero", 0.375)):
        up = part * GRAIN
        yield (name + "-together", 0.0, flat((0, 0), (up, 0), (0, up)))
        yield (name + "-thin", 0.0, flat((0, 0), (1, 0), (0.5, up)))
        yield (name + "-thin-scale", 0.0, far((0, 0), (0, 3), (0, 4), (part * STEP, 2)))


def main():
    with open(os.path.join(os.path.dirname(__file__), "..", "crates", "numbers", "data", "areas"), "wb") as f:
        for tests in (answers(), together(), directions(), margins()):
            f.write(b"".join(entry(*one) for one in tests))


main()
