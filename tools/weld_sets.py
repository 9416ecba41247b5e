#!/usr/bin/env python3
"""weld_sets.py: writes crates/numbers/data/welds, node sets with the welded numbers that each must get.

The welding here is a reading of document 01's paragraph 'Welded numbers' and of order 1, beside `duplicates_dim_n` and `used_nodes` of
the reference, in doubles as Python has them. A set is: the number of nodes (4 bytes), the number of words (4), the tolerance (8), three
coordinates a node (8 each), the words of one PHED (4 each), then a welded number a node (4 each), all little-endian; in the list each has
its name before it, with the name's length in a byte, and its size in 4 bytes. tools/rust/record.sh puts `duplicates_dim_n`'s numbers in
the place of those written here, and says where they differ.

Where a set has no words of its own, they name all nodes, in runs of at most 64; one separator where there is no node, for a cell has a
word. The sets loose-* have nodes that no word names, and tell a welding of all nodes; in the sets dropped-* a node stands only in a run
of one or two words, which is no ring: it is welded all the same.

The sets sum-order-* tell a squared distance summed as dx² + (dy² + dz²): the two orders differ by one unit in the last place, and the
tolerance's square is the lower of them. Found by trying all differences of tenths up to 2.9 with tolerances of tenths."""
import math, os, random, struct

SEPARATOR = 4294967295
RING = 64


def squared(p, q):
    dx, dy, dz = p[0] - q[0], p[1] - q[1], p[2] - q[2]
    return dx * dx + dy * dy + dz * dz


def naming_all(count):
    words = []
    for node in range(count):
        words += [SEPARATOR, node] if node and node % RING == 0 else [node]
    return words or [SEPARATOR]


def welded(nodes, words, tolerance):
    numbers = list(range(len(nodes)))
    if tolerance == 0:
        return numbers
    used = set(words) - {SEPARATOR}
    order = sorted(used, key=lambda i: (nodes[i], i))  # -0.0 == 0.0 in a comparison of tuples
    free = set(order)
    for at, leader in enumerate(order):
        if leader not in free:
            continue
        group = [leader]
        for other in order[at + 1:]:
            if other not in free:
                continue
            if nodes[other][0] - nodes[leader][0] > tolerance:
                break
            if squared(nodes[leader], nodes[other]) <= tolerance * tolerance:
                group.append(other)
        free -= set(group)
        for member in group:
            numbers[member] = min(group)
    return numbers


def entry(name, nodes, tolerance, words=None):
    words = naming_all(len(nodes)) if words is None else words
    data = struct.pack("<IId", len(nodes), len(words), tolerance)
    data += b"".join(struct.pack("<3d", *p) for p in nodes)
    data += struct.pack("<%dI" % len(words), *words)
    data += struct.pack("<%dI" % len(nodes), *welded(nodes, words, tolerance))
    return bytes([len(name)]) + name.encode() + struct.pack("<I", len(data)) + data


def sets():
    dice = random.Random(4)
    chain = [(0.6 * i, 0.0, 0.0) for i in range(40)]
    dice.shuffle(chain)
    yield ("chain", chain, 1.0)
    yield ("equal", [(1.5, -2.0, 3.25)] * 5 + [(1.5, -2.0, 3.5)] * 4 + [(1.5, -2.0, 3.25)] * 3, 0.125)
    yield ("zeros", [(s, t, u) for s in (0.0, -0.0) for t in (-0.0, 0.0) for u in (0.0, -0.0)], 1e-9)
    yield ("signs", [(0.0, 0.0, 0.0), (-0.0, 1.0, 0.0), (0.0, 2.0, -0.0), (-0.0, 5.0, 0.0), (0.0, 5.0, -0.5), (0.0, 5.0, 0.5)], 1.0)
    flat = [(7.0, dice.uniform(-1, 1), dice.uniform(-1, 1)) for _ in range(300)]
    yield ("flat", flat, 0.1)
    edge = [(0.0, 0.0, 0.0), (3.0, 4.0, 0.0), (0.0, 3.0, 4.0), (math.nextafter(5.0, 6), 0.0, 0.0), (5.0, 0.0, 0.0)]
    yield ("edge", edge, 5.0)
    yield ("tenths", [(0.1 * i, 0.1 * (i % 3), 0.3 * (i % 2)) for i in range(60)], 0.3)
    yield ("later", [(2.0, 0.0, 0.0), (1.0, 0.0, 0.0), (0.0, 0.0, 0.0), (2.5, 0.0, 0.0)], 1.0)
    yield ("exact", [(1.0, 1.0, 1.0)] * 6, 0.0)
    yield ("below", [(1.0, 1.0, 1.0)] * 6, -0.0)
    yield ("empty", [], 1.0)
    many = [tuple(dice.uniform(-1, 1) for _ in range(3)) for _ in range(10000)]
    yield ("random", many, 0.06)
    for name, difference, tolerance in (
            ("apart-1", (0.1, 0.6, 1.8), 1.9), ("apart-2", (0.8, 1.1, 1.6), 2.1), ("apart-3", (1.4, 2.2, 2.9), 3.9),
            ("welded-1", (1.8, 0.6, 0.1), 1.9), ("welded-2", (0.4, 1.3, 1.6), 2.1), ("welded-3", (1.8, 1.5, 2.6), 3.5)):
        yield ("sum-order-" + name, [(0.0, 0.0, 0.0), difference], tolerance)
    row = [(0.0, 0.0, 0.0), (0.75, 0.0, 0.0), (1.5, 0.0, 0.0), (9.0, 0.0, 0.0), (9.0, 9.0, 0.0)]
    beside = [(0.0, 0.0, 0.0), (0.5, 0.75, 0.0), (0.5, -0.75, 0.0), (9.0, 0.0, 0.0), (9.0, 9.0, 0.0)]
    yield ("loose-leads", beside, 1.0, [1, 2, 3, 4])
    yield ("loose-parts", row, 1.0, [4, 3, 2, 1])
    yield ("loose-between", row, 1.0, [0, 2, 3, 4])
    yield ("loose-all", [(1.0, 2.0, 3.0)] * 5, 1.0, [SEPARATOR])
    yield ("dropped-first", beside, 1.0, [0, SEPARATOR, 1, 2, 3, 4])
    yield ("dropped-two", beside, 1.0, [1, 2, 3, 4, SEPARATOR, 0, 4, SEPARATOR, 3, 1, 2])
    yield ("dropped-last", row, 1.0, [1, 2, 3, 4, SEPARATOR, SEPARATOR, 0])


def main():
    with open(os.path.join(os.path.dirname(__file__), "..", "crates", "numbers", "data", "welds"), "wb") as f:
        f.write(b"".join(entry(*one) for one in sets()))


main()
