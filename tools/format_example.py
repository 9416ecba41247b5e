#!/usr/bin/env python3
"""format_example.py: writes the worked example of docs/FORMAT.md, one tetrahedron, between the page's two markers."""
import os
import struct

PAGE = os.path.join(os.path.dirname(os.path.abspath(__file__)), "..", "docs", "FORMAT.md")
BEGIN, END = "<!-- example -->\n", "<!-- end of example -->\n"


def node(i, point):
    parts = [(b"N", "letter N"), (bytes(7), "zero")]
    parts += [(struct.pack("<d", c), "%s = %g" % (axis, c)) for axis, c in zip("xyz", point)]
    return "Node %d" % i, parts


def cell(kind, words):
    used = struct.pack("<%dH" % len(words), *words)
    return "Cell 0, a tetrahedron", [
        (b"C", "letter C"), (bytes([kind]), "kind %d, TET4" % kind), (bytes([len(words)]), "%d words" % len(words)), (bytes(1), "zero"),
        (used, "nodes " + " ".join(map(str, words))), (bytes(28 - len(used)), "ten words not used")]


def last(flags, cap, tolerance):
    return "The end", [
        (b"T", "letter T"), (bytes([flags]), "flags %d: topology and butterfly" % flags), (struct.pack("<H", cap), "cap %d" % cap),
        (bytes(4), "zero"), (struct.pack("<d", tolerance), "tolerance %g" % tolerance), (bytes(16), "zero")]


def main():
    points = [(0, 0, 0), (1, 0, 0), (0, 1, 0), (0, 0, -2.5)]
    records = [node(i, p) for i, p in enumerate(points)] + [cell(1, [0, 1, 2, 3]), last(3, 500, 0.001)]
    lines = []
    for n, (title, parts) in enumerate(records):
        lines.append("%s, bytes %d to %d:\n" % (title, 32 * n, 32 * n + 31))
        at = 0
        for data, text in parts:
            for i in range(0, len(data), 16):
                row = data[i:i + 16]
                lines.append("    %2d  %-47s  %s" % (at, row.hex(" ").upper(), text))
                at += len(row)
        assert at == 32
        lines.append("")
    page = open(PAGE).read()
    head, rest = page.split(BEGIN)
    with open(PAGE, "w") as f:
        f.write(head + BEGIN + "\n" + "\n".join(lines) + "\n" + END + rest.split(END)[1])


main()
