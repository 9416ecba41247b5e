#!/usr/bin/env python3
"""model_files.py VECTORS: fills crates/model_files/data from the folder of published cases, and crates/operations/data with models at
document 01's limits, and writes what these programs must print of them.

A reading of document 01 and docs/FORMAT.md of its own: it judges and takes apart each file, judges the model by 5 to 10, and expects the
same bytes back from each model that passes. Case 900 is the worked example of that page."""
import math
import os
import shutil
import struct
import sys

LISTS = {"coords": 2000, "kinds": 400, "ends": 400, "words": 4000}
SEPARATOR = 0xFFFFFFFF


class Refused(Exception):
    pass


def letter_at(letters, i):
    """Refusal 2 for record i, by its letter and those before it with their counts."""
    letter, before = letters[i][0], letters[:i]
    if any(b[0] == "T" for b in before) or letter not in "NCKT":
        raise Refused(2)
    if letter == "N" and any(b[0] != "N" for b in before):
        raise Refused(2)
    if letter == "K" and not (before and before[-1][0] in "CK" and before[-1][1] == 14):
        raise Refused(2)


def zero_bytes(letter, count):
    """The places that must be zero."""
    if letter == "N":
        return range(1, 8)
    if letter == "T":
        return list(range(4, 8)) + list(range(16, 32))
    return ([1] if letter == "K" else []) + [3] + list(range(4 + 2 * count, 32))


def read(data):
    if not data or len(data) % 32 or len(data) // 32 > 131072:
        raise Refused(1)
    records = [data[i:i + 32] for i in range(0, len(data), 32)]
    letters = [(chr(r[0]), r[2]) for r in records]
    for i, r in enumerate(records):
        letter_at(letters, i)
        letter, count = letters[i]
        if letter in "CK" and not (letter == "K") <= count <= 14:
            raise Refused(3)
        if any(r[p] for p in zero_bytes(letter, count)):
            raise Refused(3)
    if letters[-1][0] != "T":
        raise Refused(2)
    kinds, ends, all_words = [], [], []
    for (letter, count), r in zip(letters, records):
        if letter == "C":
            kinds.append(r[1])
            ends.append(len(all_words))
        if letter in "CK":
            all_words += [SEPARATOR if w == 65535 else w for w in struct.unpack("<14H", r[4:])[:count]]
            ends[-1] = len(all_words)
    model = {
        "coords": [x for (l, _), r in zip(letters, records) if l == "N" for x in struct.unpack("<3d", r[8:])],
        "kinds": kinds, "ends": ends, "words": all_words,
        "tolerance": struct.unpack("<d", records[-1][8:16])[0], "flags": records[-1][1]}
    if any(len(model[name]) > most for name, most in LISTS.items()):
        raise Refused(4)
    return model


def runs(words):
    out = [[]]
    for w in words:
        if w == SEPARATOR:
            out.append([])
        else:
            out[-1].append(w)
    return out


def lists_off(m):
    """Refusal 5."""
    if len(m["coords"]) > 3 * 65535 or len(m["kinds"]) > 16384 or len(m["words"]) > 262144 or len(m["coords"]) % 3:
        return True
    ends = [0] + m["ends"]
    return len(m["kinds"]) != len(m["ends"]) or ends[-1] != len(m["words"]) or any(a > b for a, b in zip(ends, ends[1:]))


def cell_off(kind, words, nodes):
    """Refusal 9, but for the order of kinds."""
    if kind not in (1, 2, 3, 4) or (kind < 4 and len(words) != {1: 4, 2: 8, 3: 6}[kind]):
        return True
    if kind == 4 and (not words or any(len(r) > 64 for r in runs(words))):
        return True
    return any(w >= nodes and not (kind == 4 and w == SEPARATOR) for w in words)


def model_refusal(m):
    if lists_off(m):
        return 5
    if not math.isfinite(m["tolerance"]) or m["tolerance"] < 0:
        return 6
    if not all(math.isfinite(x) and abs(x) <= 1000000 for x in m["coords"]):
        return 7
    if not m["kinds"]:
        return 8
    starts = [0] + m["ends"]
    cells = [(kind, m["words"][a:b]) for kind, a, b in zip(m["kinds"], starts, m["ends"])]
    if m["kinds"] != sorted(m["kinds"]) or any(cell_off(kind, words, len(m["coords"]) // 3) for kind, words in cells):
        return 9
    return 10 if m["flags"] > 3 else 0


def outcome(data):
    """The program's line for a file, and its letter."""
    try:
        m = read(data)
    except Refused as e:
        return "refused %d" % e.args[0], str(e.args[0])
    total = 0
    for w in m["ends"] + m["words"]:
        total = (total * 31 + w) % 2**32
    line = "nodes %d cells %d words %d sum %d" % (len(m["coords"]) // 3, len(m["kinds"]), len(m["words"]), total)
    n = model_refusal(m)
    if n:
        return line + " not written %d" % n, "A" if n == 10 else str(n)
    return line + " the same", "="


def good():
    """A cube's nodes, a tetrahedron and a polyhedron of 29 words."""
    rings = [(0, 3, 2, 1), (4, 5, 6, 7), (0, 1, 5, 4), (2, 3, 7, 6), (1, 2, 6, 5), (3, 0, 4, 7)]
    words = sum(([65535] + list(r) for r in rings), [])[1:]
    out = b"".join(struct.pack("<B7x3d", 78, x, y, z) for z in (0, 1) for x, y in ((0, 0), (1, 0), (1, 1), (0, 1)))

    def record(letter, kind, ws):
        return struct.pack("<BBBx", letter, kind, len(ws)) + struct.pack("<14H", *(ws + [0] * (14 - len(ws))))
    out += record(67, 1, [0, 1, 3, 4]) + record(67, 4, words[:14]) + record(75, 0, words[14:28]) + record(75, 0, words[28:])
    return out + struct.pack("<BBH4xd16x", 84, 3, 9, 0.001)


def example():
    """The worked example of docs/FORMAT.md, from the page itself."""
    page = os.path.join(os.path.dirname(os.path.abspath(__file__)), "..", "docs", "FORMAT.md")
    rows = [line for line in open(page) if line.startswith("    ")]
    return b"".join(bytes.fromhex(row[8:55]) for row in rows)


def limits():
    """Names and models: a tetrahedron but for what is said."""
    corners = [0.0, 0.0, 0.0, 1.0, 0.0, 0.0, 0.0, 1.0, 0.0, 0.0, 0.0, 1.0]
    nan, apart = math.nan, [0, 1, 2, SEPARATOR]

    def but(name, coords=corners, kinds=[1], ends=[4], words=[0, 1, 2, 3], tolerance=0.0, flags=3):
        return name, {"coords": coords, "kinds": kinds, "ends": ends, "words": words, "tolerance": tolerance, "flags": flags}

    def twice(name, kinds, ends):
        return but(name, kinds=kinds, ends=ends, words=[0, 1, 2, 3] * (ends[1] // 4))

    def ring(name, words):
        return but(name, kinds=[4], ends=[words], words=[0] * words)
    return [
        but("65,535 nodes", [0.0] * 196605), but("65,536 nodes", [0.0] * 196608), but("a coordinate too few", corners[:11]),
        but("more kinds than ends", kinds=[1, 1]), but("a word behind the last end", ends=[3]),
        but("ends descend", kinds=[1, 1, 1], ends=[4, 3, 4]), but("words without cells", kinds=[], ends=[]),
        but("tolerance -0", tolerance=-0.0), but("tolerance below zero", tolerance=-1.0), but("tolerance infinite", tolerance=math.inf),
        but("tolerance no number, flags 4", tolerance=nan, flags=4),
        but("coordinates at the limit", [-1000000.0] + corners[1:11] + [1000000.0]), but("a coordinate beyond", corners[:11] + [1000001.0]),
        but("a coordinate no number, tolerance below zero", corners[:11] + [nan], tolerance=-1.0),
        but("a coordinate no number, no cells", corners[:11] + [nan], [], [], []), but("a coordinate no number", corners[:11] + [nan]),
        but("no cells", corners, [], [], []), but("no cells, flags 4", corners, [], [], [], flags=4), but("no nodes and no cells", [], [], [], []),
        but("kind 0", kinds=[0]), but("kind 5", kinds=[5]), twice("kinds descend", [4, 1], [4, 8]),
        twice("a PHED behind a tetrahedron", [1, 4], [4, 8]), but("a hexahedron of four words", kinds=[2]), twice("an empty cell", [1, 4], [4, 4]),
        but("a separator in a tetrahedron", words=apart), but("a separator in a PHED", kinds=[4], words=apart),
        but("node 2 of two", corners[:6], [4], words=apart), but("node 2 of two, flags 4", corners[:6], [4], words=apart, flags=4),
        ring("a ring of 64 nodes", 64), ring("a ring of 65 nodes", 65),
        but("flags 0", flags=0), but("flags 3"), but("flags 4", flags=4), but("flags 255", flags=255)]


def limit_bytes(name, m):
    """A model as crates/operations/src/limits.rt reads it."""
    last = max([i + 1 for i, x in enumerate(m["coords"]) if x != 0.0], default=0)
    ends, words = m["ends"], m["words"]
    head = bytes([len(name), last, len(m["kinds"]), len(ends), len(words), m["flags"], 0, 0])
    return (head + struct.pack("<IId", len(m["coords"]), 0, m["tolerance"]) + name.encode() + struct.pack("<%dd" % last, *m["coords"][:last])
            + bytes(m["kinds"]) + struct.pack("<%dI" % (len(ends) + len(words)), *ends, *words))


def damages(data):
    lines = ["".join(outcome(data[:32 * n])[1] for n in range(len(data) // 32 + 1))]
    for by in (1, 128):
        marks = [outcome(data[:p] + bytes([(data[p] + by) % 256]) + data[p + 1:])[1] for p in range(len(data))]
        lines += ["".join(marks[p:p + 32]) for p in range(0, len(data), 32)]
    return lines


def wanted(vectors):
    """All that reading refuses, all that only writing refuses, and small ones of the rest."""
    names = sorted(n for n in os.listdir(vectors) if n.endswith(".in"))
    chosen, room = [], 12000
    for name in names:
        data = open(os.path.join(vectors, name), "rb").read()
        answer = open(os.path.join(vectors, name[:-3] + ".out")).readline()
        if answer.startswith("refused"):
            chosen.append((name, data))
        elif len(data) <= room and len(data) < 1500:
            room -= len(data)
            chosen.append((name, data))
    return chosen


def fill(crate, files, printed):
    """Writes the crate's data, and its stdout."""
    top = os.path.join(os.path.dirname(os.path.abspath(__file__)), "..", "crates", crate)
    shutil.rmtree(os.path.join(top, "data"), ignore_errors=True)
    os.mkdir(os.path.join(top, "data"))
    for name, data in files:
        with open(os.path.join(top, "data", name), "wb") as f:
            f.write(data)
    path = os.path.join(top, "stdout")
    before = open(path).read() if os.path.exists(path) else ""
    with open(path, "w") as f:
        f.write(printed(before))


def main():
    files = wanted(sys.argv[1]) + [("case-0900.in", example())]
    lines = ["%s %s" % (name, outcome(data)[0]) for name, data in files]
    lines += ["good.in " + outcome(good())[0]] + damages(good())
    fill("model_files", files + [("good.in", good())], lambda before: "\n".join(lines) + "\n")
    listed = b"".join(limit_bytes(*one) for one in limits())
    judged = "".join("%s %d\n" % (name, model_refusal(m)) for name, m in limits())
    # what ring lists and lookups print stays as it was
    fill("operations", [("limits", listed)], lambda before: judged + before[before.index("lists of 12 words"):])


main()
