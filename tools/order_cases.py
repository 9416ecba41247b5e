#!/usr/bin/env python3
"""order_cases.py VECTORS ORDER [--program FILE] [--library FILE]: runs the published cases of the base and of orders 1 to ORDER.

VECTORS is the folder of the published cases (case-XXXX.in of the base, orders/NN of order NN; its README says what they are). A case
that later orders change is compared with the newest answer under `again` up to ORDER. A file is given to the program, whose whole output
is compared, and to lenoshale_read and lenoshale_check with the program's limits, whose records are. A single operation of ops.json is
called in the library, with lent memory filled with one byte, then with another: what it answers is compared, and nothing may change
beyond what it fills, and nothing at all where it refuses.

The program is crates/lenoshale/out/lenoshale, the library crates/capi/out/libcapi.a (`rt run` and `rt lib` in those crates' folders),
unless others are named; the library is linked into a shared object by gcc. Prints a line for each case that differs, and
`N cases: N agree`; the exit code is 1 where one differs."""
import argparse
import ctypes
import glob
import json
import os
import struct
import subprocess
import sys

TOP = os.path.join(os.path.dirname(os.path.abspath(__file__)), "..")
RUN_INPUT, RUN_FINDINGS, RUN_WORK = 32768, 512, 16384
RECORD, FILE_RECORD, FILE_RECORD_WORDS = 64, 32, 14
GUARD = 64
FILLS = (0xA5, 0x3C)
# Cases that rest on a reading which is not this repository's (docs/DECISIONS.md): order and id.
LEFT_OUT = set()


# ---- lent memory, and calls

class Lent:
    """A list of elements of so many bytes. It stands between guards, which no call may change."""

    def __init__(self, size, length, fill):
        self.size, self.length, self.filled = size, length, 0
        self.before = bytes([fill]) * (2 * GUARD + size * length)
        self.memory = ctypes.create_string_buffer(self.before, len(self.before))
        self.address = ctypes.addressof(self.memory) + GUARD
        assert self.address % 8 == 0

    def put(self, values):
        data = b"".join(v.to_bytes(self.size, "little") for v in values)
        ctypes.memmove(self.address, data, len(data))
        self.before = self.memory.raw

    def values(self):
        raw = self.memory.raw[GUARD:GUARD + self.size * self.length]
        return [int.from_bytes(raw[i:i + self.size], "little") for i in range(0, len(raw), self.size)]

    def first(self, count):
        """The first elements, which the call had to fill."""
        self.filled = count
        return self.values()[:count]

    def zeros(self):
        """How many words in front are zero: those end so. No other word is, unless the call changed it."""
        values = self.values()
        self.filled = next((i for i, w in enumerate(values) if w), len(values))
        return self.filled

    def changed(self, refused):
        """Whether something changed that must not."""
        after, start = self.memory.raw, GUARD + (0 if refused else self.size * min(self.filled, self.length))
        return after[:GUARD] != self.before[:GUARD] or after[start:] != self.before[start:]


class Call:
    """A call of a function of the library, made of its arguments in their order."""

    def __init__(self, library, name, fill):
        self.function, self.fill = getattr(library, name), fill
        self.function.restype = ctypes.c_uint32
        self.arguments, self.lists, self.refused = [], [], False

    def lent(self, size, length):
        """A list that is filled: a pointer and a length."""
        one = self.out(size, length)
        self.arguments.append(ctypes.c_size_t(length))
        return one

    def given(self, size, values):
        """A list that is read."""
        self.lent(size, len(values)).put(values)

    def out(self, size, length=1):
        """A pointer to one value that is written."""
        one = Lent(size, length, self.fill)
        self.arguments.append(ctypes.c_void_p(one.address))
        self.lists.append(one)
        return one

    def plain(self, kind, value):
        self.arguments.append(kind(value))

    def mesh(self, model):
        """A model but for its flags."""
        self.given(8, coordinates(model))
        self.given(1, model["kinds"])
        self.given(4, model["ends"])
        self.given(4, model["words"])
        self.plain(ctypes.c_double, double(model["tolerance"]))

    def model(self, model):
        self.mesh(model)
        self.plain(ctypes.c_uint8, model["flags"])

    def run(self):
        """Nothing where the call is accepted, or its refusal."""
        answer = self.function(*self.arguments)
        self.refused = answer != 0
        return {"refused": answer} if self.refused else None


class Library:
    """The library, the byte that lent memory is filled with, and the calls that were made."""

    def __init__(self, path):
        folder = os.path.join(TOP, "target", "order_cases")
        shared = os.path.join(folder, "liblenoshale.so")
        os.makedirs(folder, exist_ok=True)
        whole = ["-Wl,--whole-archive", path, "-Wl,--no-whole-archive"]
        subprocess.run(["gcc", "-shared", "-o", shared] + whole, check=True)
        self.functions, self.fill, self.calls = ctypes.CDLL(shared), FILLS[0], []

    def call(self, name):
        one = Call(self.functions, "lenoshale_" + name, self.fill)
        self.calls.append(one)
        return one

    def changed(self):
        """Whether one of the calls changed what it must not; and they are forgotten."""
        calls, self.calls = self.calls, []
        return any(one.changed(c.refused) for c in calls for one in c.lists)


# ---- how ops.json writes things

def double(bits):
    return struct.unpack("<d", int(bits, 16).to_bytes(8, "little"))[0]


def coordinates(model):
    return [int(c, 16) for c in model["coords"]] + [0] * (3 * model.get("more_nodes", 0))


def floats(values):
    return ["%016X" % v for v in values]


def file_bytes(file):
    return b"".join(bytes.fromhex(data) * times for times, data in file["records"]) + bytes.fromhex(file["rest"])


def plainly(expect):
    """What is expected, in the form in which the operations below answer."""
    expect = dict(expect)
    if "model" in expect:
        model = dict(expect["model"])
        model["coords"] = floats(coordinates(model))
        expect["model"] = {k: v for k, v in model.items() if k not in ("more_nodes", "compartments")}
    if "file" in expect:
        expect["file"] = file_bytes(expect["file"]).hex()
    return expect


# ---- the operations: each takes the library and a case, and answers as `expect` is written

def weld(library, case):
    """Scratch is lent with three words a node, with more, and with one fewer, which is too short."""
    nodes = len(coordinates(case["model"])) // 3
    answers = []
    for length in (3 * nodes, 3 * nodes + 5, 3 * nodes - 1):
        c = library.call("weld")
        c.mesh(case["model"])
        numbers, scratch = c.lent(4, case["room"]), c.lent(4, max(length, 0))
        answers.append(c.run() or {"map": numbers.first(nodes)})
        if not c.refused and any(scratch.first(3 * nodes)):
            return {"scratch": "is not zero"}
    short = answers.pop()
    if "map" in answers[0] and nodes and short != {"refused": 4}:
        return {"scratch of a word less": short}
    return answers[0] if answers[0] == answers[1] else {"with more scratch": answers[1]}


def read(library, case):
    c = library.call("read")
    c.given(1, file_bytes(case["file"]))
    rooms = case["rooms"]
    coords, kinds, ends, words = c.lent(8, rooms[0]), c.lent(1, rooms[1]), c.lent(4, rooms[3]), c.lent(4, rooms[2])
    counts = [c.out(8) for _ in range(3)]
    tolerance, flags, cap = c.out(8), c.out(1), c.out(2)
    refused = c.run()
    if refused:
        return refused
    nodes, cells, count = [one.first(1)[0] for one in counts]
    return {"model": {
        "coords": floats(coords.first(3 * nodes)), "kinds": kinds.first(cells), "ends": ends.first(cells), "words": words.first(count),
        "tolerance": floats(tolerance.first(1))[0], "flags": flags.first(1)[0], "cap": cap.first(1)[0]}}


def write(library, case):
    c = library.call("write")
    c.model(case["model"])
    c.plain(ctypes.c_uint16, case["model"]["cap"])
    out, size = c.lent(1, case["room"]), c.out(8)
    return c.run() or {"file": bytes(out.first(size.first(1)[0])).hex()}


def check(library, case):
    c = library.call("check")
    c.model(case["model"])
    c.plain(ctypes.c_uint16, case["model"]["cap"])
    findings, work = c.lent(1, case["findings_room"]), c.lent(4, case["work_room"])
    total, kept = c.out(8), c.out(8)
    refused = c.run()
    if refused:
        return refused
    data = bytes(findings.first(RECORD * kept.first(1)[0]))
    records = [data[i:i + RECORD].hex() for i in range(0, len(data), RECORD)]
    return {"total": total.first(1)[0], "records": records, "zeroed": work.zeros()}


def rings(library, case):
    c = library.call("fill_ring_lists")
    c.model(case["model"])
    raw, welded, work = c.lent(4, case["raw_room"]), c.lent(4, case["welded_room"]), c.lent(4, case["work_room"])
    count = c.out(4)
    refused = c.run()
    if refused:
        return refused
    work.zeros()
    return {"raw": raw.first(count.first(1)[0]), "welded": welded.first(count.first(1)[0])}


def lookup(library, case):
    c = library.call("ring_lookup")
    c.model(case["model"])
    c.given(4, case["raw_list"])
    c.given(4, case["welded_list"])
    c.plain(ctypes.c_size_t, case["face"])
    start, size = c.out(8), c.out(8)
    refused = c.run()
    if refused:
        return refused
    at = start.first(1)[0]
    return {"part": case[case["list"] + "_list"][at:at + size.first(1)[0]]}


def owners(library, case):
    c = library.call("face_owners")
    c.model(case["model"])
    c.plain(ctypes.c_size_t, case["face"])
    cells, count = c.lent(4, case["room"]), c.out(4)
    refused = c.run()
    if refused:
        return refused
    whole = count.first(1)[0]
    return {"owners": cells.first(min(whole, case["room"])), "count": whole}


def area(library, case):
    c = library.call("area_test")
    c.given(8, coordinates(case))
    c.given(4, case["nodes"])
    c.plain(ctypes.c_double, double(case["tolerance"]))
    says = c.out(4)
    return c.run() or {"answer": ["too few", "together", "no direction", "thin", "spans"][says.first(1)[0]]}


def root(library, case):
    c = library.call("root")
    c.plain(ctypes.c_double, double(case["x"]))
    x = c.out(8)
    return c.run() or {"root": floats(x.first(1))[0]}


OPERATIONS = {f.__name__: f for f in (weld, read, write, check, rings, lookup, owners, area, root)}


# ---- the cases

def operation(library, case, expect):
    """What differs, or nothing."""
    if case["op"] not in OPERATIONS:
        return "%s is not called here" % case["op"]
    for library.fill in FILLS:
        answer = OPERATIONS[case["op"]](library, case)
        if answer != plainly(expect):
            library.changed()
            return "%s, expected %s" % (answer, plainly(expect))
        if library.changed():
            return "lent memory changed that must not"
    return None


def by_library(library, data):
    """The output and the kept records of a file by the operations, with the program's limits; the output only where it is refused."""
    count = len(data) // FILE_RECORD + 1
    rooms = [3 * count, count, FILE_RECORD_WORDS * count, count]
    answer = {"refused": 1} if len(data) > RUN_INPUT else read(library, {"file": {"records": [], "rest": data.hex()}, "rooms": rooms})
    if "model" in answer:
        answer = check(library, {"model": answer["model"], "findings_room": RECORD * RUN_FINDINGS, "work_room": RUN_WORK})
    if "refused" in answer:
        return "refused %d\n" % answer["refused"], b""
    return None, bytes.fromhex("".join(answer["records"]))


def file_case(program, library, data, out, rec):
    """What differs, or nothing."""
    printed = subprocess.run([program], input=data, stdout=subprocess.PIPE).stdout
    if printed != out:
        return "the program's output differs"
    for library.fill in FILLS:
        refused, records = by_library(library, data)
        if refused is not None and refused.encode() != out:
            return "the library says %s" % refused.strip()
        if records != rec:
            return "the records differ"
        if library.changed():
            return "lent memory changed that must not"
    return None


def contents(path):
    with open(path, "rb") as f:
        return f.read()


def listed(path):
    return json.loads(contents(path)) if os.path.exists(path) else []


class Vectors:
    """The published cases at an order."""

    def __init__(self, folder, order):
        self.orders = ["%02d" % n for n in range(1, order + 1)]
        self.folder = folder
        self.again = {}
        for n in self.orders:
            for row in listed(self.path(n, "again", "ops.json")):
                self.again[row["stage"], row["id"]] = row["expect"]

    def path(self, order, *names):
        return os.path.join(self.folder, "orders", order, *names) if order != "00" else os.path.join(self.folder, *names)

    def newest(self, stage, name, end):
        """The newest answer of a case that is a file."""
        again = [self.path(n, "again", "%s-%s%s" % (stage, name, end)) for n in self.orders]
        return contents([p for p in [self.path(stage, name + end)] + again if os.path.exists(p)][-1])

    def files(self):
        for stage in ["00"] + self.orders:
            for path in sorted(glob.glob(self.path(stage, "*.in"))):
                name = os.path.basename(path)[:-3]
                yield stage, name, contents(path), self.newest(stage, name, ".out"), self.newest(stage, name, ".rec")

    def operations(self):
        for stage in self.orders:
            for case in listed(self.path(stage, "ops.json")):
                if (stage, case["id"]) not in LEFT_OUT:
                    yield stage, case, self.again.get((stage, case["id"]), case["expect"])


def main():
    words = argparse.ArgumentParser(description=__doc__, formatter_class=argparse.RawDescriptionHelpFormatter)
    words.add_argument("vectors")
    words.add_argument("order", type=int)
    words.add_argument("--program", default=os.path.join(TOP, "crates", "lenoshale", "out", "lenoshale"))
    words.add_argument("--library", default=os.path.join(TOP, "crates", "capi", "out", "libcapi.a"))
    words = words.parse_args()
    vectors, library = Vectors(words.vectors, words.order), Library(words.library)
    cases = agree = 0
    differences = [(stage, name, file_case(words.program, library, *rest)) for stage, name, *rest in vectors.files()]
    differences += [(stage, case["id"], operation(library, case, expect)) for stage, case, expect in vectors.operations()]
    for stage, name, fault in differences:
        cases, agree = cases + 1, agree + (fault is None)
        if fault is not None:
            print("%s %s: %s" % (stage, name, fault[:300]))
    print("%d cases: %d agree" % (cases, agree))
    return 0 if cases and cases == agree else 1


sys.exit(main())
