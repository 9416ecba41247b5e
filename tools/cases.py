#!/usr/bin/env python3
"""cases.py: writes crates/report/proofs/Published.antt, fourteen published cases for the definitions to compute.

The cases are those of crates/replay/data (case-XXXX.in, .out, .rec). In the table a case's input is numbers of 32 bytes,
its output one number, and its finding records are numbers of 64 bytes, all little-endian. Another case is a line of CASES."""
import os

CASES = [
    ("0085", "kind 1: two hexahedra, both bow-ties; the flags ask for kind 1 alone"),
    ("0084", "kind 2: four faces of eight tetrahedra over four nodes, held 4, 6, 6 and 8 times"),
    ("0037", "kind 3: three pairs of cells, with three and with four common nodes"),
    ("0010", "kind 4: seven repeated pairs, in the words of two polyhedra; one node is exactly the tolerance away"),
    ("0015", "CONFORM: a hexahedron and five polyhedra, coordinates from 5e-324 to a million in size"),
    ("0086", "a cap below the total: seven of ten findings of five wedges are kept"),
    ("0067", "sought by node triples: node work 197, triple work 21; two overfull faces, five pairs"),
    ("0073", "sought by common nodes: node work 64, triple work 26; findings of all four kinds"),
    ("0059", "dropped runs: of none, one and two nodes; node 3, in a dropped run alone, still repeats node 2"),
    ("0022", "refused while reading: 3, an unused word of the wedge, before the unknown letter of the last record"),
    ("0053", "refused while checking: 10, flags 4, the last reason of a model"),
    ("0063", "welding, tolerance 1: x = 0 leads and takes 0.75, not 1.5, for distance counts from the leader"),
    ("1000", "order 1: loose node 0 lies between nodes 1 and 2 and would weld them; CONFORM"),
    ("1002", "order 1: node 0, named in a dropped run alone, is welded"),
]
HEAD = """-- Published cases, each with what it shows, computed by the definitions. Written by tools/cases.py; the program replay runs all.
use mathlib.Core.Path.{◌≡◌, refl}
use mathlib.Core.Bool.{true}
use mathlib.Core.List.{List, [], ◌∷◌}
use Rattle.report.proofs.Cases.{Case, case_of, agrees, all_agree}

abbrev pub cases : List Case
cases =
"""


def number(data):
    return "0x%x" % int.from_bytes(data, "little")


def numbers(data, size):
    parts = [number(data[i:i + size]) for i in range(0, len(data), size)]
    return "(" + "".join("\n    %s ∷" % p for p in parts) + " [])" if parts else "[]"


def main():
    top = os.path.join(os.path.dirname(os.path.abspath(__file__)), "..")
    vectors = os.path.join(top, "crates/replay/data")
    rows = []
    for case, shows in CASES:
        data = [open(os.path.join(vectors, "case-%s.%s" % (case, e)), "rb").read() for e in ("in", "out", "rec")]
        rows.append("    -- %s, %s\n    case_of %d %s\n    %d %s\n    %s" % (
            case, shows, len(data[0]), numbers(data[0], 32), len(data[1]), number(data[1]), numbers(data[2], 64)))
    with open(os.path.join(top, "crates/report/proofs/Published.antt"), "w") as out:
        out.write(HEAD + "\n    ∷\n".join(rows) + "\n    ∷ []\n\n")
        out.write("pub computed : all_agree cases ≡ true\nunfolding agrees\ncomputed = refl\n")


main()
