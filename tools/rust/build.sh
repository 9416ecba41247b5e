#!/usr/bin/env bash
# tools/rust/build.sh PATH: builds target/rust/compare, our static library and the Rust reference in one program.
# PATH is a checkout of mefikit, commit 6eb5d5aee2 (the folder that has crates/mefikit/src). The functions are cut out of it
# unchanged; the cut text stays in target/rust, which git ignores.
#   LIB          another static library of crate capi, which is then not built here
#   RUSTC        the compiler (default rustc);  RUSTC_FLAGS: more flags for it
set -euo pipefail
path=$(cd "${1:?path of the mefikit source}" && pwd)
cd "$(dirname "${BASH_SOURCE[0]}")/../.."
out=$PWD/target/rust
rustc=${RUSTC:-rustc}
lib=${LIB:-crates/capi/out/libcapi.a}

# A source file, if it is the version that this script was written for.
source_file() { # path below crates/mefikit/src, sha256
    local f=$path/crates/mefikit/src/$1
    [ -e "$f" ] || { echo "no crates/mefikit/src/$1 under $path" >&2; return 1; }
    [ "$(sha256sum <"$f" | cut -d' ' -f1)" = "$2" ] || { echo "$1 is another version" >&2; return 1; }
    echo "$f"
}
mod=$(source_file tools/conformance/mod.rs ac73c53e9b4366e7cc92243a13568c7a785a35d9eb4a18e430e4037160220f45)
snap=$(source_file tools/snap.rs 9453f26b8a32789918e4b5b7fc1dd2e52d8bab1df4c25c6adc4eb2172411f44a)
slice=$(source_file tools/slice.rs eabd26f566c986e445b2a9aa072c788c3a2a27d331a00ff3d758cad2d89ac643)
umesh=$(source_file mesh/umesh.rs c4569ee21068009e43931b334ef934974e4c21f2c82b9a38d2d68d5480589d30)

# One top-level item, with its comments and attributes, byte for byte.
take() { # file, how its first line begins
    awk -v start="$2" '
        taking { print; if ($0 ~ /^}/) { taking = 0; done++ } next }
        index($0, start) == 1 {
            printf "%s%s\n", pending, $0; pending = ""
            if ($0 ~ /;$/) done++; else taking = 1
            next
        }
        /^(\/\/\/|#\[)/ { pending = pending $0 "\n"; next }
        { pending = "" }
        END { if (done != 1) { print "item found " done + 0 " times: " start > "/dev/stderr"; exit 1 } }
    ' "$1"
    echo
}

# One method, byte for byte: from its first line, indented by four, to the brace so indented that closes it.
take_method() { # file, how its first line begins behind the indent
    awk -v start="    $2" '
        taking { print; if ($0 ~ /^    }$/) { taking = 0; done++ } next }
        index($0, start) == 1 { print; taking = 1 }
        END { if (done != 1) { print "method found " done + 0 " times: " start > "/dev/stderr"; exit 1 } }
    ' "$1"
}

mkdir -p "$out"
{
    for item in 'pub enum ConformanceIssue {' 'pub struct ConformanceReport {' \
        'impl ConformanceReport {' 'pub struct ConformanceChecks(u8);' \
        'impl ConformanceChecks {' 'impl std::ops::BitOr for ConformanceChecks {' \
        'pub struct ConformanceOptions {' 'impl ConformanceOptions {' \
        'fn issue_rank(' 'struct NodeDuplicate {' 'struct VolumeCellFaces {' \
        "struct IssueSink<'a> {" "impl IssueSink<'_> {" 'fn single_issue(' \
        'fn diagnostic_cell_type(' 'fn find_butterfly_cells(' \
        'fn face_self_intersects(' 'fn segments_intersect3(' \
        'fn sub3(' 'fn add3(' 'fn scale3(' 'fn dot3v(' 'fn cross3(' \
        'fn partially_shared_faces(' 'fn midpoint<' 'fn common_nodes_span_area<' \
        'fn key_centroid<'
    do take "$mod" "$item"; done
} >"$out/conformance.rs"
take "$mod" 'pub fn is_conform_with(' >"$out/entry.rs"
take "$snap" 'fn duplicates_dim_n<' >"$out/snap.rs"
take "$slice" 'fn cell_faces(' >"$out/slice.rs"
{
    echo "impl UMeshView<'_> {"
    take_method "$umesh" 'pub fn used_nodes(&self)'
    echo "}"
} >"$out/used_nodes.rs"

# A second copy of the pair search, its choice of way asked for outside.
take "$mod" 'fn partially_shared_faces(' |
    sed -e 's/^fn partially_shared_faces(/fn partially_shared_faces_by(/' \
        -e 's/if node_work <= triple_work.saturating_mul(4) {/if crate::way::by_nodes(node_work, triple_work) {/' \
        >"$out/hooked.rs"
[ "$(grep -c 'crate::way::by_nodes\|^fn partially_shared_faces_by(' "$out/hooked.rs")" = 2 ] ||
    { echo "the choice of way was not found" >&2; exit 1; }

if [ -z "${LIB:-}" ]; then (cd crates/capi && rt lib) >&2; fi
# shellcheck disable=SC2086
EXTRACTED=$out "$rustc" --edition 2024 -C opt-level=3 -C codegen-units=1 ${RUSTC_FLAGS:-} --remap-path-prefix "$PWD=." \
    --crate-name compare -o "$out/compare" tools/rust/src/main.rs -C link-arg="$lib"
echo "built target/rust/compare" >&2
