#!/usr/bin/env bash
# Builds the static library of crate capi, the C example and the Rust programs that use it, and the program; runs the example in C and
# in Rust over the published cases and examples/two_cells.in, and compares each output with the program's, byte for byte:
#   --as-program  the operations one by one, with the program's limits
#   --run         the program's whole run in one call
#   no option     with all the memory that the model needs: compared where no limit of the program applies
# It also holds what the library needs from outside against docs/MANUAL.md: `memcpy` and `memset`. The exit code is 1 if one differs.
set -euo pipefail
cd "$(dirname "${BASH_SOURCE[0]}")/.."
(cd crates/capi && rt lib) >&2
(cd crates/lenoshale && rt run </dev/null >/dev/null)
dir=target/link
mkdir -p "$dir"
needs=$(nm -u crates/capi/out/libcapi.a | sed -n 's/^ *U //p' | sort -u | tr '\n' ' ')
if [ "$needs" != 'memcpy memset ' ]; then
    echo "the library needs $needs from outside, and not memcpy and memset"
    exit 1
fi
gcc -std=c11 -O2 -Wall -Wextra -Werror -Iinclude -o "$dir/c" examples/check_file.c crates/capi/out/libcapi.a
g++ -Wall -Wextra -Werror -fsyntax-only -x c++ include/lenoshale.h
for name in check_file operations; do
    rustc --edition 2024 -O -D warnings -o "$dir/$name" "tools/rust/src/$name.rs" -L native=crates/capi/out -l static=capi
done
"$dir/operations" examples/two_cells.in

# limited INPUT: a limit of the program applies, by the length of the input or by what the program printed
limited() {
    [ "$(wc -c <"$1")" -gt 32768 ] || grep -q -e '^refused 11$' -e ' kept 512$' "$dir/expected"
}

# agrees EXAMPLE INPUT
agrees() {
    "$1" --as-program "$2" | cmp -s - "$dir/expected" || return 1
    "$1" --run "$2" | cmp -s - "$dir/expected" || return 1
    limited "$2" || "$1" "$2" | cmp -s - "$dir/expected"
}

cases=0 c=0 rust=0 past=0
for input in crates/replay/data/*.in examples/two_cells.in; do
    cases=$((cases + 1))
    crates/lenoshale/out/lenoshale <"$input" >"$dir/expected"
    if limited "$input"; then past=$((past + 1)); fi
    if agrees "$dir/c" "$input"; then c=$((c + 1)); else echo "$input: differs from C"; fi
    if agrees "$dir/check_file" "$input"; then rust=$((rust + 1)); else echo "$input: differs from Rust"; fi
done
echo "$past cases pass a limit of the program: compared with --as-program and --run only"
echo "$cases cases: $c agree from C, $rust agree from Rust"
[ "$c" -eq "$cases" ] && [ "$rust" -eq "$cases" ]
