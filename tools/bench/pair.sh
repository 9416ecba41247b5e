#!/usr/bin/env bash
# tools/bench/pair.sh BEFORE.a AFTER.a [MODEL]: times the check of two static libraries of crate capi in turn in one process (pair.c).
# Both must have the arguments of lenoshale_check that include/lenoshale.h declares. It needs gcc, ld and objcopy.
set -euo pipefail
before=$(realpath "${1:?a static library}") after=$(realpath "${2:?another}")
cd "$(dirname "${BASH_SOURCE[0]}")/../.."
dir=$PWD/target/bench
mkdir -p "$dir"

# one object of a library, whose check has a name of its own and which shows no others but those named
object() { # archive, name, symbols kept
    local o=$dir/$2.o keep=()
    for symbol in lenoshale_check "${@:3}"; do keep+=("--keep-global-symbol=$symbol"); done
    ld -r --whole-archive "$1" -o "$o"
    objcopy "${keep[@]}" "$o"
    objcopy --redefine-sym "lenoshale_check=check_$2" "$o"
}
object "$before" before
object "$after" after lenoshale_work_needed
gcc -std=gnu11 -O2 -Wall -Wextra -Iinclude -o "$dir/pair" tools/bench/pair.c "$dir/before.o" "$dir/after.o" -lm
exec "$dir/pair" "${@:3}"
