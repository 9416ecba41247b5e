#!/usr/bin/env bash
# Bytes of stack that each function of the library takes, the most over the largest models of bench.c and the example.
set -euo pipefail
cd "$(dirname "${BASH_SOURCE[0]}")/../.."
mkdir -p target/bench/models
tools/bench/run.sh --write target/bench/models >&2
gcc -std=gnu11 -O2 -Wall -Wextra -Iinclude -o target/bench/stack tools/bench/stack.c crates/capi/out/libcapi.a -lpthread
exec target/bench/stack examples/two_cells.in target/bench/models/*.bin
