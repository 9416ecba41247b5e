#!/usr/bin/env bash
# Builds the static library of crate capi and the driver, and runs it: times of the check on the largest models.
#   tools/bench/run.sh [MODEL]      a line for each model, or for that one, tolerance and cap
#   tools/bench/run.sh --write DIR  the models as files
#   tools/bench/run.sh --file FILE  reads a file and writes it again
# LIB names another static library, which is then not built here.
set -euo pipefail
cd "$(dirname "${BASH_SOURCE[0]}")/../.."
lib=${LIB:-crates/capi/out/libcapi.a}
if [ -z "${LIB:-}" ]; then (cd crates/capi && rt lib) >&2; fi
mkdir -p target/bench
gcc -std=gnu11 -O2 -Wall -Wextra -Iinclude -o target/bench/bench tools/bench/bench.c "$lib" -lm
exec target/bench/bench "$@"
