#!/usr/bin/env bash
# How near reading can come to memcpy's speed, in plain C for the same processor: docs/SPEED.md, 'Files'.
set -euo pipefail
cd "$(dirname "${BASH_SOURCE[0]}")/../.."
mkdir -p target/bench
gcc -std=gnu11 -O3 -Wall -Wextra -o target/bench/limit tools/bench/limit.c
exec target/bench/limit
