#!/usr/bin/env bash
# tools/test.sh [VECTORS ORDER]: what ships, tested as it ships, beside the gate: the header and the Rust wrapper held against the library's
# exports, the static library linked from C and from Rust, and the program run on the published cases. It needs gcc, g++, rustc and python3.
# With the folder of the published cases and the newest order that has landed, the orders' cases too, program and library (order_cases.py).
set -euo pipefail
vectors=${1:+$(cd "$1" && pwd)}
cd "$(dirname "${BASH_SOURCE[0]}")"
./header_check
./specs_check
./link.sh
./compare_cases.sh
if [ -n "$vectors" ]; then ./order_cases.py "$vectors" "${2:?the newest order}"; fi
echo "tools/test.sh: all passed"
