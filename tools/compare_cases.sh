#!/bin/sh
# compare_cases.sh [FOLDER]: builds the program, runs it on each *.in of a folder (crates/replay/data if none is named), compares what it
# prints with the .out beside it, and says how many agree. The exit code is 1 if one differs or there is none.
# The published folders, where later orders change the answers of earlier cases: tools/order_cases.py.
folder=$(cd "${1:-$(dirname "$0")/../crates/replay/data}" && pwd) || exit 1
cd "$(dirname "$0")/.." || exit 1
(cd crates/lenoshale && rt run </dev/null >/dev/null) || exit 1
cases=0
agree=0
for input in "$folder"/*.in; do
    [ -f "$input" ] || continue
    cases=$((cases + 1))
    if crates/lenoshale/out/lenoshale <"$input" | cmp -s - "${input%.in}.out"; then
        agree=$((agree + 1))
    else
        echo "$(basename "$input"): the output differs"
    fi
done
echo "$cases cases: $agree agree"
[ "$cases" -gt 0 ] && [ "$agree" -eq "$cases" ]
