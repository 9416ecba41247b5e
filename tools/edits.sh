#!/usr/bin/env bash
# tools/edits.sh NAME...: tries the edits in crates/NAME/more-edits/, which the gate leaves out, as `rt must-fail` tries those in
# must-fail/: the prover must refuse each. It works in a copy of the repository, and begins with what `rt check` kept here.
# docs/PROVING.md says which edits are where, and why. With no NAME: those of all crates, which takes long.
set -euo pipefail
cd "$(dirname "${BASH_SOURCE[0]}")/.."
copy=$(mktemp -d)
trap 'rm -rf "$copy"' EXIT
tar -c --exclude=out crates crates.txt | tar -x -C "$copy"
rm -rf "$copy"/crates/*/must-fail
names=("$@")
if [ $# -eq 0 ]; then
    names=()
    for folder in crates/*/more-edits; do names+=("$(basename "$(dirname "$folder")")"); done
fi
for name in "${names[@]}"; do
    [ -d "$copy/crates/$name/more-edits" ] || { echo "crates/$name has no more-edits" >&2; exit 1; }
    mv "$copy/crates/$name/more-edits" "$copy/crates/$name/must-fail"
done
cd "$copy" && rt must-fail "${names[@]}"
