#!/usr/bin/env bash
# tools/rust/record.sh PATH [--seed S]: writes small models and the Rust reference's answers into crates/replay/data, and its answers to the
# node sets and area tests of crates/numbers/data into their lists. The exit code is 1 where an answer there was another. PATH as for build.sh.
set -euo pipefail
here=$(cd "$(dirname "${BASH_SOURCE[0]}")" && pwd)
"$here/build.sh" "${1:?path of the mefikit source}"
shift
crates=$here/../../crates
exec "$here/../../target/rust/compare" record "$crates/replay/data" "$crates/numbers/data" "$@"
