#!/usr/bin/env bash
# tools/rust/compare.sh PATH [--seed S] [--count N]: compares our check with the Rust reference on generated models.
# Ends with 'N models: N agree'; the exit code is 1 where something differs. PATH as for build.sh.
set -euo pipefail
here=$(cd "$(dirname "${BASH_SOURCE[0]}")" && pwd)
"$here/build.sh" "${1:?path of the mefikit source}"
shift
exec "$here/../../target/rust/compare" compare "$@"
