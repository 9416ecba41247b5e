#!/usr/bin/env bash
# tools/rust/speed.sh PATH [--runs N] [--only MODEL]: times our check and the Rust reference side by side. PATH as for build.sh.
set -euo pipefail
here=$(cd "$(dirname "${BASH_SOURCE[0]}")" && pwd)
"$here/build.sh" "${1:?path of the mefikit source}"
shift
exec "$here/../../target/rust/compare" speed "$@"
