#!/usr/bin/env bash
# Packed vectors as text: proves and builds the program unpack where that is not done yet, and runs it on the
# file named, or on the shipped sample.
set -euo pipefail
root=$(cd "$(dirname "$0")" && pwd)
. "$root/tests/setup.sh"
need rt
prove unpack "$root/examples/sample.mv"
exec "$root/crates/unpack/out/unpack" < "${1:-$root/examples/sample.mv}"
