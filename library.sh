#!/usr/bin/env bash
# The library for C and Rust: proves and builds target/lib/librefmvs.a, and libpasses.a beside it, which only the comparison needs.
set -euo pipefail
root=$(cd "$(dirname "$0")" && pwd)
. "$root/tests/setup.sh"
need rt python3
python3 "$root/tests/archive" refmvs_c "$root/target/lib/librefmvs.a"
python3 "$root/tests/archive" passes "$root/target/lib/libpasses.a"
