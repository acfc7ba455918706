#!/usr/bin/env bash
# The main job: proves and builds the program show_field where that is not done yet, and shows the motion field of
# the frame file named, or of the shipped sample: show_field.sh [text | picture] [FILE]
set -euo pipefail
root=$(cd "$(dirname "$0")" && pwd)
. "$root/tests/setup.sh"
need rt
form=text
case ${1:-} in
text | picture)
    form=$1
    shift
    ;;
esac
prove show_field "$root/examples/sample.frame" text
exec "$root/crates/show_field/out/show_field" "$form" < "${1:-$root/examples/sample.frame}"
