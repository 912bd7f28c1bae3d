#!/bin/sh
# Builds tallies.rs and runs it: tallies.sh ARCHIVE [OPTIONS of tallies]. It needs the port for C and none of the given sources.
set -eu
here=$(cd "$(dirname "$0")" && pwd)
archive=$(cd "$(dirname "$1")" && pwd)/$(basename "$1")
shift
mkdir -p "$here/target"
rustc --edition 2021 --crate-type bin --crate-name tallies -O -C overflow-checks=on -C link-arg="$archive" "$here/src/tallies.rs" \
    -o "$here/target/tallies"
"$here/target/tallies" "$@"
