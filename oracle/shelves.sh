#!/bin/sh
# Builds shelves.rs and runs it: shelves.sh ARCHIVE [OPTIONS of shelves]. It needs the port for C and none of the given sources.
set -eu
here=$(cd "$(dirname "$0")" && pwd)
archive=$(cd "$(dirname "$1")" && pwd)/$(basename "$1")
shift
mkdir -p "$here/target"
rustc --edition 2021 --crate-type bin --crate-name shelves -O -C overflow-checks=on -C link-arg="$archive" "$here/src/shelves.rs" \
    -o "$here/target/shelves"
"$here/target/shelves" "$@"
