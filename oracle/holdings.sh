#!/bin/sh
# Builds holdings.rs and runs it: holdings.sh ARCHIVE [OPTIONS of holdings]. It needs the port for C and none of the given sources.
set -eu
here=$(cd "$(dirname "$0")" && pwd)
archive=$(cd "$(dirname "$1")" && pwd)/$(basename "$1")
shift
mkdir -p "$here/target"
rustc --edition 2021 --crate-type bin --crate-name holdings -O -C overflow-checks=on -C link-arg="$archive" "$here/src/holdings.rs" \
    -o "$here/target/holdings"
"$here/target/holdings" "$@"
