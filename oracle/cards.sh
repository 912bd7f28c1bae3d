#!/bin/sh
# Builds cards.rs and runs it: cards.sh ARCHIVE [OPTIONS of cards]. It needs the port for C and none of the given sources.
set -eu
here=$(cd "$(dirname "$0")" && pwd)
archive=$(cd "$(dirname "$1")" && pwd)/$(basename "$1")
shift
mkdir -p "$here/target"
rustc --edition 2021 --crate-type bin --crate-name cards -O -C overflow-checks=on -C link-arg="$archive" "$here/src/cards.rs" \
    -o "$here/target/cards"
"$here/target/cards" "$@"
