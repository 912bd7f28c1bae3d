#!/bin/sh
# Compiles each test program against the header and the archive, runs it, and holds what it prints to the text beside it.
set -eu
here=$(cd "$(dirname "$0")" && pwd)
root=$here/../..
archive=${ARCHIVE:-$root/target/liblogbuffer.a}
[ -f "$archive" ] || { echo "there is no $archive: run ./archive first, which proves and builds target/liblogbuffer.a"; exit 1; }
out=$(mktemp -d)
trap 'rm -rf "$out"' EXIT
for name in layout broken_off cut; do
    cc -std=c11 -Wall -Wextra -Werror -O2 -I "$root/include" "$here/$name.c" "$archive" -o "$out/$name"
    "$out/$name" | tee "$out/printed"
    diff "$here/$name.txt" "$out/printed"
done
