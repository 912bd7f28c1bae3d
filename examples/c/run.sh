#!/bin/sh
# Compiles the C programs against the header and the archive, runs them, and holds what each prints to the text stored beside it.
set -eu
here=$(cd "$(dirname "$0")" && pwd)
root=$here/../..
[ -f "$root/target/liblogbuffer.a" ] || { echo "there is no target/liblogbuffer.a: run ./archive first, which proves and builds it"; exit 1; }
out=$(mktemp -d)
trap 'rm -rf "$out"' EXIT
for program in log season file every; do
    cc -std=c11 -Wall -Wextra -Werror -O2 -I "$root/include" "$here/$program.c" "$root/target/liblogbuffer.a" -o "$out/$program"
    "$out/$program" | tee "$out/printed"
    diff "$here/$program.txt" "$out/printed"
done
