#!/bin/sh
# Builds the given Rust and the driver as release builds, links the port's archive, and prints the table. The ratio under lto=fat is that of a
# second run, of the driver built with link-time optimization over the Rust and it. The instructions are callgrind's, of one more run of each
# driver, where valgrind is at hand; the driver's own are among them, on both sides.
#
#   run.sh [FOLDER [ARCHIVE]]   FOLDER holds the given sources, as for oracle/build.sh; ARCHIVE is the port for C.
set -eu
here=$(cd "$(dirname "$0")" && pwd)
root=$here/..
given=${1:-$root/../shared/docs/src}
archive=${2:-$root/target/liblogbuffer.a}
[ -f "$archive" ] || { echo "there is no $archive: run ./archive first, which proves and builds target/liblogbuffer.a"; exit 1; }
"$here/inlined.sh" "$archive" >/dev/null || { "$here/inlined.sh" "$archive"; exit 1; }
"$root/oracle/build.sh" "$given" "$archive" >/dev/null
out=$here/target
mkdir -p "$out"
release="--edition 2021 -C opt-level=3 -C codegen-units=1 -C overflow-checks=off"
rustc $release --crate-type rlib --crate-name lazy_static "$root/oracle/stand-ins/crates/lazy_static.rs" --out-dir "$out"
rustc $release --crate-type proc-macro --crate-name thiserror "$root/oracle/stand-ins/crates/thiserror.rs" --out-dir "$out"
rustc $release --crate-type rlib --crate-name aeron_rs -L "$out" --extern lazy_static --extern thiserror --cap-lints allow \
    "$root/oracle/target/given/src/lib.rs" --out-dir "$out"
bin="$release --crate-type bin --crate-name bench -L $out --extern aeron_rs"
rustc $bin -C link-arg="$archive" "$here/src/main.rs" -o "$out/bench"
rustc $bin -C lto=fat -C link-arg="$archive" "$here/src/main.rs" -o "$out/bench-lto"
"$out/bench" >"$out/bench.txt"
"$out/bench-lto" >"$out/bench-lto.txt"

# Each side of each row is one call of `measured`, and one part of callgrind's output, in order.
counted() { # DRIVER
    rm -f "$out"/callgrind.*
    valgrind --tool=callgrind --toggle-collect='bench::measured' --dump-after='bench::measured' --callgrind-out-file="$out/callgrind" \
        "$out/$1" --instructions >"$out/units.txt" 2>"$out/callgrind.log"
    part=0
    while IFS='|' read -r name units; do
        for side in rust port; do
            part=$((part + 1))
            echo "$name|$1 $side|$(sed -n 's/^totals: //p' "$out/callgrind.$part")|$units"
        done
    done <"$out/units.txt"
}
: >"$out/instructions.txt"
if command -v valgrind >/dev/null; then
    for driver in bench bench-lto; do
        counted "$driver"
    done >"$out/instructions.txt"
fi

awk -F'|' '
    FILENAME ~ /instructions/ { count[$1 $2] = sprintf("%.0f", $3 / $4); next }
    FILENAME ~ /lto/ { lto[$2] = $5; next }
    { name = substr($2, 2, length($2) - 2); print $0 lto[$2] "| " count[name "bench rust"] " | " count[name "bench-lto rust"] " | " count[name "bench port"] " |" }
    BEGIN {
        print "| Row | the Rust, ns | the port, ns | ratio | ratio, lto=fat | the Rust, instructions | the same, lto=fat | the port, instructions |"
        print "|---|---|---|---|---|---|---|---|"
    }' "$out/instructions.txt" "$out/bench-lto.txt" "$out/bench.txt"
