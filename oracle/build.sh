#!/bin/sh
# Builds the given Rust, unchanged, with the stand-ins of this folder.
#
#   build.sh [FOLDER [ARCHIVE]]   FOLDER holds the given sources (src/publication.rs and so on);
#                                 default: ../shared/docs/src beside the project's root.
#                                 ARCHIVE is the port for C; default: target/liblogbuffer.a of the project.
#                                 Without it everything is built but compare and metadata.
#   UNCHECKED=1 build.sh ..       leaves the sums out, for given files changed on purpose
#
# Needs only rustc (1.82 or later; the given files themselves need 1.79) and a linker. Leaves in target/:
#   given/            the crate's sources: the given files, their sums checked, and the stand-ins
#   observe           the rows of observe.rs, overflow checks on
#   observe-wrapping  the same without overflow checks, as a release build of the original has them
#   vectors           writes the file of vectors of vectors.rs, overflow checks on
#   compare           the differential runs of compare.rs, overflow checks on
#   metadata          the sections of metadata.rs, overflow checks on
set -eu
here=$(cd "$(dirname "$0")" && pwd)
given=${1:-$here/../../shared/docs/src}
archive=${2:-$here/../target/liblogbuffer.a}
target=$here/target

[ -f "$given/src/publication.rs" ] || { echo "build.sh: no given sources in $given" >&2; exit 1; }
rm -rf "$target"
mkdir -p "$target/given" "$target/checked" "$target/wrapping"

# The given files first, then the stand-ins, none of which may take a given file's place.
(cd "$given" && find src -name '*.rs') | sort | while read -r file; do
    mkdir -p "$target/given/$(dirname "$file")"
    cp "$given/$file" "$target/given/$file"
done
(cd "$here/stand-ins" && find src -name '*.rs') | sort | while read -r file; do
    [ ! -e "$target/given/$file" ] || { echo "build.sh: $file is a given file and a stand-in" >&2; exit 1; }
    mkdir -p "$target/given/$(dirname "$file")"
    cp "$here/stand-ins/$file" "$target/given/$file"
done
cp "$here/src/harness.rs" "$target/given/src/harness.rs"
[ -n "${UNCHECKED:-}" ] || (cd "$target/given" && sha256sum --quiet --check "$here/given.sha256")

compile() { # KIND FLAGS...: the crate and the program into target/KIND
    out=$target/$1
    shift
    rustc --edition 2021 --crate-type rlib --crate-name lazy_static "$here/stand-ins/crates/lazy_static.rs" --out-dir "$out"
    rustc --edition 2021 --crate-type proc-macro --crate-name thiserror "$here/stand-ins/crates/thiserror.rs" --out-dir "$out"
    rustc --edition 2021 --crate-type rlib --crate-name aeron_rs "$@" -L "$out" --extern lazy_static --extern thiserror \
        --cap-lints allow "$target/given/src/lib.rs" --out-dir "$out"
    rustc --edition 2021 --crate-type bin --crate-name observe "$@" -L "$out" --extern aeron_rs \
        "$here/src/observe.rs" --out-dir "$out"
}
compile checked -O -C overflow-checks=on
compile wrapping -O -C overflow-checks=off
ln -sf checked/observe "$target/observe"
ln -sf wrapping/observe "$target/observe-wrapping"
rustc --edition 2021 --crate-type bin --crate-name vectors -O -C overflow-checks=on -L "$target/checked" --extern aeron_rs \
    "$here/src/vectors.rs" --out-dir "$target/checked"
ln -sf checked/vectors "$target/vectors"
echo "built: $target/observe, $target/observe-wrapping, $target/vectors"

[ -f "$archive" ] || { echo "no $archive: compare and metadata are not built"; exit 0; }
archive=$(cd "$(dirname "$archive")" && pwd)/$(basename "$archive")
for program in compare metadata; do
    rustc --edition 2021 --crate-type bin --crate-name "$program" -O -C overflow-checks=on -L "$target/checked" --extern aeron_rs \
        -C link-arg="$archive" "$here/src/$program.rs" --out-dir "$target/checked"
    ln -sf "checked/$program" "$target/$program"
done
echo "built: $target/compare, $target/metadata"
