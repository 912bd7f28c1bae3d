#!/bin/sh
# All tests of the Rust crate, without network: its own, those in its documentation, and each example beside its stored output.
# The archive is looked for as build.rs says.
set -eu
cd "$(dirname "$0")"
export CARGO_NET_OFFLINE=true CARGO_TARGET_DIR="$PWD/target"
if [ -z "${LOGBUFFER_LIB_DIR:-}" ] && [ ! -f ../../target/liblogbuffer.a ]; then
    echo "there is no target/liblogbuffer.a: run ./archive first, which proves and builds it"
    exit 1
fi
cargo test --quiet
for example in sync season file cards holding; do cargo run --quiet --example "$example" | diff "examples/$example.txt" -; done
# What lints and layout ask changes with the compiler, so they are looked at only on request.
if [ -n "${LINT:-}" ]; then cargo clippy --quiet --all-targets -- -D warnings && cargo fmt --check; fi
echo "the Rust crate does as it should"
