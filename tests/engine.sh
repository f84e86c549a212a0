#!/usr/bin/env bash
# Another engine, written by another method from the scope document, the change requests and what the header says of many words in one call: its own
# tests, and then every call of the C entry beside it, reply and bytes.
# Usage: engine.sh [SEED [CALLS]]
set -eu
cd "$(dirname "$0")/.."
export CARGO_TARGET_DIR=$PWD/target/cargo
tools/library
export HEADWORDS_LIB_DIR=$PWD/target/staticlib
cd engine
cargo test --offline --locked --quiet
cargo build --offline --locked --quiet --release -p compare
"$CARGO_TARGET_DIR/release/compare" "$@"
