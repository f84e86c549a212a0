#!/bin/bash
# What the line program prints is what the other engine prints, for images and inputs drawn from a seed, and for the stored trials.
# Usage: lines_engine.sh [SEED [COUNT]]
set -eu
cd "$(dirname "$0")/.."

tools/prove lines
tools/command

CARGO_TARGET_DIR=$PWD/target/cargo
export CARGO_TARGET_DIR
cargo build --offline --locked --quiet --release --manifest-path engine/Cargo.toml -p other_lines

"$CARGO_TARGET_DIR/release/other_lines" target/bin/lines "${1:-1}" "${2:-1000}"

work=$(mktemp -d)
trap 'rm -rf "$work"' EXIT
for input in tests/trials/*.in; do
    tests/trial_image "$(basename "$input" .in)" "$work/grammar.img"
    said=$("$CARGO_TARGET_DIR/release/other_lines" target/bin/lines --words "$work/grammar.img" "$input") || { echo "$input: $said"; exit 1; }
    echo "$input: $said"
done
