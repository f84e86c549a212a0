#!/usr/bin/env bash
# Rule tables beside written rules: luz, the t:c of source document 001, and its Quichua tables beside the rules that it writes over them. Each claim of
# tests/written_rules/NAME.claims, that a table and some rules judge every pairing alike or that they part by one that is named, is decided by the other
# engine and tried by the library.
set -eu
cd "$(dirname "$0")/.."
export CARGO_TARGET_DIR=$PWD/target/cargo
tools/command
export HEADWORDS_LIB_DIR=$PWD/target/staticlib
(cd engine && cargo build --offline --locked --quiet --release -p compare)
work=$(mktemp -d)
trap 'rm -rf "$work"' EXIT

for grammar in grammars/luz.txt tests/written_rules/t_c.txt grammars/quichua.txt; do
    name=$(basename $grammar .txt)
    "$CARGO_TARGET_DIR/release/headwords" assemble $grammar "$work/$name.img" 2>"$work/told" || { cat "$work/told"; exit 1; }
    echo "$name:"
    "$CARGO_TARGET_DIR/release/compare" --tables "$work/$name.img" tests/written_rules/$name.claims
done
