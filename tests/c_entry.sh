#!/usr/bin/env bash
# The C entry: the example that README shows prints the headwords of Luces, and the replies and bytes of every call are as the header says, by the luz
# grammar, in both forms of the image and at the limits.
set -eu
cd "$(dirname "$0")/.."
work=$(mktemp -d)
trap 'rm -rf "$work"' EXIT
tools/library
for program in examples/luces tests/replies tests/rules tests/continuations tests/largest; do
    cc -std=c99 -O1 -Wall -Wextra -Werror -Iinclude -o "$work/$(basename $program)" $program.c target/staticlib/libheadwords.a
done
image=crates/check_image/data/grammar.img
"$work/luces" $image | diff - examples/luces.out
"$work/replies" $image
"$work/rules" $image
"$work/continuations" $image
"$work/largest"
