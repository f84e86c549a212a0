#!/usr/bin/env bash
# The command's own tests; the proved image check's verdict on the image of each sample grammar, which the command says too; and each hostile grammar: these are
# accepted, but a circle of empty entries is told.
set -eu
cd "$(dirname "$0")/.."
tools/command
tools/prove check_image
(cd command && CARGO_TARGET_DIR=$PWD/../target/cargo cargo test --offline --locked --quiet)
headwords=$PWD/target/cargo/release/headwords
work=$(mktemp -d)
trap 'rm -rf "$work"' EXIT

# verdicts FILE: that of the proved program and that of the command, on $work/grammar.img
verdicts() {
    local proved
    proved=$(cd "$work" && "$OLDPWD/target/bin/check_image")
    [ "$("$headwords" check "$work/grammar.img" 2>/dev/null | sed '1s/:.*//; q')" = "$proved" ] || { echo "$1: the command says otherwise"; exit 1; }
    echo "$proved"
}
for grammar in grammars/*.txt; do
    "$headwords" assemble "$grammar" "$work/grammar.img"
    verdict=$(verdicts "$grammar")
    echo "$grammar: $verdict"
    [ "$verdict" = accepted ]
    "$headwords" text "$work/grammar.img" >"$work/again.txt"
    "$headwords" assemble "$work/again.txt" "$work/again.img"
    cmp "$work/grammar.img" "$work/again.img"
done
"$headwords" assemble grammars/luz.txt "$work/grammar.img"
cmp "$work/grammar.img" crates/check_image/data/grammar.img

# images that are damaged: the same refusal by both
for part in 1 511 512 1024; do
    head -c "$part" crates/check_image/data/grammar.img >"$work/grammar.img"
    echo "the first $part bytes of luz: $(verdicts "$part bytes")"
done
for byte in 0 4 6 516 1028 1540 2052 2564; do
    cp crates/check_image/data/grammar.img "$work/grammar.img"
    printf '\377' | dd of="$work/grammar.img" bs=1 seek="$byte" conv=notrunc status=none
    [ "$(verdicts "byte $byte")" = "refused 2" ]
done
echo "images that are damaged: refused"

for name in $(bench/hostile_text); do
    bench/hostile_text "$name" >"$work/$name.txt"
    "$headwords" assemble "$work/$name.txt" "$work/grammar.img" 2>"$work/told"
    verdict=$(verdicts "$name")
    [ "$verdict" = accepted ] || { echo "$name: $verdict"; exit 1; }
    case $name in
        circle-*) line=$(grep -n -m 1 '^0 Circle$' "$work/$name.txt" | cut -d : -f 1) ;;
        *) line= ;;
    esac
    warning="warning: lexicon Circle leads back to itself by empty forms alone: a path may go round without a letter"
    [ "$(grep 'leads back' "$work/told")" = "${line:+$work/$name.txt:$line: $warning}" ] || { cat "$work/told"; exit 1; }
    ! grep -v ': warning: \|:0: [0-9]* warnings more$' "$work/told" || exit 1
done
echo "hostile grammars: accepted, and circles of empty entries told"
