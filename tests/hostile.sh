#!/usr/bin/env bash
# Grammars that leave a search much to try and little or nothing to find: it ends, by the line program and from C, there in both forms of the image, where
# dead ends are worth remembering. Where they are not, an answer that stands before the word is handed over all the same.
set -eu
cd "$(dirname "$0")/.."
root=$PWD
tools/prove lines
tools/command
work=$(mktemp -d)
trap 'rm -rf "$work"' EXIT
headwords=$root/target/cargo/release/headwords
cc -std=c99 -O1 -Wall -Wextra -Werror -Iinclude -o "$work/hostile" tests/hostile.c target/staticlib/libheadwords.a
cd "$work"

# lay_out NAME: NAME.img, grammar.img and the word
lay_out() {
    "$root/bench/hostile_text" "$1" >grammar.txt
    "$headwords" assemble grammar.txt grammar.img 2>told || { cat told; exit 1; }
    "$root/bench/hostile_text" "$1" word | "$headwords" spell grammar.img >word
    cp grammar.img "$1.img"
}

for name in $("$root/bench/hostile_text" | grep -vx mindful); do
    lay_out "$name"
    [ "$(timeout 10 "$root/target/bin/lines" <word)" = "none 0" ] || { echo "$name: not answered with none 0 within 10 seconds"; exit 1; }
done
echo "words without a reading: none, by the line program"

# two readings, and between them five empty entries in a circle from which no path ends
cat >between.txt <<'TEXT'
BOUNDARY #
NULL 0
ANY @
ALPHABET a
PAIRS a:a
LEXICON Start
a #
0 Circle
a Last
LEXICON Circle
0 Circle
0 Circle
0 Circle
0 Circle
0 Circle
LEXICON Last
0 #
END
TEXT
"$headwords" assemble between.txt between.img 2>told || { cat told; exit 1; }
./hostile .

# not held back: the first line is answered while the second is searched
lay_out mindful
{ echo 1; cat word; } >two
status=0
timeout 2 "$root/target/bin/lines" <two >printed || status=$?
[ "$status" -eq 124 ] || { echo "mindful: ended with $status, and not by the limit of time"; exit 1; }
[ "$(cat printed)" = "refused 10" ] || { echo "mindful: the line before it is held back"; exit 1; }
echo "an answered line: handed over before a long search"
