#!/usr/bin/env bash
# Entries with several continuations, as a user meets them: the orders of readings, the same rows by the line program, conversion there and back, the text of an
# image of form 2, the verdict of the proved image check, and the verbs of Quichua with and without empty entries.
set -eu
cd "$(dirname "$0")/.."
tools/command
tools/prove lines
tools/prove check_image
root=$PWD
headwords=$root/target/cargo/release/headwords
work=$(mktemp -d)
trap 'rm -rf "$work"' EXIT
cd "$work"
export LC_ALL=C.UTF-8

# ends STATUS COMMAND...: whether it ends with that status; what it says is in printed and told
ends() {
    local status=0
    "${@:2}" >printed 2>told || status=$?
    [ "$status" -eq "$1" ] || { cat printed told; echo "${*:2}: status $status, not $1"; exit 1; }
}
# grammar PAIRS LEXICONS: a text with letters l and x and no rules
grammar() {
    printf 'BOUNDARY #\nNULL 0\nANY @\nALPHABET l x\nPAIRS %s\n%s\nEND\n' "$1" "$2" >grammar.txt
    "$headwords" assemble grammar.txt grammar.img 2>/dev/null
    [ "$("$root/target/bin/check_image")" = accepted ]
}
# rows WORD [OPTION...]: entry numbers and pair numbers of its readings, divided by commas; the line program prints the same
rows() {
    "$headwords" read --quiet --tsv --numbers "${@:2}" grammar.img "$1" | awk -F '\t' '{ print $2 == "none" ? "none" : $7 " | " $8 }' >rows
    "$headwords" spell grammar.img <<<"$1" | "$root/target/bin/lines" | sed '1{/^none/!d;s/ 0$//}' | diff - <(head -n 64 rows)
    paste -sd , rows
}
is() {
    [ "$1" = "$2" ] || { echo "$1, not $2"; exit 1; }
}

# an ending comes before any entry, and before a pair with a lexical null; lexicons from the lowest on
grammar 'l:l x:x 0:x' $'LEXICON A\nl # B\nLEXICON B\n0 #'
is "$(rows lx)" "0 | 0 2,0 1 | 0 2"
is "$(rows l)" "0 | 0,0 1 | 0"
grammar 'l:l x:x' $'ALTERNATION Both C B\nLEXICON A\nl Both\nLEXICON B\n0 #\nx #\nLEXICON C\nx #'
is "$(rows lx)" "0 2 | 0 1,0 3 | 0 1"
is "$(rows l)" "0 1 | 0"
ends 1 "$headwords" generate grammar.img 0
grep -qx 'headwords: refused 12: the word does not end after l: lexicons B, C follow' told
grammar 'l:l x:x' $'LEXICON A\nl # A'
is "$(rows llllllllllllllll)" "0 0 0 0 0 0 0 0 0 0 0 0 0 0 0 0 | 0 0 0 0 0 0 0 0 0 0 0 0 0 0 0 0"
is "$(rows lllllllllllllllll)" none
grammar 'l:l x:x' $'LEXICON A\n0 # A\nl # A'
rows l --most 200 >listed
is "$(wc -l <rows)" 136
is "$(sed -n 1,3p rows | paste -sd ,)" "0 0 0 0 0 0 0 0 0 0 0 0 0 0 0 1 | 0,0 0 0 0 0 0 0 0 0 0 0 0 0 0 1 | 0,0 0 0 0 0 0 0 0 0 0 0 0 0 0 1 0 | 0"
others=$(for x in B C D E F G H; do printf 'LEXICON %s\nx #\n' "$x"; done)
grammar 'l:l x:x' $'LEXICON A\nl I #\n'"$others"$'\nLEXICON I\nl #'
is "$(rows ll)" "0 8 | 0 0"
is "$(rows lx)" none
grammar 'l:l x:x' $'LEXICON A\nl # B\nLEXICON B'
is "$(rows l)" "0 | 0"
ends 1 "$headwords" convert grammar.img one.img
grep -q '^grammar.img:0: refused 15: .*; entry 0 (l) of lexicon A goes on to # B$' told
[ ! -e one.img ]
echo "several continuations: rows in order, as by the line program"

# from form 1 to form 2 and back: the same bytes and names, the same answers, and the text gives the form again
for name in luz quichua; do
    "$headwords" assemble "$root/grammars/$name.txt" one.img
    "$headwords" convert one.img two.img
    "$headwords" convert two.img back.img
    cmp one.img back.img
    cmp one.img.names back.img.names
    "$headwords" assemble --form 2 "$root/grammars/$name.txt" asked.img
    cmp two.img asked.img
    cmp two.img.names asked.img.names
    "$headwords" text two.img >two.txt
    grep -qx 'FORM 2' two.txt
    "$headwords" assemble two.txt again.img
    cmp two.img again.img
    cp two.img grammar.img
    is "$("$root/target/bin/check_image")" accepted
    list=$root/grammars/$name.words
    [ -e "$list" ] || list=$root/bench/luz.words
    "$root/target/bin/lines" <"$list" >two.out
    cp one.img grammar.img
    "$root/target/bin/lines" <"$list" | cmp - two.out
    "$headwords" list letters one.img | awk -F '\t' 'NR == FNR { letter[$1] = $2; next } { n = split($0, number, " "); for (i = 1; i <= n; i++) printf "%s", letter[number[i]]; print "" }' - "$list" >"$name.words"
    ends 0 "$headwords" compare --quiet one.img two.img "$name.words"
    [ ! -s printed ]
    "$headwords" read --quiet --numbers one.img --file "$name.words" >one.out
    "$headwords" read --quiet --numbers two.img --file "$name.words" | cmp - one.out
done
"$headwords" assemble "$root/grammars/spanish.txt" spanish.img
ends 1 "$headwords" convert spanish.img two.img
grep -qx 'spanish.img:0: refused 16: the converted image would have more than 128 blocks; it would have 145' told
cmp two.img again.img
# as docs/GRAMMARS.md shows it
"$headwords" assemble "$root/grammars/quichua_ways.txt" quichua.img
ends 1 "$headwords" convert quichua.img one.img
grep -qF "    $(cat told)" "$root/docs/GRAMMARS.md"
echo "conversion: there and back by bytes, with the same answers"

# images of form 2 that are damaged: the same refusal by the proved check and the command
"$headwords" assemble "$root/grammars/quichua_ways.txt" ways.img
for byte in 0 4 20 512 15872 16000; do
    cp ways.img grammar.img
    printf '\377' | dd of=grammar.img bs=1 seek="$byte" conv=notrunc status=none
    proved=$("$root/target/bin/check_image")
    is "$("$headwords" check grammar.img 2>/dev/null | sed '1s/:.*//; q')" "$proved"
    is "$proved" "refused 2"
done
echo "images of form 2 that are damaged: refused"

# the verbs of Quichua: by the two grammars the same headwords, entries with letters and pairings; of words, and of every form of a stem
ends 0 "$headwords" compare --no-empty "$root/grammars/quichua.txt" "$root/grammars/quichua_ways.txt" quichua.words
grep -qx '400 words: 0 gained, 0 lost, 0 changed, 400 as before' told
"$headwords" forms --most 3000 "$root/grammars/quichua.txt" aa 2>/dev/null | cut -f 1 | sort -u >forms
[ "$(wc -l <forms)" -gt 1000 ]
ends 0 "$headwords" compare --quiet --no-empty --most 1000 "$root/grammars/quichua.txt" "$root/grammars/quichua_ways.txt" forms
"$headwords" forms --most 3000 "$root/grammars/quichua_ways.txt" aa 2>/dev/null | cut -f 1 | sort -u >forms
[ "$(wc -l <forms)" -gt 1000 ]
ends 0 "$headwords" compare --quiet --no-empty --most 1000 "$root/grammars/quichua.txt" "$root/grammars/quichua_ways.txt" forms
! "$headwords" read --quiet "$root/grammars/quichua_ways.txt" --file quichua.words | cut -f 3 | grep -E '(^| )0( |$)' || exit 1
cp ways.img grammar.img
"$root/target/bin/lines" <"$root/grammars/quichua.words" >lines.out
"$headwords" read --quiet --tsv --numbers ways.img --file quichua.words | awk -F '\t' '{ print $2 == "none" ? "none 0" : $7 " | " $8 }' | diff - <(grep -v '^all' lines.out)
# a way less is found
sed 's/^\(ALTERNATION SuffixPl2 .*\) Gen/\1/' "$root/grammars/quichua_ways.txt" >less.txt
ends 1 "$headwords" compare --quiet --no-empty "$root/grammars/quichua.txt" less.txt quichua.words
grep -q '^lost	-	' printed
echo "Quichua without empty entries: the same readings"
