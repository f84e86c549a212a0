#!/usr/bin/env bash
# headwords why and headwords show, as a linguist uses them: the explanations of words of the samples and of the trials, by text and by image, as they
# are stored in tests/why_show; every line of JSON read; every hostile grammar answered in time; rules as text and as a graph, as stored; and every rule of
# the samples as a picture that is XML, has every state, arc and label, and no two labels over each other.
set -eu
cd "$(dirname "$0")/.."
root=$PWD
tools/need python3
tools/command
headwords=$root/target/cargo/release/headwords
work=$(mktemp -d)
trap 'rm -rf "$work"' EXIT

# explains GRAMMAR NAME WORD...: whether the explanations of the words are those stored as NAME
explains() {
    "$headwords" why "$1" "${@:3}" >"$work/said" 2>"$work/told"
    [ ! -s "$work/told" ]
    diff "tests/why_show/$2.why" "$work/said"
    "$headwords" why --json "$1" "${@:3}" >"$work/json"
    python3 - "$work/json" "${@:3}" <<'END'
import json, sys
lines = [json.loads(line) for line in open(sys.argv[1], encoding="utf-8")]
assert [line["word"] for line in lines] == [word.strip() for word in sys.argv[2:]]
for line in lines:
    assert list(line) == ["word", "outcome", "reason", "furthest", "without", "readings"], line
    assert line["outcome"] in ("all", "more", "none", "unread", "refused"), line
    assert bool(line["readings"]) == (line["outcome"] in ("all", "more")), line
    assert line["outcome"] != "none" or line["reason"] or line["furthest"]["ways"] or line["furthest"]["front"], line
END
}
luz=(luzes luces lu luce lucesu luzeu lus LUZ Luzes luzé 'l#z' l0z @ k " luz " "" lllllllllllllllllllllllllllllllll)
explains grammars/luz.txt luz "${luz[@]}"
explains grammars/spanish.txt spanish luzes regiónes $'regio\314\201nes' lapizes jovenex casaes cas xilófon bloces blocues Zona ÀRBOL ä ǧato mañanita
explains grammars/quichua.txt quichua tarpurqan wañuq aaawan ayqichi Ǧa Rimani tarpumunpi aamun
explains grammars/quichua_ways.txt quichua_ways tarpurqan wañuq aaawan tarpumunpi aamun
echo "why: as stored, in words and as JSON"

# by an image the same; without its names, rules and lexicons have numbers
"$headwords" assemble grammars/luz.txt "$work/luz.img"
explains "$work/luz.img" luz "${luz[@]}"
rm "$work/luz.img.names"
"$headwords" why "$work/luz.img" luzes | grep -q '^without rule "Rule0" it has 1 reading:$'
[ "$("$headwords" show "$work/luz.img")" = $'0\tRule0' ]
echo "why: the same by an image"

# limits, a rule that fails at the front, rules that refuse an end, and no rules at all
explains tests/trials/dead_front.txt dead_front s
explains tests/trials/front.txt front sts
explains tests/trials/insertion.txt insertion axxxxxxxxxb
explains tests/trials/long.txt long bbbbbbbbbbbbbbbbb aaaaaaaaaaaaaaaaaaaaaaaaaaaaaaab
sed 's/^  l++++++++ .*//' tests/trials/plus.txt >"$work/plus.txt"
explains "$work/plus.txt" plus l
sed 's/^  2: .*/  2. 3 2 4 1 1/; s/^  1: .*/  1. 3 2 1 1 2/' grammars/luz.txt >"$work/ends.txt"
explains "$work/ends.txt" ends luces
echo "why: limits, fronts and ends"

for name in $(bench/hostile_text | grep -vx mindful); do
    bench/hostile_text "$name" >"$work/hostile.txt"
    timeout 60 "$headwords" why "$work/hostile.txt" "$(bench/hostile_text "$name" word)" >"$work/said" 2>"$work/told"
    grep -q ': no reading$' "$work/said"
done
bench/hostile_text mindful >"$work/hostile.txt"
word=$(bench/hostile_text mindful word)
# by this one the answer comes at once, and those without a rule do not
awk '/^LEXICON/ { print "RULE \"no front\" 1 2\n# @\n# @\n1. 0 1" } { print }' "$work/hostile.txt" >"$work/front.txt"
timeout 60 "$headwords" why --json "$work/front.txt" "$word" >"$work/front.json" &
front=$!
timeout 60 "$headwords" why "$work/hostile.txt" "$word" 2>"$work/told" | grep -q ': the library has not answered within 10 seconds'
wait "$front"
grep -q '"outcome":"none","reason":"the library has not answered within 10 seconds, so that not every rule was left out in turn"' "$work/front.json"
echo "why: every hostile grammar is answered in time"

diff <("$headwords" show grammars/quichua.txt) <(sed -n 's/^RULE "\(.*\)".*/\1/p' grammars/quichua.txt | awk '{ print NR - 1 "\t" $0 }')
"$headwords" show grammars/luz.txt 0 | diff tests/why_show/luz_0.text -
"$headwords" show grammars/quichua.txt "i lowered b" | diff tests/why_show/quichua_0.text -
"$headwords" show grammars/luz.txt Z --dot | diff tests/why_show/luz_0.dot -
"$headwords" show grammars/luz.txt "Z becomes c before +e" --dot --failures | diff tests/why_show/luz_0_failures.dot -
echo "show: as text and as a graph, as stored"

# the table that is shown is the grammar's own
for name in luz quichua spanish; do
    for ((rule = 0; rule < $("$headwords" show "grammars/$name.txt" | wc -l); rule++)); do
        "$headwords" show "grammars/$name.txt" "$rule" | sed -n '3,/^$/p'
    done >"$work/shown"
    diff -bB <(sed -n '/^RULE/,/^$/p' "grammars/$name.txt") "$work/shown"
done
echo "show: every table of the samples is its own"

# letters that mean something in XML and DOT, and one that XML has no way to write
cat >"$work/odd.txt" <<'TEXT'
BOUNDARY #
NULL 0
ANY @
ALPHABET < & > ' \
SUBSET <&amp < &
PAIRS <:< &:& >:> ':' \:\
RULE "<\&amp;>" 2 5
  < & \ <&amp @
  < & \ @ @
  1: 1 2 1 2 1
  2. 2 1 2 0 2
LEXICON Root
  < #
END
TEXT
for rule in luz:0 quichua:{0..6} spanish:{0..6} odd:0; do
    name=${rule%:*}
    grammar=grammars/$name.txt
    [ "$name" != odd ] || grammar=$work/odd.txt
    for failures in "" --failures; do
        # shellcheck disable=SC2086
        "$headwords" show "$grammar" "${rule#*:}" --svg $failures >"$work/rule.svg"
        # shellcheck disable=SC2086
        "$headwords" show "$grammar" "${rule#*:}" --dot $failures >"$work/rule.dot"
        "$headwords" show "$grammar" "${rule#*:}" >"$work/rule.text"
        python3 tests/why_show/picture.py "$work"/rule.{text,svg,dot} $failures || { echo "$rule $failures"; exit 1; }
        if command -v dot >/dev/null; then
            dot -Tsvg "$work/rule.dot" >"$work/graph.svg"
        fi
    done
done
echo "show: every rule as a picture and as a graph"

# ends STATUS WORDS ARGUMENT...: whether the command prints nothing, tells these words, and ends so
ends() {
    local status=0
    "$headwords" "${@:3}" >"$work/said" 2>"$work/told" || status=$?
    if [ "$status" -ne "$1" ] || [ -s "$work/said" ] || ! grep -qF -- "$2" "$work/told"; then
        cat "$work/said" "$work/told"
        echo "${*:3}: status $status"
        exit 1
    fi
}
ends 1 'no rule is called "u lowerd after a postvelar"; is u lowered after a postvelar meant?' show grammars/quichua.txt "u lowerd after a postvelar"
ends 1 '"u lowered" may be rule 2 or rule 3; give the number' show grammars/quichua.txt "u lowered"
ends 1 'there is no rule 7; the grammar has 7, from 0 on' show grammars/quichua.txt 7
ends 2 '--dot and --svg are two pictures' show grammars/luz.txt 0 --dot --svg
ends 2 '--failures goes with' show grammars/luz.txt 0 --failures
ends 1 'none.txt:0: cannot be read' show none.txt 0
ends 1 'none.txt:0: cannot be read' why none.txt luz
ends 2 'usage: headwords why' why grammars/luz.txt
echo "wrong usage: told, with its status"
