#!/usr/bin/env bash
# The command's words in and readings out, as a user would: read, generate, forms, compare, sheet and spell on the three samples; words in every state; lists of
# 100,000; a full disk, a closed pipe, files that are missing, reads and writes that fail; and a real terminal.
set -eu
cd "$(dirname "$0")/.."
tools/need python3
tools/command
tools/prove lines
root=$PWD
headwords=$root/target/cargo/release/headwords
luz=$root/grammars/luz.txt
work=$(mktemp -d)
trap 'rm -rf "$work"' EXIT
cc -shared -fPIC -O1 -Wall -Wextra -Werror -o "$work/failing.so" tests/failing_read.c
cc -shared -fPIC -O1 -Wall -Wextra -Werror -o "$work/threads.so" tests/few_threads.c -ldl
cd "$work"
export LC_ALL=C.UTF-8

# this one waits more than it works
yes luces | head -n 100000 >luces
"$root/tests/terminal.py" "$headwords" "$luz" "$work/luces" >terminal 2>&1 &
terminal=$!

# ends STATUS COMMAND...: whether it ends with that status; what it says is in printed and told
ends() {
    local status=0
    "${@:2}" >printed 2>told || status=$?
    [ "$status" -eq "$1" ] || { cat printed told; echo "${*:2}: status $status, not $1"; exit 1; }
}
# prints, tells: what it has to be, from standard input
prints() {
    diff - printed
}
tells() {
    diff - told
}

ends 0 "$headwords" read "$luz" luces luzes Luz LUZ luk '' lllllllllllllllllllllllllllllllll
prints <<'END'
luces	luz	luZ (luz) +es (plural)	l:l u:u Z:c +:0 e:e s:s
luces	luc	luc (luc) +es (plural)	l:l u:u c:c +:0 e:e s:s

luzes	+?

Luz	luz	luZ (luz) 0 (singular)	l:l u:u Z:z

LUZ	+?

luk	+?	unread

	+?	refused 9

lllllllllllllllllllllllllllllllll	+?	refused 9

END
tells <<'END'
argument 5: unread: k (U+006B) is no letter of a word
capitals folded in 2 words
END
ends 0 "$headwords" read --numbers "$luz" -- luces
prints <<'END'
luces	luz	luZ (luz) +es (plural)	l:l u:u Z:c +:0 e:e s:s	0 3	3 5 6 0 2 4
luces	luc	luc (luc) +es (plural)	l:l u:u c:c +:0 e:e s:s	1 3	3 5 1 0 2 4

END
ends 0 "$headwords" read --most 1 "$luz" luces luz
prints <<'END'
luces	luz	luZ (luz) +es (plural)	l:l u:u Z:c +:0 e:e s:s
luces	+...	more 1

luz	luz	luZ (luz) 0 (singular)	l:l u:u Z:z

END
ends 0 "$headwords" read -q "$root/grammars/spanish.txt" Índice Bloques regiones luz
prints <<'END'
Índice	índice	índice (índice) 0 (singular)	í:í n:n d:d i:i c:c e:e
Índice	índice	índice (índice) 0 (singular)	í:í n:n d:d i:i c:c e:e

Bloques	bloc	bloQ (bloc) +es (plural)	b:b l:l o:o Q:q 0:u +:0 e:e s:s
Bloques	bloque	bloque (bloque) +s (plural)	b:b l:l o:o q:q u:u e:e +:0 s:s
Bloques	bloque	bloque (bloque) +s (plural)	b:b l:l o:o q:q u:u e:e +:0 s:s

regiones	región	regiòn (región) +es (plural)	r:r e:e g:g i:i ò:o n:n +:0 e:e s:s

luz	luz	luZ (luz) 0 (singular)	l:l u:u Z:z

END
ends 0 "$headwords" read -q "$root/grammars/quichua.txt" pensaypisqa qechuchichkasaqman
prints <<'END'
pensaypisqa	v.tr. (esp) Pensar.	pensa (v.tr. (esp) Pensar.) 0 0 0 0 0 (tiempo no marcado) +Y (segunda actor) 0 +pis (general) +qa (topicalizador)	p:p e:e n:n s:s a:a +:0 Y:y +:0 p:p i:i s:s +:0 q:q a:a

qechuchichkasaqman	+?

END
echo "readings: as stored"

ends 0 "$headwords" read --tsv --header --numbers "$luz" luces luzes luk ''
prints <<'END'
word	outcome	headword	forms	glosses	pairing	entry numbers	pair numbers
luces	all	luz	luZ +es	luz|plural	l:l u:u Z:c +:0 e:e s:s	0 3	3 5 6 0 2 4
luces	all	luc	luc +es	luc|plural	l:l u:u c:c +:0 e:e s:s	1 3	3 5 1 0 2 4
luzes	none						
luk	unread						
	refused 9						
END
ends 0 "$headwords" read --json --numbers "$luz" Luz 'lu"\' ''
prints <<'END'
{"word":"Luz","outcome":"all","refusal":null,"reason":null,"folded":true,"composed":false,"readings":[{"headword":"luz","entries":[{"entry":0,"form":"luZ","gloss":"luz"},{"entry":2,"form":"0","gloss":"singular"}],"pairing":["l:l","u:u","Z:z"],"pairs":[3,5,7]}]}
{"word":"lu\"\\","outcome":"unread","refusal":null,"reason":"\" (U+0022) is no letter of a word","folded":false,"composed":false,"readings":[]}
{"word":"","outcome":"refused","refusal":9,"reason":null,"folded":false,"composed":false,"readings":[]}
END
# glosses with everything that a field or a string of JSON has to escape, a gloss that is a number, and an entry without one
sed 's/"luz"/"a|b\\c {d}"/; s/  "luc"$/  77/; s/ *"singular"//' "$luz" >odd.txt
ends 0 "$headwords" read --tsv odd.txt luz luces luc
prints <<'END'
luz	all	a|b\\c {d}	luZ 0	a\|b\\c {d}|	l:l u:u Z:z
luces	all	a|b\\c {d}	luZ +es	a\|b\\c {d}|plural	l:l u:u Z:c +:0 e:e s:s
luces	all	luc	luc +es	77|plural	l:l u:u c:c +:0 e:e s:s
luc	all	luc	luc 0	77|	l:l u:u c:c
END
ends 0 "$headwords" read odd.txt luc
prints <<'END'
luc	luc	luc (77) 0	l:l u:u c:c

END
printf 'luz\nlu\tz\nlu\377\n\001"\\\nluces\n' >words
ends 0 "$headwords" read --json odd.txt --file words
python3 -c 'import json, sys; print([(w["word"], w["outcome"], [e["gloss"] for r in w["readings"] for e in r["entries"]]) for w in map(json.loads, sys.stdin)])' <printed >parsed
diff parsed - <<'END'
[('luz', 'all', ['a|b\\c {d}', None]), ('lu\tz', 'unread', []), ('lu�', 'unread', []), ('\x01"\\', 'unread', []), ('luces', 'all', ['a|b\\c {d}', 'plural', '77', 'plural'])]
END
echo "columns and JSON: escaped"

# byte order marks, line ends, blanks, decomposed accents, capitals, bytes that are not UTF-8, a last line without its end
printf '\357\273\277 regio\314\201n \r\n\r\nREGIO\314\201N\r\nJo\314\201venes\nlu\303\nlu\314\201\314\243z\nk\314\201\nlu z\nluz' >words
ends 0 "$headwords" read --summary "$root/grammars/spanish.txt" --file words --file - <words
sed -i '/ s, /d' told
tells <<'END'
words:5: unread: a byte that is not UTF-8
words:6: unread: ụ (U+1EE5) is no letter of a word
words:7: unread: ḱ (U+1E31) is no letter of a word
words:8: unread: U+0020 is no letter of a word
standard input:5: unread: a byte that is not UTF-8
standard input:6: unread: ụ (U+1EE5) is no letter of a word
standard input:7: unread: ḱ (U+1E31) is no letter of a word
standard input:8: unread: U+0020 is no letter of a word
18 words: 8 with a reading, 0 none, 8 unread, 2 refused, 0 more
capitals folded in 4 words; accents joined with their letters in 6 words; byte order mark dropped
END
awk -F '\t' 'NF { print $1 "|" $2 "|" $3 }' printed | head -n 9 >short
diff short - <<END
$(printf 'regio\314\201n')|región|regiòn (región) 0 (singular)
|+?|refused 9
$(printf 'REGIO\314\201N')|región|regiòn (región) 0 (singular)
$(printf 'Jo\314\201venes')|joven|jòven (joven) +es (plural)
lu�|+?|unread
$(printf 'lu\314\201\314\243z')|+?|unread
$(printf 'k\314\201')|+?|unread
lu z|+?|unread
luz|luz|luZ (luz) 0 (singular)
END
head -n 3 words | ends 0 "$headwords" read "$root/grammars/spanish.txt"
tells <<'END'
capitals folded in 1 word; accents joined with their letters in 2 words; byte order mark dropped
END
head -n 3 words | ends 0 "$headwords" read -q "$root/grammars/spanish.txt"
[ ! -s told ]
yes k | head -n 30 | ends 0 "$headwords" read "$luz"
[ "$(grep -c '^standard input:[0-9]*: unread' told)" -eq 20 ]
grep -qx '10 words more are unread' told
grep -qx '30 words: 0 with a reading, 0 none, 30 unread, 0 refused, 0 more' told
yes k | head -n 30 | ends 0 "$headwords" read -q "$luz"
[ ! -s told ]
: | ends 0 "$headwords" read "$luz"
[ ! -s printed ]
[ ! -s told ]
echo "words as they are typed: read, and told"

# each sample's list, by the command and by the line program: the same rows
for name in luz quichua spanish; do
    "$headwords" assemble "$root/grammars/$name.txt" "$name.img"
    list=$root/grammars/$name.words
    [ -e "$list" ] || list=$root/bench/luz.words
    "$headwords" list letters "$name.img" | awk -F '\t' 'NR == FNR { letter[$1] = $2; next } { n = split($0, number, " "); for (i = 1; i <= n; i++) printf "%s", letter[number[i]]; print "" }' - "$list" >"$name.txt"
    "$headwords" spell "$name.img" <"$name.txt" | diff - "$list"
    cp "$name.img" grammar.img
    "$root/target/bin/lines" <"$list" >lines.out
    "$headwords" read -q --tsv --numbers "$name.img" --file "$name.txt" | awk -F '\t' '{ print $2 == "none" ? "none 0" : $7 " | " $8 }' | diff - <(grep -v '^all' lines.out)
    "$headwords" read -q --json "$name.img" --file "$name.txt" | python3 -c 'import json, sys
for line in sys.stdin:
    word = json.loads(line)
    print(word["outcome"], len(word["readings"]))' | diff - <(grep -E '^(all|more|none)' lines.out)
done
echo "lists of the samples: as by the line program"

# 100,000 words, in order whatever the jobs
awk 'BEGIN { srand(7) } { word[NR] = $0 } END { for (i = 0; i < 100000; i++) print word[1 + int(rand() * NR)] }' spanish.txt >many
for jobs in 1 2 7; do
    ends 0 "$headwords" read --jobs "$jobs" spanish.img --file many
    cksum printed >>sums
    grep -qE '^100000 words: [0-9]+ with a reading, [0-9]+ none, 0 unread, 0 refused, 0 more$' told
done
[ "$(sort -u sums | wc -l)" -eq 1 ]
awk -F '\t' '/\t/ && $1 != last || /^$/ { if (NF) print $1; last = NF ? $1 : "" }' printed | diff - many
ends 0 "$headwords" read -q spanish.img <many
[ "$(cksum <printed)" = "$(cut -d ' ' -f 1,2 sums | head -n 1)" ]
[ ! -s told ]
# with fewer threads than are wanted all the same; with none it is told
for threads in 2 3; do
    ends 0 env LD_PRELOAD=./threads.so THREADS="$threads" "$headwords" read -q --jobs 8 spanish.img --file many
    [ "$(cksum <printed)" = "$(cut -d ' ' -f 1,2 sums | head -n 1)" ]
done
for threads in 0 1; do
    ends 1 env LD_PRELOAD=./threads.so THREADS="$threads" "$headwords" read -q spanish.img --file many
    grep -q '^headwords: no thread can be had: ' told
    [ ! -s printed ]
done
ends 0 env LD_PRELOAD=./threads.so THREADS=0 "$headwords" why "$luz" luzes
"$headwords" why "$luz" luzes | prints
echo "100,000 words: in order, by any number of jobs"

# entries to written forms
ends 0 "$headwords" generate "$luz" luZ +es
prints <<'END'
luces	luz	luZ (luz) +es (plural)	l:l u:u Z:c +:0 e:e s:s

END
printf 'luZ (luz) +es (plural)\n\n0 3\nluZ\nluc +as\nluc (luz) 0\n' | ends 1 "$headwords" generate --numbers "$luz"
prints <<'END'
luces	luz	luZ (luz) +es (plural)	l:l u:u Z:c +:0 e:e s:s	0 3	3 5 6 0 2 4

	+?	refused 11

luces	luz	luZ (luz) +es (plural)	l:l u:u Z:c +:0 e:e s:s	0 3	3 5 6 0 2 4

luZ	+?	refused 12

luc +as	+?	unread

luc (luz) 0	+?	unread

END
tells <<'END'
standard input:2: refused 11: path of 0 or over 16 entries, or an odd count of bytes
standard input:4: refused 12: the word does not end after luZ (luz): lexicon Number follows
standard input:5: unread: no entry has the form +as; is +es meant?
standard input:6: unread: no entry luc has a gloss that begins (luz) 0
END
ends 1 "$headwords" generate "$luz" +es luZ
tells <<'END'
headwords: refused 12: +es (plural) is in lexicon Number, and words begin in Noun
END
ends 0 "$headwords" generate "$root/grammars/spanish.txt" índice 0
[ "$(grep -c '^índice	' printed)" -eq 2 ]
tells <<'END'
headwords: índice 0: the entries can be linked in 2 ways
END
ends 0 "$headwords" forms "$luz" luz luc
prints <<'END'
luz	luz	luZ (luz) 0 (singular)	l:l u:u Z:z
luces	luz	luZ (luz) +es (plural)	l:l u:u Z:c +:0 e:e s:s

luc	luc	luc (luc) 0 (singular)	l:l u:u c:c
luces	luc	luc (luc) +es (plural)	l:l u:u c:c +:0 e:e s:s

END
ends 1 "$headwords" forms "$luz" luZ lus plural
tells <<'END'
headwords: no word begins with an entry lus; is luc meant?
headwords: plural is in lexicon Number, where no word begins
END
# what forms writes, read gives back, the same line; of quichua the first of very many
ends 0 "$headwords" forms --most 50 quichua.img afanaku
tells <<'END'
headwords: afanaku: stopped after 50 paths, and there are more; --most N tries N
END
sed '/^$/d' printed | sort >forms
cut -f 1 forms | sort -u | "$headwords" read -q quichua.img >readings
[ "$(wc -l <forms)" -gt 50 ]
[ -z "$(sort readings | comm -13 - forms)" ]
# a path with very many forms, entries that are alike, and those that lead to no end: nothing is dropped without a word
printf '%s\n' 'BOUNDARY #' 'NULL 0' 'ANY @' 'ALPHABET a b c' 'PAIRS a:a a:b a:c' 'LEXICON Root' 'aaaa # "many"' 'b #  "one"' 'b #  "two"' 'b #  "three"' END | sed 's/^PAIRS.*/& b:b/' >alike.txt
ends 0 "$headwords" forms alike.txt many
[ "$(grep -c many printed)" -eq 64 ]
tells <<'END'
headwords: many: 1 path with over 64 written forms, of which the first are printed
END
ends 0 "$headwords" generate --most 2 alike.txt b
prints <<'END'
b	one	b (one)	b:b
b	two	b (two)	b:b
b	+...	more 2

END
tells <<'END'
headwords: b: the entries can be linked in over 2 ways; --most N tries N
END
ends 0 "$headwords" forms --most 1 "$luz" luz
tells <<'END'
headwords: luz: stopped after 1 path, and there are more; --most N tries N
END
"$root/bench/hostile_text" equal >equal.txt
ends 0 timeout 20 "$headwords" forms equal.txt a
tells <<'END'
headwords: a: stopped after 100000 entries and 0 paths; --most N tries 100 N and N
END
# shellcheck disable=SC2046
ends 1 timeout 20 "$headwords" generate equal.txt $(yes a | head -n 16)
tells <<'END'
headwords: refused 12: the word does not end after a: lexicon Circle follows
END
yes a | head -n 32000 | tr '\n' ' ' >path
ends 1 "$headwords" generate equal.txt --file path
tells <<'END'
path:1: refused 11: path of 0 or over 16 entries, or an odd count of bytes
END
echo "generate and forms: as stored, and read back"

# a weekly change
sed 's/^  luc .*/  ceZ  Number  "cez"/; s/"luz"/"lumbre"/' "$luz" >new.txt
printf 'luz\nluces\nluc\nceces\nx\nsus\n' >words
ends 1 "$headwords" compare "$luz" new.txt words
prints <<'END'
changed	-	luz	luz	luZ (luz) 0 (singular)	l:l u:u Z:z
changed	+	luz	lumbre	luZ (lumbre) 0 (singular)	l:l u:u Z:z
changed	-	luces	luc	luc (luc) +es (plural)	l:l u:u c:c +:0 e:e s:s
changed	-	luces	luz	luZ (luz) +es (plural)	l:l u:u Z:c +:0 e:e s:s
changed	+	luces	lumbre	luZ (lumbre) +es (plural)	l:l u:u Z:c +:0 e:e s:s
lost	-	luc	luc	luc (luc) 0 (singular)	l:l u:u c:c
gained	+	ceces	cez	ceZ (cez) +es (plural)	c:c e:e Z:c +:0 e:e s:s
END
tells <<'END'
words:5: unread: x (U+0078) is no letter of a word
6 words: 1 gained, 1 lost, 2 changed, 2 as before
END
# other numbers, the same readings
awk '/^  luZ/ { luz = $0; next } /^  luc/ { print "  seZ  Number  \"sez\""; print; print luz; next } { print }' "$luz" >moved.txt
[ "$("$headwords" list entries moved.txt | cut -f 1,3 | head -n 3 | tr '\t\n' ' ,')" = "0 seZ,1 luc,2 luZ," ]
ends 0 "$headwords" compare "$luz" moved.txt - <words
[ ! -s printed ]
ends 0 "$headwords" compare -q spanish.img "$root/grammars/spanish.txt" spanish.txt
[ ! -s printed ]
[ ! -s told ]
# of two readings that say the same, one is gone
sed 's/^  luZ .*/&\n&/' "$luz" >twice.txt
echo luz | ends 1 "$headwords" compare twice.txt "$luz" -
prints <<'END'
changed	-	luz	luz	luZ (luz) 0 (singular)	l:l u:u Z:z
END
# an image without its names, beside one that has them
cp luz.img bare.img
ends 0 "$headwords" compare bare.img luz.img words
[ ! -s printed ]
grep -qx 'headwords: bare.img has no names beside it; compared is without names and glosses in words' told
ends 1 "$headwords" compare new.txt bare.img words
diff printed - <<'END'
changed	+	luces	luc	luc +es	l:l u:u c:c +:0 e:e s:s
gained	+	luc	luc	luc 0	l:l u:u c:c
lost	-	ceces	ceZ	ceZ +es	c:c e:e Z:c +:0 e:e s:s
END
# a gloss that is a number stays one, though it may be the entry's own
sed 's/"luz"/7/; s/"luc"/1/' "$luz" >seven.txt
sed 's/"luz"/7/; s/"luc"/1/' moved.txt >moved_seven.txt
ends 0 "$headwords" compare -q seven.txt moved_seven.txt words
ends 0 "$headwords" read --tsv seven.txt luc
prints <<'END'
luc	all	luc	luc 0	1|singular	l:l u:u c:c
END
"$headwords" assemble seven.txt seven.img
"$headwords" read --tsv seven.img luc | prints
"$headwords" text seven.img | diff - <("$headwords" text seven.txt)
ends 2 "$headwords" compare "$luz" none.txt words
ends 2 "$headwords" compare "$luz" new.txt none
ends 2 "$headwords" compare "$luz"
status=0
"$headwords" compare "$luz" new.txt words >/dev/full 2>told || status=$?
[ "$status" -eq 2 ]
echo "compare: by what readings say"

ends 0 "$headwords" sheet luz.img words --program "the index" --date "a Saturday"
prints <<END
# Hand-over sheet

Date: a Saturday

## Grammar

| | |
|---|---|
| file | luz.img |
| cksum of the image | $(cksum <luz.img | cut -d ' ' -f 1) |
| form | 1 |
| letters | 9 |
| pairs | 8 |
| sets | 0 |
| rules | 1 |
| lexicons | 2 |
| entries | 4 |
| blocks | 6 |

## Word list

| | |
|---|---|
| file | words |
| cksum | $(cksum <words | cut -d ' ' -f 1) |
| words | 6 |
| with a reading | 3 |
| none | 2 |
| unread | 1 |
| refused | 0 |
| over 64 readings | 0 |
| with capitals folded | 0 |
| with accents joined | 0 |

## Words without a reading, or with too many

### None: 2

    ceces
    sus

### Unread: 1

    x	x (U+0078) is no letter of a word

### Refused: 0

### Over 64 readings: 0

## Index program

Takes the listing: the index
END
printf 'luces\n\n' | ends 0 "$headwords" sheet luz.img --most 1
grep -qx 'Takes the listing: ________________' printed
[ "$(sed -n '/^### Refused: 1$/,/^### Over 1 readings: 1$/p' printed | grep '^    ')" = "    	refused 9" ]
[ "$(sed -n '/^### Over 1 readings: 1$/,/^## /p' printed | grep '^    ')" = "    luces" ]
echo "sheet: as stored"

# what begins with - and is no option; files with blanks in their names, and with bytes that are not UTF-8
ends 0 "$headwords" read -q "$luz" -- -luz
ends 2 "$headwords" read "$luz" -luz
grep -qx 'headwords read: there is no option -luz; what begins with - and is no option stands after --' told
odd=$(printf 'a b\377')
cp words "$odd"
ends 0 "$headwords" read "$luz" --file="$odd" --file "$odd"
[ "$(grep -c '^luz	' printed)" -eq 2 ]

# what is missing, refused or cannot be used: words, and a status
head -c 512 luz.img >part.img
ends 1 "$headwords" read none.txt luz
grep -q '^none.txt:0: cannot be read: ' told
ends 1 "$headwords" read part.img luz
grep -q '^part.img:0: refused 3: ' told
ends 1 "$headwords" read "$luz" --file words --file none
grep -q '^headwords: none: cannot be read: ' told
[ ! -s printed ]
ends 1 "$headwords" read "$luz" --file .
grep -q '^headwords: \.: Is a directory' told
ends 1 "$headwords" read "$luz" <.
grep -q '^headwords: standard input: Is a directory' told
for usage in "read" "read $luz --tsv --json" "read $luz --header luz" "read $luz --jobs 0 luz" "read $luz --most x luz" "read $luz --jsn luz" "spell" "forms $luz" "sheet"; do
    # shellcheck disable=SC2086
    ends 2 "$headwords" $usage
    [ ! -s printed ]
    grep -q '^usage: headwords ' told
done
for command in read spell; do
    status=0
    "$headwords" "$command" "$luz" <words >/dev/full 2>told || status=$?
    [ "$status" -eq 1 ]
    grep -q '^standard output: No space left on device' told
    yes luces | { "$headwords" "$command" "$luz" 2>told || echo "ended with $?" >ended; } | head -n 1 >first || true
    [ "$(cat ended)" = "ended with 1" ]
    [ ! -s told ]
    [ -s first ]
done
for arguments in "generate $luz luZ +es" "forms $luz luz" "sheet $luz words" "read --tsv --header $luz luz"; do
    status=0
    # shellcheck disable=SC2086
    "$headwords" $arguments >/dev/full 2>told || status=$?
    [ "$status" -eq 1 ]
    grep -q '^standard output: No space left on device' told
done
for arguments in "read $luz luz" "check $luz"; do
    status=0
    # shellcheck disable=SC2086
    "$headwords" $arguments 1<words 2>told || status=$?
    [ "$status" -eq 1 ]
    grep -q '^standard output: Bad file descriptor' told
done
ends 1 "$headwords" read "$luz" 0>written
grep -q '^headwords: standard input: Bad file descriptor' told
echo "what fails: told, with a status"

# reads and writes that stop short, are interrupted or fail
ends 0 "$headwords" read spanish.img <spanish.txt
mv printed right
under() {
    local status=0
    env LD_PRELOAD=./failing.so "${@:2}" "$headwords" read -q --jobs 2 spanish.img <spanish.txt >printed 2>told || status=$?
    [ "$status" -eq "$1" ] && cmp -n "$(wc -c <printed)" printed right || { cat told; echo "${*:2}: status $status, not $1"; exit 1; }
}
for variables in "READ_OF=- READ_SHORT=7" "READ_OF=- READ_INTERRUPTED=1" WRITE_SHORT=1000 WRITE_INTERRUPTED=1 "READ_OF=spanish.img READ_SHORT=100"; do
    # shellcheck disable=SC2086
    under 0 $variables
    cmp printed right
    [ ! -s told ]
done
under 1 WRITE_FAILS_AFTER=1300
[ "$(wc -c <printed)" -eq 1300 ]
grep -q '^standard output: No space left on device' told
under 1 READ_OF=- READ_FAILS_AFTER=1000
[ -s printed ]
grep -q '^headwords: standard input: Input/output error' told
under 1 READ_OF=spanish.img READ_FAILS_AFTER=1000
[ ! -s printed ]
grep -q '^spanish.img:0: cannot be read: Input/output error' told
echo "reads and writes that stop short or are interrupted: all is printed; that fail: what came before, words, and status 1"

wait "$terminal" || { cat terminal; exit 1; }
cat terminal
