#!/usr/bin/env bash
# headwords spell: the letter numbers of lines, words it cannot spell and why, bytes that are not UTF-8, lines of any length at constant memory, images
# that are missing or refused, a standard output that closes, and reads and writes that fail, stop short or are interrupted.
set -eu
cd "$(dirname "$0")/.."
root=$PWD
tools/command
tools/prove lines
work=$(mktemp -d)
trap 'rm -rf "$work"' EXIT
cc -std=c99 -O1 -Wall -Wextra -Werror -Iinclude -o "$work/changed" tests/changed.c target/staticlib/libheadwords.a
cc -shared -fPIC -O1 -Wall -Wextra -Werror -o "$work/failing.so" tests/failing_read.c
cd "$work"
headwords=$root/target/cargo/release/headwords
"$headwords" assemble "$root/grammars/luz.txt" grammar.img

# gives INPUT NUMBERS REASONS: what is printed for an input, and what is told; escapes are those of printf
gives() {
    printf '%b' "$1" | "$headwords" spell grammar.img >printed 2>told || { printf 'input: %s\n' "$1"; exit 1; }
    printf '%b' "$2" | cmp - printed && printf '%b' "$3" | diff - told || { printf 'input: %s\n' "$1"; exit 1; }
}
stray="is no letter of a word"

gives 'luces\nluzes\n\n \tluz \r\nluZ+es\n' '5 7 3 4 6\n5 7 8 4 6\n\n5 7 8\n5 7 9 2 4 6\n' ''
gives 'Luces\nLUCES\nLuz\nLUZ\nluZ' '5 7 3 4 6\n5 7 3 4 6\n5 7 8\n5 7 9\n5 7 9\n' ''
gives '' '' ''
gives '\n' '\n' ''
gives ' \t\r\n \r\r\t' '\n\n' ''
gives 'l' '5\n' ''
gives 'l\r\n\r\nu\r' '5\n\n7\n' ''
echo "words: as letter numbers, line by line"

gives 'luz\nkuz\nlu z\nl0z\nlu\007\nlucie\0314\0201\nl#z\n#\nluz\n' '5 7 8\n?\n?\n?\n?\n?\n?\n?\n5 7 8\n' "\
standard input:2: unread: k (U+006B) $stray
standard input:3: unread: U+0020 $stray
standard input:4: unread: 0 (U+0030) $stray
standard input:5: unread: U+0007 $stray
standard input:6: unread: i (U+0069) $stray
standard input:7: unread: # (U+0023) $stray
standard input:8: unread: # (U+0023) $stray
"
# the first thing is told, blanks inside too, and a capital as it is typed
gives 'K\n É \nce\0314\0201\nl  u\t\nlu\t\rz\nlu\0000\n\0357\0273\0277luz\n' '?\n?\n?\n?\n?\n?\n?\n' "\
standard input:1: unread: K (U+004B) $stray
standard input:2: unread: É (U+00C9) $stray
standard input:3: unread: é (U+00E9) $stray
standard input:4: unread: U+0020 $stray
standard input:5: unread: U+0009 $stray
standard input:6: unread: U+0000 $stray
standard input:7: unread: U+FEFF $stray
"
echo "words that cannot be spelled: ? and the reason"

# the least and the greatest character of each length, and those beside the surrogates
gives '\0302\0200\n\0337\0277\n\0340\0240\0200\n\0355\0237\0277\n\0356\0200\0200\n\0357\0277\0277\n\0360\0220\0200\0200\n\0364\0217\0277\0277' '?\n?\n?\n?\n?\n?\n?\n?\n' "\
standard input:1: unread: U+0080 $stray
standard input:2: unread: U+07FF $stray
standard input:3: unread: ࠀ (U+0800) $stray
standard input:4: unread: U+D7FF $stray
standard input:5: unread: U+E000 $stray
standard input:6: unread: U+FFFF $stray
standard input:7: unread: 𐀀 (U+10000) $stray
standard input:8: unread: U+10FFFF $stray
"
# above U+FFFF there is no letter, though the lower bytes of this one are l
gives 'lu\0360\0220\0201\0254' '?\n' "standard input:1: unread: U+1006C $stray\n"
# bytes that begin nothing, that lack one before them or after them, characters that are written too long, surrogates, and what lies above U+10FFFF; a line
# end is one even where a byte was due
for bytes in '\0377' '\0376' '\0200' '\0277' '\0303' '\0303l' '\0303\0303' '\0342\0202' '\0342\0202l' '\0360\0237\0230' '\0360\0237\0230l' \
    '\0300\0254' '\0301\0254' '\0340\0201\0254' '\0340\0237\0277' '\0360\0200\0201\0254' '\0360\0217\0277\0277' \
    '\0355\0240\0200' '\0355\0277\0277' '\0364\0220\0200\0200' '\0365\0200\0200\0200' '\0370\0210\0200\0200\0254'; do
    gives "luz\nlu$bytes\nluz\n" '5 7 8\n?\n5 7 8\n' 'standard input:2: unread: a byte that is not UTF-8\n'
    gives "$bytes" '?\n' 'standard input:1: unread: a byte that is not UTF-8\n'
    gives "$bytes \nluz" '?\n5 7 8\n' 'standard input:1: unread: a byte that is not UTF-8\n'
done
gives 'luk\0377\nlu\0377k\n' '?\n?\n' "\
standard input:1: unread: a byte that is not UTF-8
standard input:2: unread: a byte that is not UTF-8
"
echo "bytes that are not UTF-8: unread"

# by the line program a word of 32 letters has no reading here, and a longer one is refused; a character that is no letter is found however late it comes
times() {
    head -c "$1" /dev/zero | tr '\0' "$2"
}
answered() {
    "$headwords" spell grammar.img 2>told | "$root/target/bin/lines"
}
for length in 1 31 32; do
    [ "$(times $length L | answered)" = "none 0" ]
done
for length in 33 34 64 65 128 256 1000 65000; do
    [ "$(times $length L | answered)" = "refused 9" ]
    [ "$({ times $length L; echo ' k'; } | answered)" = unread ]
    [ "$({ times $length L; printf '\377'; } | answered)" = unread ]
done
[ "$({ times 70000 ' '; printf luz; times 70000 ' '; } | answered | head -n 1)" = "all 1" ]
[ ! -s told ]
[ "$({ times 31 l; times 60000 ' '; printf l; } | answered)" = unread ]
# after 65,536 bytes a line is cut, and what comes then is not looked at
for rest in '' k '\377' ' l'; do
    [ "$({ times 70000 l; printf "$rest"; } | answered)" = "refused 9" ]
done
echo "32 letters: a word; more: refused 9, whatever the length"

# 100 MB in each of three lines, in 64 MB of memory
got=$( (ulimit -v 65536; { times 100000000 ' '; printf 'luz\n'; times 100000000 l; printf '\n'; times 100000000 '\300'; printf '\nluz\n'; } | "$headwords" spell grammar.img 2>told) | cut -c 1-20 | tr '\n' ',')
[ "$got" = "5 7 8,5 5 5 5 5 5 5 5 5 5 ,?,5 7 8," ]
[ "$(cat told)" = "standard input:3: unread: a byte that is not UTF-8" ]
echo "lines of 100 MB: spelled"

# each letter but the boundary by its own character; and capitals, of which Q and Z are letters of spanish themselves
for name in luz quichua spanish; do
    "$headwords" assemble "$root/grammars/$name.txt" "$name.img"
    "$headwords" list letters "$root/grammars/$name.txt" | sed 1d >letters
    cut -f 2 letters | "$headwords" spell "$name.img" | diff - <(cut -f 1 letters)
done
printf 'ÁÉÍÓÚÜÑ\náéíóúüñ\nÀÈÌÒÙ\nABCDEFGHIJKLMNOPQRSTUVWXYZ\n' | "$headwords" spell spanish.img | diff - <(printf '%s\n' '30 31 32 33 34 35 17' '30 31 32 33 34 35 17' '36 37 38 39 40' \
    '3 4 5 6 7 8 9 10 11 12 13 14 15 16 18 19 42 21 22 23 24 25 26 27 28 41')
echo "letters of the samples: by their characters, and by capitals that are no letters themselves"

# an image may have the blank for a letter, though no text can: inside a word it is one, around the word it is dropped
cp luz.img blank.img
echo 518 32 | ./changed blank.img
[ "$(printf ' L  uz \r\n l' | "$headwords" spell blank.img | tr '\n' ,)" = "5 2 2 7 8,5," ]
echo "a blank that is a letter: spelled inside a word"

# ends STATUS WORDS COMMAND...: whether it prints nothing, tells first the words, and ends with that status
ends() {
    local status=0
    "${@:3}" >printed 2>told || status=$?
    [ "$status" -eq "$1" ] && [[ $(cat told) == "$2"* ]] && [ ! -s printed ] || { cat printed told; echo "${*:3}: status $status, not $1"; exit 1; }
}
head -c 512 grammar.img >part.img
{ head -c 600 grammar.img; printf k; tail -c +602 grammar.img; } >altered.img
head -c 65537 /dev/zero >long.img
: >empty.img
for input in /dev/null "$root/grammars/luz.txt"; do
    ends 1 "none.img:0: cannot be read: No such file or directory" "$headwords" spell none.img <"$input"
    ends 1 ".:0: cannot be read: Is a directory" "$headwords" spell . <"$input"
    ends 1 "part.img:0: refused 3: " "$headwords" spell part.img <"$input"
    ends 1 "altered.img:0: refused 2: " "$headwords" spell altered.img <"$input"
    ends 1 "long.img:0: refused 1: " "$headwords" spell long.img <"$input"
    ends 1 "empty.img:0: refused 1: " "$headwords" spell empty.img <"$input"
done
ends 2 "headwords spell: something is missing" "$headwords" spell
ends 2 "headwords spell: more is one too many" "$headwords" spell grammar.img more
echo "images that are missing or refused: told, and no line is printed"

# a line is handed over though no more input comes
mkfifo typed shown
"$headwords" spell grammar.img <typed >shown &
exec 7>typed 8<shown
echo Luz >&7
read -r -t 20 numbers <&8
[ "$numbers" = "5 7 8" ]
printf 'luc' >&7
echo es >&7
read -r -t 20 numbers <&8
[ "$numbers" = "5 7 3 4 6" ]
exec 7>&-
wait $!
exec 8<&-
echo "lines: handed over as they come"

# a reader that goes away: the program ends by itself, whether the signal is taken or not
yes luces | "$headwords" spell grammar.img 2>told | head -n 1 >first || true
[ "$(cat first)" = "5 7 3 4 6" ]
[ ! -s told ]
(trap '' PIPE; yes luces 2>/dev/null | { "$headwords" spell grammar.img 2>told || echo "ended with $?" >ended; } | head -n 1 >first) || true
[ "$(cat ended)" = "ended with 1" ]
[ ! -s told ]
echo "a standard output that closes: ends, without words"

status=0
echo luz | "$headwords" spell grammar.img >/dev/full 2>told || status=$?
[ "$status $(cat told)" = "1 standard output: No space left on device (os error 28)" ]
ends 1 "headwords: standard input: Is a directory" "$headwords" spell grammar.img <.

# under STATUS WORDS VARIABLE=VALUE...: under these failures it prints what it does without, or the first bytes of that, and tells the words
printf 'Luces\n\nárbol\nluZ+es\nluz' >words
"$headwords" spell grammar.img <words >right 2>/dev/null
under() {
    local status=0
    env LD_PRELOAD=./failing.so "${@:3}" "$headwords" spell grammar.img <words >printed 2>told || status=$?
    sed -i '/: unread: /d' told
    cmp -n "$(wc -c <printed)" printed right
    [ "$status" -eq "$1" ] && [ "$(cut -d '(' -f 1 told)" = "$2" ] || { cat told; echo "${*:3}: status $status, not $1"; exit 1; }
}
for variable in READ_SHORT=1 READ_INTERRUPTED=1; do
    for file in grammar.img -; do
        under 0 "" READ_OF=$file $variable
        cmp printed right
    done
done
for variable in WRITE_SHORT=1 WRITE_INTERRUPTED=1; do
    under 0 "" $variable
    cmp printed right
done
under 1 "standard output: No space left on device " WRITE_FAILS_AFTER=13
[ "$(wc -c <printed)" -eq 13 ]
under 1 "headwords: standard input: Input/output error " READ_OF=- READ_FAILS_AFTER=7
[ "$(tr '\n' , <printed)" = "5 7 3 4 6,," ]
for after in 0 1 3072; do
    under 1 "grammar.img:0: cannot be read: Input/output error " READ_OF=grammar.img READ_FAILS_AFTER=$after
    [ ! -s printed ]
done
echo "reads and writes that stop short or are interrupted: all is printed; that fail: the lines so far, words, and status 1"
