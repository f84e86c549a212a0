#!/usr/bin/env bash
# The line program: the trials in tests/trials (an image, its input and what has to be printed), a sample by sets, no image and one that is too long,
# a line without end at constant memory, a standard output that closes, and reads and writes that fail, stop short or are interrupted.
set -eu
cd "$(dirname "$0")/.."
root=$PWD
tools/command
tools/prove lines
work=$(mktemp -d)
trap 'rm -rf "$work"' EXIT
cd "$work"

for input in "$root"/tests/trials/*.in; do
    trial=${input%.in}
    "$root/tests/trial_image" "$(basename "$trial")" grammar.img
    "$root/target/bin/lines" <"$input" | diff - "$trial.out"
    echo "$(basename "$trial"): as stored"
done

# quichua's rules speak of sets, and its words get the answers that they got when each letter of a set had its own column
"$root/target/cargo/release/headwords" assemble "$root/grammars/quichua.txt" grammar.img
[ "$("$root/target/bin/lines" <"$root/grammars/quichua.words" | cksum)" = "3603404497 33815" ]
echo "quichua by sets: as by letters"

# an image that is too long, by a byte and by far, and none at all
head -c 65537 /dev/zero >grammar.img
[ "$(echo 2 | "$root/target/bin/lines")" = "refused 1" ]
head -c 1000000 /dev/zero >grammar.img
[ "$(echo 2 | "$root/target/bin/lines")" = "refused 1" ]
rm grammar.img
[ "$(printf '2\n?\n' | "$root/target/bin/lines" 2>errors | tr '\n' ' ')" = "refused 1 unread " ]
[ "$(cat errors)" = "grammar.img: No such file or directory" ]
[ -z "$("$root/target/bin/lines" </dev/null 2>/dev/null)" ]
echo "images that are not there or too long: refused"

# 200 MB in one line, in 64 MB of memory
"$root/target/cargo/release/headwords" assemble "$root/grammars/luz.txt" grammar.img
got=$( (ulimit -v 65536; { head -c 200000000 /dev/zero; printf '\n5 7 8\n'; } | "$root/target/bin/lines") | tr '\n' ' ')
[ "$got" = "unread all 1 0 2 | 3 5 7 " ]
echo "a line of 200 MB: unread, and the next is read"

# a reader that goes away: the program ends by itself, whether the signal is taken or not
yes '5 7 3 4 6' | "$root/target/bin/lines" 2>errors | head -n 1 >first || true
[ "$(cat first)" = "all 2" ]
[ ! -s errors ]
(trap '' PIPE; yes '5 7 3 4 6' 2>/dev/null | { "$root/target/bin/lines"; echo "ended with $?" >ended; } | head -n 1 >first) || true
[ "$(cat ended)" = "ended with 0" ]
echo "a standard output that closes: ends"

# told WORDS VARIABLE=VALUE...: under these failures it prints the stored answers to the stored input, or the first bytes of them, and tells the words
cc -shared -fPIC -O1 -Wall -Wextra -Werror -o failing.so "$root/tests/failing_read.c"
told() {
    env LD_PRELOAD=./failing.so "${@:2}" "$root/target/bin/lines" <"$root/crates/lines/stdin" >printed 2>errors
    cmp -n "$(wc -c <printed)" printed "$root/crates/lines/stdout"
    [ "$(cat errors)" = "$1" ] || { cat errors; return 1; }
}
whole() {
    told "" "$@"
    cmp printed "$root/crates/lines/stdout"
}
for file in grammar.img -; do
    whole READ_OF=$file READ_SHORT=1
    whole READ_OF=$file READ_INTERRUPTED=1
done
whole WRITE_SHORT=1
whole WRITE_INTERRUPTED=1
told "standard output: No space left on device" WRITE_FAILS_AFTER=10
[ "$(wc -c <printed)" -eq 10 ]
told "standard input: Input/output error" READ_OF=- READ_FAILS_AFTER=13
[ "$(cat printed)" = "$(head -n 3 "$root/crates/lines/stdout")" ]
echo "reads and writes that stop short or are interrupted: all is printed; that fail: the answers so far, and words"

# an image of which a part can be read has length 0, even where that part is an image
cat grammar.img grammar.img >both
mv both grammar.img
for after in 0 1 3072 6143 6144; do
    got=$(env LD_PRELOAD=./failing.so READ_OF=grammar.img READ_FAILS_AFTER=$after "$root/target/bin/lines" <"$root/crates/lines/stdin" 2>errors | sort -u)
    [ "$got" = "refused 1" ]
    [ "$(cat errors)" = "grammar.img: Input/output error" ]
done
echo "an image of which a part can be read: refused 1"
