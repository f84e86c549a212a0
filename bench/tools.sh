# Read in by the scripts that stand beside it: builds what they run, lays out the samples, and counts instructions.
set -euo pipefail
shopt -s inherit_errexit # so that a count that fails ends the script, and is not taken for 0
cd "$(dirname "$0")/.."
lines=$PWD/target/bin/lines
headwords=$PWD/target/cargo/release/headwords
work=$(mktemp -d)
trap 'rm -rf "$work"' EXIT

# fail WHAT: says what is wrong, and ends
fail() {
    echo "bench/$(basename "$0"): $1" >&2
    exit 1
}

# need TOOL...: ends where some are missing
need() {
    tools/need "$@" || exit
}

# quietly COMMAND...: what it prints is shown only if it fails
quietly() {
    "$@" >"$work/log" 2>&1 || {
        cat "$work/log" >&2
        fail "failed: $*"
    }
}

# build: the program in C that makes calls, and what a run of the line program needs
build() {
    build_lines
    quietly cc -std=c99 -O2 -Wall -Wextra -Werror -Iinclude -o "$work/listings" bench/listings.c target/staticlib/libheadwords.a
}

# build_lines: what a run of the line program needs
build_lines() {
    tools/prove lines
    tools/command
}

# assemble GRAMMAR IMAGE
assemble() {
    quietly "$headwords" assemble "$1" "$2"
}

# lay_out_samples: a folder of each sample, $work/luz and so on, with its image as grammar.img and three lists of words: words,
# those of them that are found, and those that are missing, with near-misses where the list has few
lay_out_samples() {
    local name
    for name in $samples; do
        mkdir "$work/$name"
        assemble "grammars/$name.txt" "$work/$name/grammar.img"
    done
    cp bench/luz.words "$work/luz/words"
    cp grammars/quichua.words "$work/quichua/words"
    cp grammars/spanish.words "$work/spanish/words"
    for name in $samples; do
        python3 bench/apart.py "$lines" "$work/$name"
    done
}
samples="luz quichua spanish"

# spell IMAGE: the letter numbers of the words that come in, one a line, by the image
spell() {
    "$headwords" spell "$1"
}

# print_lines FOLDER WORDS: what the line program prints for the words by the folder's image
print_lines() {
    (cd "$1" && "$lines" <"$2")
}

# count PROGRAM WORD...: instructions of a whole run of a program
# Two settings keep out what is not the program's: callgrind counts a string instruction once for each byte, and whether the C
# library clears memory by one is up to the processor, so it is told to use plain stores; and functions of the C library are
# looked up before the program starts, not at their first call.
count() {
    GLIBC_TUNABLES=glibc.cpu.x86_rep_stosb_threshold=1000000 LD_BIND_NOW=1 \
        quietly valgrind --tool=callgrind --callgrind-out-file=/dev/null "$@"
    sed -n 's/.*Collected : //p' "$work/log"
}

# count_lines FOLDER WORDS: instructions of the line program for each of the words, by the folder's image: those of a run on them
# less those of a run on nothing, by words
count_lines() {
    local with without
    with=$(cd "$1" && count "$lines" <"$2")
    without=$(cd "$1" && count "$lines" </dev/null)
    echo $(((with - without) / $(grep -c '' "$2")))
}

# over MODE PLAIN N IMAGE WORDS: instructions of MODE over those of PLAIN, for each of the N calls that it makes and PLAIN does not.
# Some tens of them are the program's own, which counts the replies.
over() {
    local with without
    with=$(count "$work/listings" "$1" "$4" "$5" 1)
    without=$(count "$work/listings" "$2" "$4" "$5" 1)
    echo $(((with - without) / $3))
}

# fixed IMAGE: sets check to the instructions of one image check, and refused to those of one analysis of a word that is refused
# for its letter, so that nothing is searched. What that costs, every word costs.
fixed() {
    local words=$work/refused.words plain with
    echo 1 >"$words"
    plain=$(count "$work/listings" read "$1" "$words" 10)
    with=$(count "$work/listings" check "$1" "$words" 10)
    check=$(((with - plain) / 10))
    with=$(count "$work/listings" analyse "$1" "$words" 10)
    refused=$(((with - plain) / 10))
}

# line FIELD...: a line of a table, with commas between thousands
width=13
line() {
    printf "%${width}s" "$@" | sed ':again; s/ \([0-9]\+\)\([0-9]\{3\}\)\>/\1,\2/; t again'
    echo
}
