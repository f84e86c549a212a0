# Holds what flookup or hfst-optimized-lookup printed against what the line program printed. Usage:
#   same_readings.py sides|paths ENTRIES WORDS OURS THEIRS   (ENTRIES as headwords list entries has them, WORDS as they are written)
# Compared are, for each word, the lexical sides of its readings or their paths, an entry 12 being written 12/. Where the forms
# have over 8 letters more than the word, a reading needs over 8 surface nulls: the line program's limit keeps it out, and the
# transducers do not know of it. How many were left out so is printed.
import sys

LIMIT = 8


def read(name):
    with open(name, encoding="utf-8") as file:
        return [line.rstrip("\n") for line in file]


def side(path):
    return "".join(forms[int(entry)] for entry in path.split("/")[:-1])


def read_ours(words, printed):
    readings = {word: set() for word in words}
    at = iter(words)
    for line in printed:
        if "|" in line:
            path = line.split(" | ")[0].replace(" ", "/") + "/"
            readings[word].add(path if mode == "paths" else side(path))
        else:
            word = next(at)
            if line.split(" ")[0] not in ("all", "none"):
                sys.exit(f"{word}: the line program prints {line}")
    return readings


def read_theirs(words, printed):
    readings = {word: set() for word in words}
    for fields in (line.split("\t") for line in printed):
        if len(fields) > 1 and fields[-1] != "+?":
            readings[fields[0]].add(fields[1])
    return readings


mode, entries, words, ours, theirs = sys.argv[1], *map(read, sys.argv[2:])
forms = ["" if form == "0" else form for form in (line.split("\t")[2] for line in entries)]
ours, theirs = read_ours(words, ours), read_theirs(words, theirs)
left_out = 0
for word, readings in theirs.items():
    over = {reading for reading in readings if len(side(reading) if mode == "paths" else reading) > len(word) + LIMIT}
    left_out += len(over)
    if readings - over != ours[word]:
        sys.exit(f"{word}: {sorted(ours[word])} by the line program, {sorted(readings)} by the other")
print(left_out)
