# Writes a made-up grammar as text, for growth. Usage:
#   made_up.py entries N      N entries of five letters in the first lexicon
#   made_up.py length         words of every length, each read in one way
#   made_up.py rules N        400 entries of five letters, and N rules, each of which forbids a letter twice in a row
#   made_up.py readings K     the word of 16 a is read in 2 to the power of K ways, K at most 16
#   made_up.py forms FROM TO  the forms FROM to TO - 1 that entries would have, one a line
import sys

CONSONANTS, VOWELS = "bdfgklmnprst", "aeiou"
LETTERS = sorted(CONSONANTS + VOWELS + "c")


def form(i):
    # The factor has no divisor in common with the count of forms: no two are equal, and all beginnings are equally common.
    i = i * 7919 % (12 * 5 * 12 * 5 * 12)
    letters = ""
    for choice in (CONSONANTS, VOWELS, CONSONANTS, VOWELS, CONSONANTS):
        letters += choice[i % len(choice)]
        i //= len(choice)
    return letters


ALL_PASS = ['RULE "all pass" 1 1', "@", "@", "1: 1"]


def grammar(lexicons, rules=ALL_PASS):
    lines = ["BOUNDARY #", "NULL 0", "ANY @", "ALPHABET", "+ " + " ".join(LETTERS), "PAIRS", "+:0"]
    lines += [f"{a}:{a}" for a in LETTERS]
    lines += rules
    for name, entries in lexicons:
        lines += [f"LEXICON {name}"] + [f"{letters} {onward}" for letters, onward in entries]
    return lines + ["END"]


def stems(n):
    return [("Stem", [(form(i), "Ending") for i in range(n)]), ("Ending", [("0", "#"), ("+s", "#")])]


def entries(n):
    return grammar(stems(n))


def rules(n):
    letters = [LETTERS[i % len(LETTERS)] for i in range(n)]
    tables = [[f'RULE "{i}: no {a}{a}" 2 2', f"{a} @", f"{a} @", "1: 2 1", "2: 0 1"] for i, a in enumerate(letters)]
    return grammar(stems(400), sum(tables, []))


def length():
    # Four letters a time, and at last one to four.
    return grammar([("Part", [("abcd", "Part")] + [("abcd"[:n], "#") for n in range(1, 5)])])


def readings(k):
    # Each lexicon has two entries, so that the image is the same but for a letter: in the last k both are a.
    names = [f"Letter{i}" for i in range(1, 17)] + ["#"]
    return grammar([(names[i], [("a", names[i + 1]), ("a" if i >= 16 - k else "b", names[i + 1])]) for i in range(16)])


numbers = [int(word) for word in sys.argv[2:]]
if sys.argv[1] == "forms":
    print("\n".join(form(i) for i in range(*numbers)))
else:
    print("\n".join({"entries": entries, "rules": rules, "length": length, "readings": readings}[sys.argv[1]](*numbers)))
