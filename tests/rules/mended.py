# Writes the quichua sample with its tables mended where they say otherwise than the rules that the source writes above them:
# mended.py GRAMMAR RULES FOLDER. FOLDER/mended.txt has every place mended; FOLDER/K.txt all but place K, and FOLDER/K.rules the rules of its table alone.
import re, sys

# of each rule the state, the column from 1 on, and the next state that the written rule asks for
PLACES = {
    "i lowered before a postvelar": [(2, 2, 5)],
    "i lowered after a postvelar": [(2, 1, 1)],
    "u lowered before a postvelar": [(2, 2, 5)],
    "u lowered after a postvelar": [(2, 1, 1)],
    "W of the first person object": [(3, 1, 3), (4, 2, 1), (6, 1, 0)],
    "U of -mU": [(2, 3, 1), (3, 2, 1), (3, 5, 1), (8, 4, 0), (9, 4, 0), (10, 4, 0), (11, 4, 0)],
    "N of the third person": [(2, 1, 2), (7, 1, 2), (8, 2, 0), (8, 3, 1), (10, 2, 0), (10, 3, 1), (11, 2, 0), (12, 2, 0)],
}


def mended(text, left_out):
    for name, places in PLACES.items():
        begins = text.index('RULE "%s"' % name)
        ends = text.index("\n\n", begins)
        rows = text[begins:ends].split("\n")
        for place in places:
            state, column, following = place
            row = rows[2 + state].split()
            assert row[0] in ("%d:" % state, "%d." % state) and row[column] != str(following), (name, row)
            if (name, place) != left_out:
                row[column] = str(following)
            rows[2 + state] = " ".join(row)
        text = text[:begins] + "\n".join(rows) + text[ends:]
    return text


def write(name, text):
    open("%s/%s" % (sys.argv[3], name), "w", encoding="utf-8").write(text)


grammar, rules = (open(path, encoding="utf-8").read() for path in sys.argv[1:3])
write("mended.txt", mended(grammar, None))
every = [(name, place) for name, places in PLACES.items() for place in places]
for number, (name, place) in enumerate(every):
    write("%d.txt" % number, mended(grammar, (name, place)))
    write("%d.rules" % number, re.search('^RULE "%s"\n(?:  .*\n)+' % re.escape(name), rules, re.M).group())
print(len(every))
