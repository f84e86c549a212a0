# Turns an image into what foma reads. Usage: foma.py sides|paths IMAGE FOLDER
# Writes finite automata into the folder, and the script build.foma, which makes of them analyser.foma, the surface below and what
# it is read as above, and analyser.att, the same upside down. Pairs are symbols p0, p1, .. there:
#   lexicon  the joined forms of every path; above them the same, or the path: an entry 12 is 12/, after its last letter
#   pairing  to a lexical letter each of its pairs, and the pairs with a lexical null anywhere
#   ruleK    the pairs that rule K lets pass, the boundary pair being fed at the front and at the end
#   surface  to each pair its surface letter
# The analyser is their composition. It has no limits: not of entries, pairs or nulls.
import sys

END, ANY, FIRST_SET, EMPTY = 255, 255, 128, "@0@"


def two(bytes, at):
    return bytes[at] + 256 * bytes[at + 1]


def chunks(bytes, width, many):
    return [bytes[width * i : width * (i + 1)] for i in range(many)]


class Image:
    def __init__(self, name):
        with open(name, "rb") as file:
            blocks = [block[4:510] for block in iter(lambda: file.read(512), b"")]
        _, letters, pairs, rules, lexicons, entries, sets = (two(blocks[0], 2 * i) for i in range(7))
        self.letters = [EMPTY] + [chr(two(blocks[1], 2 * i)) for i in range(letters)]
        self.pairs = [tuple(pair) for pair in chunks(blocks[2], 2, pairs)]
        # A set as one number: its binary digit n is letter n.
        self.sets = [int.from_bytes(record, "little") for record in chunks(blocks.pop(3), 16, sets)] if sets > 0 else []
        self.rules = blocks[3 : 3 + rules]
        self.counts = [two(blocks[3 + rules], 2 * i) for i in range(lexicons)]
        self.entries = [entry for block in blocks[4 + rules :] for entry in chunks(block, 16, 31)][:entries]


def spelled(image, number, mode):
    # What stands above and below while an entry is spelled.
    entry = image.entries[number]
    form = [image.letters[letter] for letter in entry[1 : 1 + entry[0]]]
    if mode == "paths":
        return [(EMPTY, letter) for letter in form] + [(f"{number}/", EMPTY)]
    return [(letter, letter) for letter in form or [EMPTY]]


def lexicon(image, mode):
    # States: 0, 1, .. for the lexicons, one for the end, and then those within forms.
    first, end = 0, len(image.counts)
    arcs, free = [], end + 1
    for at, count in enumerate(image.counts):
        for number in range(first, first + count):
            onward = image.entries[number][13]
            labels = spelled(image, number, mode)
            states = [at, *range(free, free + len(labels) - 1), end if onward == END else onward]
            free += len(labels) - 1
            arcs += [(states[i], states[i + 1], *label) for i, label in enumerate(labels)]
        first += count
    return arcs, [end]


def pairing(image):
    return [(0, 0, image.letters[lexical], f"p{i}") for i, (lexical, _) in enumerate(image.pairs)], [0]


def surface(image):
    return [(0, 0, f"p{i}", image.letters[surface]) for i, (_, surface) in enumerate(image.pairs)], [0]


def matches(asked, side, sets):
    if FIRST_SET <= asked < FIRST_SET + len(sets):
        return sets[asked - FIRST_SET] >> side & 1 == 1
    return asked in (ANY, side)


def taken(columns, fed, sets):
    # For each pair the place of its narrowest column.
    matched = [[all(matches(a, b, sets) for a, b in zip(column, pair)) for pair in fed] for column in columns]
    matching = lambda i: [k for k in range(len(columns)) if matched[k][i]]
    return [min(matching(i), key=lambda k: sum(matched[k])) for i in range(len(fed))]


def rule(table, image):
    columns, states = table[0], table[1]
    *takes, boundary = taken(chunks(table[2:], 2, columns), image.pairs + [(1, 1)], image.sets)
    marks = table[2 + 2 * columns :]
    rows = [[0] * columns] + [list(row) for row in chunks(marks[states:], columns, states)]
    start = rows[1][boundary]
    if start == 0:
        return [(0, 0, "p0", "p0")], []
    number = lambda state: 0 if state == start else state  # the start is state 0, and failure is left out
    moves = [(s, rows[s][k], f"p{i}") for s in range(1, states + 1) for i, k in enumerate(takes)]
    arcs = [(number(s), number(onward), pair, pair) for s, onward, pair in moves if onward > 0]
    ends = [number(s) for s in range(1, states + 1) if rows[s][boundary] > 0 and marks[rows[s][boundary] - 1] == 1]
    return arcs, ends


def write(folder, name, automaton):
    arcs, ends = automaton
    with open(f"{folder}/{name}.att", "w", encoding="utf-8") as file:
        # The first line's state is the start.
        for arc in sorted(arcs, key=lambda arc: arc[0]):
            print(*arc, sep="\t", file=file)
        for state in ends:
            print(state, file=file)


mode, image, folder = sys.argv[1], Image(sys.argv[2]), sys.argv[3]
parts = {"lexicon": lexicon(image, mode), "pairing": pairing(image)}
parts |= {f"rule{k}": rule(table, image) for k, table in enumerate(image.rules)}
parts["surface"] = surface(image)
for name, automaton in parts.items():
    write(folder, name, automaton)
with open(f"{folder}/build.foma", "w") as file:
    for name in parts:
        print(f"read att {folder}/{name}.att\ndefine {name}", file=file)
    print(f"regex {' .o. '.join(parts)};\nsave stack {folder}/analyser.foma", file=file)
    print(f"invert net\nwrite att > {folder}/analyser.att", file=file)
