# Writes the largest image that the limits allow, sealed: 120 letters, 250 pairs, 31 sets, 32 rules of 16 columns and 24 states, 64 lexicons, 2,800
# entries. With a second word, the same without sets, and columns of letters.
import sys


def two(n):
    return bytes((n % 256, n // 256))


def block(kind, records, data):
    return bytes((0, 0, kind, records)) + data + bytes(508 - len(data))


letters, pairs, rules, lexicons, entries, sets = 120, 250, 32, 64, 2800, 31 if len(sys.argv) == 2 else 0
image = block(1, 1, b"".join(two(n) for n in (1, letters, pairs, rules, lexicons, entries, sets)))
image += block(2, letters, b"".join(two(100 + i) for i in range(letters)))
sides = [(a, a) for a in range(2, 121)] + [(a, a + 1) for a in range(2, 120)] + [(a, 0) for a in range(2, 15)]
image += block(3, pairs, b"".join(bytes(p) for p in sides[:pairs]))
if sets > 0:
    # No two sets share a letter, so that each pair has one narrowest column.
    shared_out = [sum(1 << a for a in range(2 + k, letters + 1, sets)) for k in range(sets)]
    image += block(7, sets, b"".join(bits.to_bytes(16, "little") for bits in shared_out))
first = 128 if sets > 0 else 2
columns = [(first + k, first + k) for k in range(15)] + [(255, 255)]
table = bytes((16, 24)) + b"".join(bytes(c) for c in columns) + bytes([1] * 24) + bytes([1 + i % 24 for i in range(16 * 24)])
for _ in range(rules):
    image += block(4, 1, table)
counts = [entries // lexicons] * (lexicons - 1)
counts.append(entries - sum(counts))
image += block(5, lexicons, b"".join(two(n) for n in counts))
entry = bytes([12] + [2 + i for i in range(12)] + [255]) + two(7)
for first in range(0, entries, 31):
    n = min(31, entries - first)
    image += block(6, n, entry * n)
sealed = bytearray()
for k in range(len(image) // 512):
    b = bytearray(image[512 * k : 512 * k + 512])
    b[0:2] = two(k)
    b[510:512] = two((1 + sum((i + 1) * b[i] for i in range(510))) % 65521)
    sealed += b
open(sys.argv[1], "wb").write(sealed)
