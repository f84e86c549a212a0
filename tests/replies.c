/* The C entry on the luz grammar: each call's replies, every refusal of every call, and after each call every lent byte and those around it.
 * Usage: replies IMAGE */
#define _DEFAULT_SOURCE
#include "calls.h"

static struct bytes luz;

enum { MOST = 8 * HEADWORDS_ROW_BYTES + 3 };

static void words(void)
{
    uint8_t row[2 * HEADWORDS_ROW_BYTES], *second = row + HEADWORDS_ROW_BYTES;
    struct bytes rows = {row, sizeof row};
    put_row(row, BYTES(0, 0, 3, 0), BYTES(3, 5, 6, 0, 2, 4));
    put_row(second, BYTES(1, 0, 3, 0), BYTES(3, 5, 1, 0, 2, 4));
    for (size_t room = 0; room <= MOST; room++) {
        size_t n = room / HEADWORDS_ROW_BYTES;
        analyse("luces", luz, BYTES(5, 7, 3, 4, 6), room, n >= 2 ? 9 : 4 * n + 2, first(HEADWORDS_ROW_BYTES * (n < 2 ? n : 2), rows));
    }
    analyse("luzes", luz, BYTES(5, 7, 8, 4, 6), MOST, 0, nothing);
    put_row(row, BYTES(0, 0, 2, 0), BYTES(3, 5, 7));
    analyse("luz", luz, BYTES(5, 7, 8), MOST, 5, first(HEADWORDS_ROW_BYTES, rows));
    put_row(row, BYTES(1, 0, 2, 0), BYTES(3, 5, 1));
    analyse("luc", luz, BYTES(5, 7, 3), MOST, 5, first(HEADWORDS_ROW_BYTES, rows));

    uint8_t letters[300];
    memset(letters, 5, sizeof letters);
    struct bytes long_word = {letters, sizeof letters};
    analyse("32 letters", luz, first(32, long_word), MOST, 0, nothing);
    analyse("empty word", luz, nothing, MOST, refused(9), nothing);
    analyse("33 letters", luz, first(33, long_word), MOST, refused(9), nothing);
    analyse("300 letters", luz, long_word, MOST, refused(9), nothing);
    analyse("letter 0", luz, BYTES(5, 7, 0), MOST, refused(10), nothing);
    analyse("letter 1", luz, BYTES(1), MOST, refused(10), nothing);
    analyse("letter 10", luz, BYTES(5, 10), MOST, refused(10), nothing);
    analyse("letter 255", luz, BYTES(255, 7, 3), MOST, refused(10), nothing);
    analyse("letter 10 and no row", luz, BYTES(10), 0, refused(10), nothing);
}

enum { MOST_WORDS = 40, RECORD = HEADWORDS_WORD_BYTES, ROW = HEADWORDS_ROW_BYTES };

/* Words of each kind, over and over: with one reading, two and none, length bytes at the limits, and letters that are out of range. The bytes of a record
 * past these letters are l, so that a length of 32 is a word. */
static void put_some_words(uint8_t *records)
{
    static const struct {
        uint8_t length, letters[5];
    } some[] = {
        {5, {5, 7, 3, 4, 6}},
        {3, {5, 7, 8, 255, 255}},
        {0, {5, 7, 8, 5, 5}},
        {5, {5, 7, 8, 4, 6}},
        {33, {5, 7, 8, 5, 5}},
        {3, {5, 7, 3, 0, 1}},
        {3, {5, 7, 1, 5, 5}},
        {255, {5, 7, 8, 5, 5}},
        {4, {5, 7, 8, 0, 5}},
        {32, {5, 7, 8, 4, 6}},
        {3, {10, 7, 8, 5, 5}},
        {2, {5, 7, 8, 5, 5}},
        {128, {5, 7, 8, 5, 5}},
    };
    for (size_t i = 0; i < MOST_WORDS; i++, records += RECORD) {
        size_t k = i % (sizeof some / sizeof *some);
        memset(records, 5, RECORD);
        records[0] = some[k].length;
        memcpy(records + 1, some[k].letters, sizeof some[k].letters);
    }
}

/* Each word is answered as it is alone, with its share as the buffer. */
static void as_alone(const char *what, struct bytes words, size_t places, size_t room)
{
    static uint8_t rows[4 * MOST_WORDS * ROW];
    struct answer answers[MOST_WORDS];
    size_t records = words.length / RECORD, n = places / 8 < records ? places / 8 : records;
    for (size_t i = 0; i < n; i++) {
        const uint8_t *record = words.at + RECORD * i;
        size_t share = room / ROW / n * ROW;
        uint8_t *own = rows + share * i;
        uint64_t reply = record[0] > 32 ? refused(9) : headwords_analyse(luz.at, luz.length, record + 1, record[0], own, share);
        answers[i] = (struct answer){reply, {own, reply % 4 == HEADWORDS_REFUSED ? 0 : ROW * (reply / 4)}};
    }
    analyse_words(what, luz, words, places, room, 4 * n + 1, answers);
}

static void many_words(void)
{
    static uint8_t records[RECORD * MOST_WORDS];
    struct bytes words = {records, sizeof records};
    uint8_t row[3 * ROW], *second = row + ROW, *third = second + ROW;
    struct bytes luces = {row, 2 * ROW}, luz_row = {third, ROW};
    put_row(row, BYTES(0, 0, 3, 0), BYTES(3, 5, 6, 0, 2, 4));
    put_row(second, BYTES(1, 0, 3, 0), BYTES(3, 5, 1, 0, 2, 4));
    put_row(third, BYTES(0, 0, 2, 0), BYTES(3, 5, 7));

    /* luces, luzes, luz, a word refused with 9, one refused with 10, luz: shares of 0 to 3 rows, and bytes past the last */
    put_record(records, BYTES(5, 7, 3, 4, 6));
    put_record(records + RECORD, BYTES(5, 7, 8, 4, 6));
    put_record(records + 2 * RECORD, BYTES(5, 7, 8));
    put_record(records + 3 * RECORD, nothing);
    put_record(records + 4 * RECORD, BYTES(5, 10));
    put_record(records + 5 * RECORD, BYTES(5, 7, 8));
    for (size_t room = 0; room < 4 * 6 * ROW; room += 29) {
        size_t share = room / ROW / 6, some = share < 2 ? share : 2;
        struct answer one = share > 0 ? (struct answer){5, luz_row} : (struct answer){2, nothing};
        struct answer answers[] = {{share > 1 ? 9 : 4 * share + 2, first(some * ROW, luces)}, {0, nothing}, one, {refused(9), nothing}, {refused(10), nothing}, one};
        analyse_words("six words", luz, first(6 * RECORD, words), 6 * 8, room, 4 * 6 + 1, answers);
    }

    /* length bytes 0 and over 32 are 9 whatever the letters, and 32 is a length */
    memset(records + 1, 5, 32);
    for (unsigned length = 0; length < 256; length++) {
        records[0] = (uint8_t)length;
        struct answer answer = {length > 0 && length <= 32 ? 0 : refused(9), nothing};
        analyse_words("a length byte", luz, first(RECORD, words), 8, ROW, 5, &answer);
        records[32] = 10;
        answer.reply = length == 32 ? refused(10) : answer.reply;
        analyse_words("a length byte, and a last letter 10", luz, first(RECORD, words), 8, ROW, 5, &answer);
        records[32] = 5;
    }

    /* words by records and by places, neither of them whole; few words, and so many that the forms are indexed too */
    static const size_t parts[] = {0, 1, 7}, record_parts[] = {0, 1, RECORD - 1};
    put_some_words(records);
    for (size_t n = 0; n < MOST_WORDS; n += n < 18 ? 1 : 7)
        for (size_t j = 0; j < 3; j++)
            for (size_t more = 0; more < 2; more++) {
                size_t rooms[] = {0, 1, ROW - 1, ROW, n * ROW - (n > 0), n * ROW, 2 * n * ROW + 1, 3 * n * ROW, 3 * n * ROW + ROW - 1};
                for (size_t k = 0; k < sizeof rooms / sizeof *rooms; k++) {
                    as_alone("words by their records", first(n * RECORD + record_parts[j], words), (n + more) * 8 + parts[j], rooms[k]);
                    as_alone("words by their places", first((n + more) * RECORD + record_parts[j], words), n * 8 + parts[j], rooms[k]);
                }
            }
    /* each word alone, and each as the last of sixteen */
    for (size_t i = 0; i < 24; i++) {
        as_alone("one word", (struct bytes){records + RECORD * i, RECORD}, 8, 3 * ROW);
        as_alone("sixteen words", (struct bytes){records + RECORD * i, 16 * RECORD}, 16 * 8, 16 * 3 * ROW);
    }
}

/* Paths that are refused, by generation and by the judge alike. */
static const struct {
    const char *what;
    uint8_t bytes[36];
    size_t length;
    unsigned k;
} wrong_paths[] = {
    {"empty path", {0}, 0, 11},
    {"1 byte", {0}, 1, 11},
    {"3 bytes", {0, 0, 3}, 3, 11},
    {"33 bytes", {0}, 33, 11},
    {"17 entries", {0}, 34, 11},
    {"path that goes on", {0, 0}, 2, 12},
    {"inner end", {0, 0, 3, 0, 3, 0}, 6, 12},
    {"first from lexicon 1", {3, 0}, 2, 12},
    {"next from lexicon 0", {0, 0, 1, 0, 3, 0}, 6, 12},
    {"no entry 4", {4, 0}, 2, 12},
    {"no entry 259", {0, 0, 3, 1}, 4, 12},
    {"16 entries of 65535", {255, 255, 255, 255, 255, 255, 255, 255, 255, 255, 255, 255, 255, 255, 255, 255, 255, 255, 255, 255, 255, 255, 255, 255, 255, 255, 255, 255, 255, 255, 255, 255}, 32, 12},
};

static void paths(void)
{
    uint8_t row[HEADWORDS_ROW_BYTES];
    struct bytes plural = BYTES(0, 0, 3, 0), rows = {row, sizeof row};
    put_row(row, BYTES(0, 0, 3, 0), BYTES(3, 5, 6, 0, 2, 4));
    for (size_t room = 0; room <= 2 * HEADWORDS_ROW_BYTES; room++)
        generate("path 0 3", luz, plural, room, room < HEADWORDS_ROW_BYTES ? 2 : 5, room < HEADWORDS_ROW_BYTES ? nothing : rows);
    for (size_t i = 0; i < sizeof wrong_paths / sizeof *wrong_paths; i++) {
        struct bytes path = {wrong_paths[i].bytes, wrong_paths[i].length};
        generate(wrong_paths[i].what, luz, path, MOST, refused(wrong_paths[i].k), nothing);
        generate(wrong_paths[i].what, luz, path, 0, refused(wrong_paths[i].k), nothing);
        judge(wrong_paths[i].what, luz, path, BYTES(3, 5, 6, 0, 2, 4), refused(wrong_paths[i].k));
        judge(wrong_paths[i].what, luz, path, nothing, refused(wrong_paths[i].k));
    }
}

static void judgements(void)
{
    struct bytes path = BYTES(0, 0, 3, 0);
    uint8_t pairs[300];
    memset(pairs, 3, sizeof pairs);
    struct bytes long_pairing = {pairs, sizeof pairs};
    judge("reading", luz, path, BYTES(3, 5, 6, 0, 2, 4), 1);
    judge("no reading", luz, path, BYTES(3, 5, 7, 0, 2, 4), 0);
    judge("40 pairs", luz, path, first(40, long_pairing), 0);
    judge("no pairs", luz, path, nothing, refused(13));
    judge("41 pairs", luz, path, first(41, long_pairing), refused(13));
    judge("300 pairs", luz, path, long_pairing, refused(13));
    judge("pair 8", luz, path, BYTES(8), refused(13));
    judge("pair 8 at the end", luz, path, BYTES(3, 5, 6, 0, 2, 8), refused(13));
    judge("pair 255", luz, path, BYTES(255, 5), refused(13));
}

static void forms(void)
{
    static const size_t missing[] = {4, 255, 256, 65535, 65536, SIZE_MAX};
    for (size_t room = 0; room <= 13; room++) {
        form("form 0", luz, 0, room, room < 3 ? 4 * 3 + 2 : 4 * 3 + 1, room < 3 ? nothing : BYTES(5, 7, 9));
        form("form 1", luz, 1, room, room < 3 ? 4 * 3 + 2 : 4 * 3 + 1, room < 3 ? nothing : BYTES(5, 7, 3));
        form("empty form", luz, 2, room, 1, nothing);
        form("form 3", luz, 3, room, room < 3 ? 4 * 3 + 2 : 4 * 3 + 1, room < 3 ? nothing : BYTES(2, 4, 6));
        for (size_t i = 0; i < sizeof missing / sizeof *missing; i++)
            form("no entry", luz, missing[i], room, refused(12), nothing);
    }
}

/* A word of code points that luz has letters for, in rooms around its length. */
static void spelled(const char *what, struct bytes points, struct bytes letters)
{
    for (size_t room = 0; room <= 40; room++) {
        int fits = room >= letters.length;
        spell(what, luz, points, room, fits ? 4 * letters.length + 1 : refused(24), fits ? letters : nothing);
    }
}

/* Code points that are refused with k, in a room where the word would have its place and in none, where a 24 must not come first. */
static void not_spelled(const char *what, struct bytes image, struct bytes points, unsigned k)
{
    spell(what, image, points, 40, refused(k), nothing);
    spell(what, image, points, 0, refused(k), nothing);
}

static void spellings(void)
{
    spelled("luces", POINTS('l', 'u', 'c', 'e', 's'), BYTES(5, 7, 3, 4, 6));
    spelled("Luces", POINTS('L', 'u', 'c', 'e', 's'), BYTES(5, 7, 3, 4, 6));
    spelled("LUCES", POINTS('L', 'U', 'C', 'E', 'S'), BYTES(5, 7, 3, 4, 6));
    spelled("luz", POINTS('l', 'u', 'z'), BYTES(5, 7, 8));
    spelled("Luz", POINTS('L', 'u', 'z'), BYTES(5, 7, 8));
    spelled("luZ", POINTS('l', 'u', 'Z'), BYTES(5, 7, 9));
    spelled("LUZ", POINTS('L', 'U', 'Z'), BYTES(5, 7, 9)); /* Z is a letter, and stays */
    spelled("luZ+es", POINTS('l', 'u', 'Z', '+', 'e', 's'), BYTES(5, 7, 9, 2, 4, 6));
    spelled("+", POINTS('+'), BYTES(2));

    not_spelled("# alone", luz, POINTS('#'), 23);
    not_spelled("# first", luz, POINTS('#', 'l'), 23);
    not_spelled("# inside", luz, POINTS('l', '#', 'z'), 23);
    not_spelled("# last", luz, POINTS('l', 'u', '#'), 23);
    not_spelled("0, which the text has for the null", luz, POINTS('l', 48), 23);
    not_spelled("k", luz, POINTS('l', 'k'), 23);
    not_spelled("K", luz, POINTS('K', 'l'), 23);
    not_spelled("code point 0", luz, POINTS('l', 0), 23);
    not_spelled("code point 65535", luz, POINTS('l', 65535), 23);
    not_spelled("the first surrogate", luz, POINTS('l', 55296), 23);
    not_spelled("the last surrogate", luz, POINTS(57343, 'l'), 23);
    not_spelled("l in the high byte", luz, POINTS(256 * 'l'), 23);
    not_spelled("l in both bytes", luz, POINTS(257 * 'l'), 23);
    not_spelled("l and a high byte", luz, POINTS(256 + 'l'), 23);
    not_spelled("L and a high byte", luz, POINTS(512 + 'L'), 23);

    /* each alone: luz has these letters, and capitals of some; no other code point up to the end of the table, or just after it, becomes one */
    static const char known[] = "+celsuzZCELSU", letters[] = {2, 3, 4, 5, 6, 7, 8, 9, 3, 4, 5, 6, 7};
    for (uint16_t point = 0; point < 400; point++) {
        const char *at = point > 0 && point < 128 ? strchr(known, point) : NULL;
        if (at == NULL)
            not_spelled("a code point alone, which has no letter", luz, POINTS(point), 23);
        else
            spelled("a code point alone", POINTS(point), BYTES((uint8_t)letters[at - known]));
    }
    /* nor does any of the rest: too many to compare the pages around each */
    called = "a code point far above the table";
    for (unsigned point = 400; point < 65536; point++) {
        uint8_t letter, bytes[] = {(uint8_t)(point % 256), (uint8_t)(point / 256)};
        answered(headwords_spell(luz.at, luz.length, bytes, sizeof bytes, &letter, 1), refused(23));
    }
}

/* 9 before all that is wrong with a code point or with the room. */
static void spelling_lengths(void)
{
    static const size_t wrong[] = {0, 1, 3, 63, 65, 66, 67, 128, 255, 256, 257, 512, 513, 514, 600};
    uint8_t capitals[600] = {0}, boundaries[600] = {0}, letters[32];
    struct bytes words[] = {{capitals, 64}, {boundaries, 64}}, thirty_two = {letters, 32};
    for (size_t i = 0; i < sizeof capitals; i += 2) {
        capitals[i] = 'L';
        boundaries[i] = '#';
    }
    memset(letters, 5, sizeof letters);
    spelled("32 code points", words[0], thirty_two);
    not_spelled("32 boundaries", luz, words[1], 23);
    for (size_t w = 0; w < 2; w++)
        for (size_t i = 0; i < sizeof wrong / sizeof *wrong; i++)
            not_spelled("code points of no word's length", luz, first(wrong[i], words[w]), 9);
    capitals[62] = '#';
    not_spelled("# as the last of 32", luz, words[0], 23);
}

/* luz with other code points for some of its letters, two at most, and sealed; it stands until the next call. */
struct change {
    unsigned letter;
    uint16_t point;
};

static struct bytes relettered(struct change one, struct change other)
{
    static uint8_t image[65536];
    memcpy(image, luz.at, luz.length);
    for (int i = 0; i < 2; i++) {
        struct change change = i == 0 ? one : other;
        uint8_t *record = image + 512 + 4 + 2 * (change.letter - 1);
        record[0] = (uint8_t)(change.point % 256);
        record[1] = (uint8_t)(change.point / 256);
    }
    headwords_seal(image, luz.length);
    return (struct bytes){image, luz.length};
}

/* Unicode's simple lower-case mapping of code points 0 to 383, told by its runs and not as a table. */
static uint16_t lowered(uint16_t point)
{
    int even = point % 2 == 0;
    if (point == 0x130)
        return 'i';
    if (point == 0x178)
        return 0xFF;
    if ((point >= 'A' && point <= 'Z') || (point >= 0xC0 && point <= 0xDE && point != 0xD7))
        return point + 32;
    if ((point >= 0x100 && point <= 0x137 && even) || (point >= 0x139 && point <= 0x148 && !even) || (point >= 0x14A && point <= 0x177 && even) || (point >= 0x179 && point <= 0x17E && !even))
        return point + 1;
    return point;
}

static int is_of_luz(uint16_t point)
{
    return point > 0 && point < 128 && strchr("#+celsuzZ", point) != NULL;
}

static void folds(void)
{
    /* é and ÿ, then i and σ */
    struct bytes accents = relettered((struct change){3, 0xE9}, (struct change){4, 0xFF});
    spell("É and Ÿ", accents, POINTS(0xC9, 0x178, 'L', 0xE9, 0xFF), 40, 4 * 5 + 1, BYTES(3, 4, 5, 3, 4));
    not_spelled("E where é is a letter", accents, POINTS('E'), 23);
    not_spelled("C where é has its place", accents, POINTS('C'), 23);
    struct bytes greek = relettered((struct change){3, 'i'}, (struct change){4, 0x3C3});
    spell("İ and σ", greek, POINTS(0x130, 'I', 'i', 0x3C3), 40, 4 * 4 + 1, BYTES(3, 3, 3, 4));
    not_spelled("Σ, which is above 383", greek, POINTS(0x3A3), 23);
    not_spelled("ı, which is no capital", greek, POINTS(0x131), 23);
    struct bytes capital = relettered((struct change){3, 0x3A3}, (struct change){4, 0x178});
    spell("Σ and Ÿ as letters", capital, POINTS(0x3A3, 0x178), 40, 4 * 2 + 1, BYTES(3, 4));
    not_spelled("ÿ where Ÿ is a letter", capital, POINTS(0xFF), 23);

    /* above 383 a capital is no other letter: B with topbar, DŽ, sharp S, the signs of kelvin and angstrom, the last of all */
    static const struct {
        uint16_t point, small;
    } above[] = {{0x182, 0x183}, {0x18E, 0x1DD}, {0x1C4, 0x1C6}, {0x1E9E, 0xDF}, {0x212A, 'k'}, {0x212B, 0xE5}, {0xFF3A, 0xFF5A}};
    for (size_t i = 0; i < sizeof above / sizeof *above; i++) {
        struct bytes image = relettered((struct change){3, above[i].small}, (struct change){4, 'e'});
        spell("the small letter", image, POINTS(above[i].small), 40, 5, BYTES(3));
        not_spelled("a capital above 383", image, POINTS(above[i].point), 23);
        image = relettered((struct change){3, above[i].small}, (struct change){4, above[i].point});
        spell("a capital above 383, which is a letter", image, POINTS(above[i].point, above[i].small), 40, 4 * 2 + 1, BYTES(4, 3));
    }

    /* the whole table: what a code point becomes is letter 3, or the boundary; the code point itself is letter 4, and is not folded */
    for (uint16_t point = 1; point < 384; point++) {
        uint16_t small = lowered(point);
        if (is_of_luz(point) || is_of_luz(small))
            continue;
        spell("folded to letter 3", relettered((struct change){3, small}, (struct change){4, 'e'}), POINTS(point), 40, 5, BYTES(3));
        not_spelled("folded to letter 1", relettered((struct change){1, small}, (struct change){4, 'e'}), POINTS(point), 23);
        if (small == point)
            continue;
        struct bytes both = relettered((struct change){3, small}, (struct change){4, point});
        spell("a capital and its small letter, both letters", both, POINTS(point, small), 40, 4 * 2 + 1, BYTES(4, 3));
    }

    /* letter 1 is c: neither c nor C is a letter of a word; letter 1 is C: it is in the alphabet, and so is not folded to c */
    struct bytes boundary = relettered((struct change){1, 'c'}, (struct change){3, '#'});
    spell("#, which is letter 3", boundary, POINTS('#', 'l'), 40, 4 * 2 + 1, BYTES(3, 5));
    not_spelled("c, which is letter 1", boundary, POINTS('l', 'c'), 23);
    not_spelled("C, which folds to letter 1", boundary, POINTS('C', 'l'), 23);
    boundary = relettered((struct change){1, 'C'}, (struct change){3, 'c'});
    spell("c beside the boundary C", boundary, POINTS('c', 'E'), 40, 4 * 2 + 1, BYTES(3, 4));
    not_spelled("C, which is letter 1", boundary, POINTS('C'), 23);
}

/* What is spelled is a word that analysis takes. */
static void spelled_and_read(void)
{
    uint8_t row[2 * HEADWORDS_ROW_BYTES], letters[32] = {0};
    struct bytes word = {letters, sizeof letters}, points = POINTS('L', 'U', 'C', 'E', 'S');
    put_row(row, BYTES(0, 0, 3, 0), BYTES(3, 5, 6, 0, 2, 4));
    put_row(row + HEADWORDS_ROW_BYTES, BYTES(1, 0, 3, 0), BYTES(3, 5, 1, 0, 2, 4));
    called = "LUCES, to be analysed";
    answered(headwords_spell(luz.at, luz.length, points.at, points.length, letters, sizeof letters), 4 * 5 + 1);
    analyse("LUCES as it is spelled", luz, first(5, word), MOST, 9, (struct bytes){row, sizeof row});
    points = POINTS('L', 'U', 'Z');
    called = "LUZ, to be analysed";
    answered(headwords_spell(luz.at, luz.length, points.at, points.length, letters, sizeof letters), 4 * 3 + 1);
    analyse("LUZ as it is spelled, with Z on the surface", luz, first(3, word), MOST, 0, nothing);
}

/* Every call on an image that is refused with k, once with what it would take and once with what it would refuse. */
static void refused_image(const char *what, struct bytes image, unsigned k)
{
    check(what, image, refused(k));
    analyse(what, image, BYTES(5, 7, 8), MOST, refused(k), nothing);
    analyse(what, image, nothing, MOST, refused(k), nothing);
    static uint8_t records[RECORD * 16];
    for (size_t i = 0; i < 16; i++)
        put_record(records + RECORD * i, BYTES(5, 7, 8));
    for (size_t n = 0; n <= 16; n = n == 1 ? 16 : n + 1)
        analyse_words(what, image, (struct bytes){records, RECORD * n}, 8 * n, MOST, refused(k), NULL);
    generate(what, image, BYTES(0, 0, 3, 0), MOST, refused(k), nothing);
    generate(what, image, BYTES(4), MOST, refused(k), nothing);
    judge(what, image, BYTES(0, 0, 3, 0), BYTES(3, 5, 6, 0, 2, 4), refused(k));
    judge(what, image, nothing, nothing, refused(k));
    judge_rules(what, image, BYTES(3, 5, 6, 0, 2, 4), TEXT("<=> 006 _000002"), refused(k));
    judge_rules(what, image, BYTES(3), TEXT("<=> 255 _"), refused(k));
    judge_rules(what, image, nothing, TEXT("*"), refused(k));
    form(what, image, 0, 12, refused(k), nothing);
    form(what, image, 4, 0, refused(k), nothing);
    spell(what, image, POINTS('l', 'u', 'z'), 3, refused(k), nothing);
    spell(what, image, BYTES('l'), 0, refused(k), nothing);
    spell(what, image, POINTS('l', '#'), 0, refused(k), nothing);
    convert(what, image, luz.length, refused(k), nothing);
    convert(what, image, 0, refused(k), nothing);
}

static void images(void)
{
    static const size_t lengths[] = {0, 1, 511, 513, 3071, 3073, 65535, 65537, 66048};
    static const struct {
        const char *what;
        unsigned k;
        size_t at;
        uint8_t byte;
    } damages[] = {
        {"L = 1", 3, 6, 1},
        {"letters 2 and 3 both 43", 4, 512 + 4 + 2 * 2, 43},
        {"0:0", 5, 1024 + 4, 0},
        {"next state 6 of 5", 6, 1536 + 4 + 2 + 10 + 5, 6},
        {"no column for c:c", 7, 1536 + 4 + 2 + 8, 9},
        {"form length 13", 8, 2560 + 4, 13},
    };
    static uint8_t image[66048];
    struct bytes whole = {image, luz.length}, longest = {image, sizeof image};

    check("luz", luz, 1);
    seal("luz", luz, 1, luz);
    memcpy(image, luz.at, luz.length);
    for (size_t i = 0; i < sizeof lengths / sizeof *lengths; i++) {
        refused_image("image of another length", first(lengths[i], longest), 1);
        seal("image of another length", first(lengths[i], longest), refused(1), nothing);
    }
    for (size_t i = 0; i < luz.length; i += 512) {
        image[i + 7] ^= 1;
        refused_image("byte 7 of a block altered", whole, 2);
        image[i + 7] ^= 1;
        image[i] ^= 1;
        image[i + 510] = 0;
        image[i + 511] ^= 255;
        refused_image("number and check altered", whole, 2);
        seal("number and check altered", whole, 1, luz);
        memcpy(image, luz.at, luz.length);
    }
    for (size_t i = 0; i < sizeof damages / sizeof *damages; i++) {
        image[damages[i].at] = damages[i].byte;
        headwords_seal(image, luz.length);
        refused_image(damages[i].what, whole, damages[i].k);
        seal(damages[i].what, whole, 1, whole);
        memcpy(image, luz.at, luz.length);
    }
}

/* luz with an entry that can never be spelled, by bytes that are changed. Each call refuses it with 14, whatever it is asked for, and sealing seals it; where
 * an entry breaks its layout as well, the refusal is 8. */
static void unspelled(void)
{
    static const struct {
        const char *what;
        unsigned k;
        struct {
            size_t at;
            uint8_t byte;
        } bytes[2];
    } changes[] = {
        {"luz for luZ", 14, {{2567, 8}}},
        {"zuZ for luZ", 14, {{2565, 8}}},
        {"z for the empty entry", 14, {{2596, 1}, {2597, 8}}},
        {"+ez for +es, the last letter of the last entry", 14, {{2615, 8}}},
        {"s on a surface side alone", 14, {{1036, 9}}},
        {"s only inserted", 14, {{1036, 0}}},
        {"luz for luZ, and a continuation past the lexicons", 8, {{2567, 8}, {2593, 2}}},
    };
    static uint8_t image[65536];
    struct bytes whole = {image, luz.length};
    for (size_t i = 0; i < sizeof changes / sizeof *changes; i++) {
        memcpy(image, luz.at, luz.length);
        for (size_t j = 0; j < 2; j++)
            if (changes[i].bytes[j].at > 0)
                image[changes[i].bytes[j].at] = changes[i].bytes[j].byte;
        headwords_seal(image, luz.length);
        refused_image(changes[i].what, whole, changes[i].k);
        seal(changes[i].what, whole, 1, whole);
    }

    /* twelve letters are accepted where each can be spelled */
    memcpy(image, luz.at, luz.length);
    image[2564] = 12;
    memset(image + 2565, 5, 12);
    headwords_seal(image, luz.length);
    check("twelve l", whole, 1);
    image[2576] = 8;
    headwords_seal(image, luz.length);
    refused_image("eleven l and z", whole, 14);
}

/* luz with a rule that fails on the boundary pair at the front and would let all else pass: columns #:#, any:any; rows 1: 0 2; 2: 2 2; both final.
 * It is accepted, and no word or path has a reading. */
static void dead_front(void)
{
    static const uint8_t table[506] = {2, 2, 1, 1, 255, 255, 1, 1, 0, 2, 2, 2};
    static uint8_t image[65536];
    struct bytes dead = {image, luz.length}, plural = BYTES(0, 0, 3, 0);
    memcpy(image, luz.at, luz.length);
    memcpy(image + 1536 + 4, table, sizeof table);
    headwords_seal(image, luz.length);
    check("dead front", dead, 1);
    for (size_t room = 0; room <= 2 * HEADWORDS_ROW_BYTES; room += HEADWORDS_ROW_BYTES) {
        analyse("dead front, luces", dead, BYTES(5, 7, 3, 4, 6), room, 0, nothing);
        generate("dead front, path 0 3", dead, plural, room, 0, nothing);
    }
    judge("dead front, path 0 3", dead, plural, BYTES(3, 5, 6, 0, 2, 4), 0);
    analyse("dead front, empty word", dead, nothing, MOST, refused(9), nothing);
    analyse("dead front, letter 1", dead, BYTES(1), MOST, refused(10), nothing);
    generate("dead front, 1 byte", dead, BYTES(0), MOST, refused(11), nothing);
    generate("dead front, path that goes on", dead, BYTES(0, 0), MOST, refused(12), nothing);
    judge("dead front, pair 8", dead, plural, BYTES(8), refused(13));

    /* with 2 in row 1's first place it is alive */
    image[1536 + 4 + 8] = 2;
    headwords_seal(image, luz.length);
    judge("live front, path 0 3", dead, plural, BYTES(3, 5, 6, 0, 2, 4), 1);
}

int main(int argc, char **argv)
{
    static uint8_t image[65537];
    FILE *file = argc == 2 ? fopen(argv[1], "rb") : NULL;
    if (file != NULL) {
        luz = (struct bytes){image, fread(image, 1, sizeof image, file)};
        fclose(file);
    }
    make_room(IMAGE, 66048);
    make_room(GIVEN, RECORD * MOST_WORDS);
    make_room(PAIRING, 300);
    make_room(REPLIES, 8 * MOST_WORDS);
    make_room(OUT, luz.length > MOST ? luz.length : MOST);
    watch();
    words();
    paths();
    judgements();
    forms();
    spellings();
    spelling_lengths();
    folds();
    spelled_and_read();
    images();
    unspelled();
    dead_front();
    make_room(OUT, 4 * MOST_WORDS * ROW);
    many_words();
    return failures > 0;
}
