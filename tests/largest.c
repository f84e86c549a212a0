/* The C entry at its limits: the largest image there is, with entries, pairs, sets and rules up to the last, listings of more than 65,536 readings, and as many
 * words in one call. */
#define _DEFAULT_SOURCE
#include "built.h"
#include "calls.h"

enum { ROW = HEADWORDS_ROW_BYTES };

/* The largest image. Pairs 0 to 118 are x:x, 119 to 236 are x:x+1, the others x:0 for letters that no form has. The forms of lexicon 0 are two even
 * letters, all unlike. By entry number their paths end there, go on through lexicons 1 to 15, or through lexicons 49 to 63; all these have one entry,
 * which is empty. The first column of every rule but rule 0 has a set on both sides: two letters, and in all sets but the last the boundary too. Only the last
 * rule fails, and only in that column: for 64:64 and 120:120. */
enum { STEMS = 2737, ENTRIES = 2800, SETS = 31, BOUNDARY = 1, LAST = 120 };

static int fails(uint8_t x)
{
    return x == 64 || x == LAST;
}

static void add_sets(struct image *image)
{
    uint8_t *set = add_block(image, 7, SETS);
    for (unsigned k = 0; k < SETS; k++, set += 16) {
        unsigned letters[] = {2 * (k + 2), LAST, k < SETS - 1 ? BOUNDARY : LAST};
        for (size_t i = 0; i < 3; i++)
            set[letters[i] / 8] |= (uint8_t)(1 << letters[i] % 8);
    }
}

static struct bytes letters_of(size_t stem)
{
    static uint8_t letters[2];
    letters[0] = (uint8_t)(2 + 2 * (stem / 60));
    letters[1] = (uint8_t)(2 + 2 * (stem % 60));
    return (struct bytes){letters, 2};
}

static struct entry largest_entry(size_t e)
{
    static const uint8_t after_stem[] = {255, 1, 49};
    size_t lexicon = e - STEMS + 1;
    if (e < STEMS)
        return one_way(letters_of(e), after_stem[e % 3]);
    return one_way(nothing, lexicon == 15 || lexicon == 63 ? 255 : (uint8_t)(lexicon + 1));
}

static struct bytes path_of(size_t stem)
{
    static uint8_t path[32];
    put_two(path, stem);
    for (size_t i = 1; i < 16; i++)
        put_two(path + 2 * i, STEMS - 1 + i + (stem % 3 == 2 ? 48 : 0));
    return (struct bytes){path, stem % 3 == 0 ? 2 : 32};
}

static struct bytes largest(void)
{
    static struct image image;
    add_header(&image, 1, LAST, 250, 32, 64, ENTRIES, SETS);
    uint8_t *pair = add_block(&image, 3, 250);
    for (uint8_t x = 2; x <= 120; x++, pair += 2)
        pair[0] = pair[1] = x;
    for (uint8_t x = 2; x <= 119; x++, pair += 2) {
        pair[0] = x;
        pair[1] = x + 1;
    }
    for (uint8_t x = 3; x <= 27; x += 2, pair += 2)
        pair[0] = x;
    add_sets(&image);
    for (unsigned rule = 0; rule < 32; rule++) {
        uint8_t *table = add_block(&image, 4, 1), *columns = table + 2, *marks = columns + 32, *rows = marks + 24;
        table[0] = 16;
        table[1] = 24;
        for (unsigned c = 0; c < 15; c++)
            columns[2 * c] = columns[2 * c + 1] = (uint8_t)(2 * (rule + c + 1));
        if (rule > 0)
            columns[0] = columns[1] = (uint8_t)(128 + rule - 1);
        columns[30] = columns[31] = 255;
        memset(marks, 1, 24);
        for (unsigned s = 0; s < 24; s++)
            for (unsigned c = 0; c < 16; c++)
                rows[16 * s + c] = rule == 31 && c == 0 ? 0 : (uint8_t)((s + 1) % 24 + 1);
    }
    uint8_t *counts = add_block(&image, 5, 64);
    put_two(counts, STEMS);
    for (size_t lexicon = 1; lexicon < 64; lexicon++)
        put_two(counts + 2 * lexicon, 1);
    add_entries(&image, ENTRIES, largest_entry);
    return sealed(&image);
}

/* Every call on one stem, both of its letters as x:x and as x:x+1. */
static void stem(struct bytes image, size_t e)
{
    enum { ROOM = 5 * ROW + 7 };
    char what[32];
    uint8_t rows[4 * ROW];
    size_t n = 0;
    sprintf(what, "entry %zu of 2800", e);
    struct bytes letters = letters_of(e), path = path_of(e);
    uint8_t x = letters.at[0], y = letters.at[1];
    for (uint8_t i = 0; i < 2; i++)
        for (uint8_t j = 0; j < 2; j++) {
            if (y + j > LAST)
                continue;
            struct bytes word = BYTES(x + i, y + j), pairing = BYTES(i ? 117 + x : x - 2, j ? 117 + y : y - 2);
            int passes = (i || !fails(x)) && (j || !fails(y));
            uint8_t *row = rows + ROW * n;
            put_row(row, path, pairing);
            judge(what, image, path, pairing, passes);
            if (i == j)
                analyse(what, image, word, ROOM, passes ? 5 : 0, (struct bytes){row, passes ? ROW : 0});
            n += passes;
        }
    generate(what, image, path, ROOM, n > 0 ? 4 * n + 1 : 0, (struct bytes){rows, ROW * n});
    form(what, image, e, 12, 4 * 2 + 1, letters);
}

/* Stems as they are, in one call: the edges of entry numbers among them, and one that rule 31 fails. */
static void stems(struct bytes image, const size_t *numbers, size_t count)
{
    enum { MOST = 32 };
    static uint8_t records[MOST * HEADWORDS_WORD_BYTES], rows[MOST * ROW];
    static struct answer answers[MOST];
    for (size_t i = 0; i < count; i++) {
        struct bytes letters = letters_of(numbers[i]);
        uint8_t x = letters.at[0], y = letters.at[1];
        int passes = !fails(x) && !fails(y);
        put_record(records + HEADWORDS_WORD_BYTES * i, letters);
        put_row(rows + ROW * i, path_of(numbers[i]), BYTES(x - 2, y - 2));
        answers[i] = (struct answer){passes ? 5 : 0, {rows + ROW * i, passes ? ROW : 0}};
    }
    analyse_words("stems in one call", image, (struct bytes){records, HEADWORDS_WORD_BYTES * count}, 8 * count, 2 * ROW * count, 4 * count + 1, answers);
}

/* Its letters 1 to 120 are code points 100 to 219: the small letters from d on, and then capitals with accents, which stay. */
static void spellings(struct bytes image)
{
    uint16_t points[32];
    uint8_t letters[32];
    for (size_t i = 0; i < 32; i++) {
        points[i] = 219;
        letters[i] = LAST;
    }
    struct bytes last = points_of(points, 32);
    spell("32 times letter 120", image, last, 32, 4 * 32 + 1, (struct bytes){letters, 32});
    spell("32 times letter 120, and a letter's room less", image, last, 31, refused(24), nothing);
    spell("E, e, Z, z, À, Û", image, POINTS('E', 'e', 'Z', 'z', 192, 219), 32, 4 * 6 + 1, BYTES(2, 2, 23, 23, 93, LAST));
    spell("D, which folds to letter 1", image, POINTS('E', 'D'), 32, refused(23), nothing);
    spell("C, before the first", image, POINTS('E', 'C'), 32, refused(23), nothing);
    spell("Ü, past the last", image, POINTS('E', 220), 32, refused(23), nothing);
    spell("à, whose capital is a letter", image, POINTS('E', 224), 32, refused(23), nothing);
}

static void entries(struct bytes image)
{
    static const size_t edges[] = {255, 256, 1023, 1024, 2047, 2048, 2049, STEMS - 2, STEMS - 1, 0, 31, 59, 60, 62, 1891, 2700};
    check("largest image", image, image.length == 128 * BLOCK ? 1 : 0);
    for (size_t e = 0; e < STEMS; e += 59)
        stem(image, e);
    for (size_t i = 0; i < sizeof edges / sizeof *edges; i++)
        stem(image, edges[i]);
    for (size_t count = 0; count <= sizeof edges / sizeof *edges; count++)
        stems(image, edges, count);
    form("entry 2799", image, ENTRIES - 1, 12, 1, nothing);
    form("entry 2800", image, ENTRIES, 12, refused(12), nothing);
    generate("entry 2800", image, BYTES(ENTRIES % 256, ENTRIES / 256), ROW, refused(12), nothing);
    judge("pair 250", image, path_of(2048), BYTES(0, 250), refused(13));
    analyse("letter 121", image, BYTES(2, 121), ROW, refused(10), nothing);
    spellings(image);
}

/* 128 blocks of nothing: sealed, and then refused for their form. */
static void zeros(void)
{
    static uint8_t before[128 * BLOCK], after[128 * BLOCK];
    for (size_t k = 0; k < 128; k++) {
        after[BLOCK * k] = (uint8_t)k;
        after[BLOCK * k + 510] = (uint8_t)(1 + k);
    }
    struct bytes image = {after, sizeof after};
    seal("128 blocks", (struct bytes){before, sizeof before}, 1, image);
    check("128 blocks", image, refused(3));
    analyse("128 blocks", image, BYTES(2), ROW, refused(3), nothing);
}

/* A word and a path with many readings. Letter 2 may be written as each of 41 letters, so that entry 0, of three letters, is written in 41 * 41 * 41
 * ways. The other 256 entries of lexicon 0 and the 257 of lexicon 1 are all alike, so that there are 256 * 257 paths for two letters. */
enum { WAYS = 41, FIRSTS = 256, SECONDS = 257 };

static struct entry alike(size_t e)
{
    static const uint8_t letters[] = {2, 2, 2};
    return one_way((struct bytes){letters, e == 0 ? 3 : 1}, 0 < e && e <= FIRSTS ? 1 : 255);
}

static struct bytes many(void)
{
    static struct image image;
    add_header(&image, 1, WAYS + 1, WAYS, 0, 2, 1 + FIRSTS + SECONDS, 0);
    uint8_t *pairs = add_block(&image, 3, WAYS);
    for (uint8_t i = 0; i < WAYS; i++) {
        pairs[2 * i] = 2;
        pairs[2 * i + 1] = 2 + i;
    }
    uint8_t *counts = add_block(&image, 5, 2);
    put_two(counts, 1 + FIRSTS);
    put_two(counts + 2, SECONDS);
    add_entries(&image, 1 + FIRSTS + SECONDS, alike);
    return sealed(&image);
}

/* A listing of so many rows into buffers around 65,536 rows and around them all. */
static void listed(listing *call, const char *what, struct bytes image, struct bytes given, const uint8_t *rows, size_t all)
{
    const size_t rooms[] = {65535, 65536, 65537, all - 1, all, all + 1};
    for (size_t i = 0; i < sizeof rooms / sizeof *rooms; i++) {
        size_t n = rooms[i] < all ? rooms[i] : all;
        list(call, what, image, given, ROW * rooms[i], 4 * n + (n < all ? 2 : 1), (struct bytes){rows, ROW * n});
    }
}

static void readings(void)
{
    enum { WORDS = WAYS * WAYS * WAYS, PATHS = FIRSTS * SECONDS };
    struct bytes image = many();
    uint8_t *rows = malloc(ROW * WORDS), path[4];
    if (rows == NULL)
        exit(2);
    make_room(OUT, ROW * (WORDS + 1));
    for (size_t k = 0; k < PATHS; k++) {
        put_two(path, 1 + k / SECONDS);
        put_two(path + 2, 1 + FIRSTS + k % SECONDS);
        put_row(rows + ROW * k, (struct bytes){path, 4}, BYTES(0, 0));
    }
    listed(headwords_analyse, "a word with 65792 readings", image, BYTES(2, 2), rows, PATHS);
    uint8_t record[HEADWORDS_WORD_BYTES];
    put_record(record, BYTES(2, 2));
    struct answer answer = {4 * (uint64_t)PATHS + 1, {rows, ROW * PATHS}};
    analyse_words("a word with 65792 readings in its share", image, (struct bytes){record, sizeof record}, 8, ROW * PATHS, 5, &answer);
    for (size_t k = 0; k < WORDS; k++)
        put_row(rows + ROW * k, BYTES(0, 0), BYTES((uint8_t)(k / WAYS / WAYS), (uint8_t)(k / WAYS % WAYS), (uint8_t)(k % WAYS)));
    listed(headwords_generate, "a path with 68921 readings", image, BYTES(0, 0), rows, WORDS);
    free(rows);
}

/* More words than two bytes count. They are empty but for the last, which has a reading. */
static void many_words(struct bytes image)
{
    enum { WORDS = 65537 };
    uint8_t *records = calloc(WORDS, HEADWORDS_WORD_BYTES), row[ROW];
    struct answer *answers = malloc(WORDS * sizeof *answers);
    if (records == NULL || answers == NULL)
        exit(2);
    for (size_t i = 0; i < WORDS; i++)
        answers[i] = (struct answer){refused(9), nothing};
    put_record(records + HEADWORDS_WORD_BYTES * (WORDS - 1), letters_of(0));
    put_row(row, path_of(0), BYTES(0, 0));
    answers[WORDS - 1] = (struct answer){5, {row, ROW}};
    make_room(GIVEN, WORDS * HEADWORDS_WORD_BYTES);
    make_room(REPLIES, WORDS * 8);
    analyse_words("65537 words", image, (struct bytes){records, WORDS * HEADWORDS_WORD_BYTES}, WORDS * 8, WORDS * ROW, 4 * (uint64_t)WORDS + 1, answers);
    free(records);
    free(answers);
}

int main(void)
{
    make_room(IMAGE, 128 * BLOCK);
    make_room(GIVEN, 32 * HEADWORDS_WORD_BYTES);
    make_room(PAIRING, 2);
    make_room(REPLIES, 32 * 8);
    make_room(OUT, 64 * ROW);
    watch();
    struct bytes image = largest();
    entries(image);
    zeros();
    readings();
    many_words(image);
    return failures > 0;
}
