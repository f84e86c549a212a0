/* The C entry on images of form 2, whose entries may end and go on in several ways, and the converter between the forms: replies, refusals, rows in step order
 * and every lent byte.
 * Usage: continuations IMAGE, which is luz */
#define _DEFAULT_SOURCE
#include "built.h"
#include "calls.h"

static struct bytes luz;

enum { ROW = HEADWORDS_ROW_BYTES, ROOM = 5 * ROW + 7, LONGEST = MOST_BLOCKS * BLOCK };

/* A grammar of either form with the letters # l x, no rules, and these pairs and lexicons. */
enum { L = 2, X = 3, NULL_LETTER = 0 };

struct lexicons {
    size_t counts[64], count;
    const struct entry *entries;
};

static const struct entry *entries_built;

static struct entry entry_built(size_t e)
{
    return entries_built[e];
}

static struct bytes built(unsigned form, struct bytes pairs, struct lexicons lexicons)
{
    static struct image images[2];
    struct image *image = &images[form - 1];
    size_t entries = 0;
    for (size_t x = 0; x < lexicons.count; x++)
        entries += lexicons.counts[x];
    add_header(image, form, 3, pairs.length / 2, 0, lexicons.count, entries, 0);
    memcpy(add_block(image, 3, pairs.length / 2), pairs.at, pairs.length);
    uint8_t *counts = add_block(image, 5, lexicons.count);
    for (size_t x = 0; x < lexicons.count; x++)
        put_two(counts + 2 * x, lexicons.counts[x]);
    entries_built = lexicons.entries;
    add_entries(image, entries, entry_built);
    return sealed(image);
}

#define FORM(...) BYTES(__VA_ARGS__)
#define PATH(...) BYTES(__VA_ARGS__)

/* The rows of a word, in buffers of fewer rows and of more. */
static void rows_of(const char *what, struct bytes image, struct bytes word, struct bytes rows)
{
    size_t all = rows.length / ROW;
    for (size_t room = 0; room <= all + 1; room++) {
        size_t n = room < all ? room : all;
        analyse(what, image, word, ROW * room + room % 3, all == 0 ? 0 : 4 * n + (n < all ? 2 : 1), first(ROW * n, rows));
    }
}

/* luz in form 2 without its empty entry: luZ and luc may stop, or go on with +es. */
static const struct entry luz_entries[] = {
    {{(const uint8_t[]){5, 7, 9}, 3}, 1, 2},
    {{(const uint8_t[]){5, 7, 3}, 3}, 1, 2},
    {{(const uint8_t[]){2, 4, 6}, 3}, 1, 0},
};

/* All of luz but its entries, in form 2, which then has three. */
static struct bytes luz_2(void)
{
    static struct image image;
    image.length = 5 * BLOCK;
    image.form = 2;
    memcpy(image.bytes, luz.at, image.length);
    image.bytes[4] = 2;
    image.bytes[14] = 3;
    image.bytes[4 * BLOCK + 6] = 1;
    entries_built = luz_entries;
    add_entries(&image, 3, entry_built);
    return sealed(&image);
}

static void luz_in_form_2(void)
{
    struct bytes image = luz_2();
    uint8_t row[2 * ROW];
    struct bytes rows = {row, sizeof row};
    check("luz in form 2", image, 1);
    put_row(row, PATH(0, 0, 2, 0), BYTES(3, 5, 6, 0, 2, 4));
    put_row(row + ROW, PATH(1, 0, 2, 0), BYTES(3, 5, 1, 0, 2, 4));
    rows_of("luces in form 2", image, BYTES(5, 7, 3, 4, 6), rows);
    generate("luZ and +es", image, PATH(0, 0, 2, 0), ROOM, 5, first(ROW, rows));
    rows_of("luzes in form 2", image, BYTES(5, 7, 8, 4, 6), nothing);
    put_row(row, PATH(0, 0), BYTES(3, 5, 7));
    rows_of("luz in form 2", image, BYTES(5, 7, 8), first(ROW, rows));
    generate("luZ alone", image, PATH(0, 0), ROOM, 5, first(ROW, rows));
    put_row(row, PATH(1, 0), BYTES(3, 5, 1));
    rows_of("luc in form 2", image, BYTES(5, 7, 3), first(ROW, rows));

    judge("luZ alone", image, PATH(0, 0), BYTES(3, 5, 7), 1);
    judge("luZ alone, as luc", image, PATH(0, 0), BYTES(3, 5, 6), 0);
    judge("luZ and +es", image, PATH(0, 0, 2, 0), BYTES(3, 5, 6, 0, 2, 4), 1);
    static const struct {
        const char *what;
        uint8_t bytes[6];
        size_t length;
    } wrong[] = {
        {"+es alone", {2, 0}, 2},
        {"no entry 3", {3, 0}, 2},
        {"luZ and luc", {0, 0, 1, 0}, 4},
        {"+es twice", {0, 0, 2, 0, 2, 0}, 6},
    };
    for (size_t i = 0; i < sizeof wrong / sizeof *wrong; i++) {
        struct bytes path = {wrong[i].bytes, wrong[i].length};
        generate(wrong[i].what, image, path, ROOM, refused(12), nothing);
        judge(wrong[i].what, image, path, BYTES(3), refused(12));
    }
    form("+es in form 2", image, 2, 12, 4 * 3 + 1, BYTES(2, 4, 6));
    form("no entry 3 in form 2", image, 3, 12, refused(12), nothing);
    spell("Luz in form 2", image, POINTS('L', 'u', 'z'), 3, 4 * 3 + 1, BYTES(5, 7, 8));
    judge_rules("luces in form 2", image, BYTES(3, 5, 6, 0, 2, 4), TEXT("<=> 006 _000002"), 1);

    /* as many words as the forms are indexed for, and few */
    uint8_t records[16 * HEADWORDS_WORD_BYTES];
    struct answer answers[16];
    put_row(row, PATH(0, 0), BYTES(3, 5, 7));
    for (size_t i = 0; i < 16; i++) {
        put_record(records + HEADWORDS_WORD_BYTES * i, BYTES(5, 7, 8));
        answers[i] = (struct answer){5, first(ROW, rows)};
    }
    for (size_t n = 1; n <= 16; n += 5)
        analyse_words("luz in form 2, many times", image, (struct bytes){records, HEADWORDS_WORD_BYTES * n}, 8 * n, ROW * n, 4 * n + 1, answers);
}

/* An ending comes before every entry, and ahead of the insertion: by document 01's step lists 0 1 would be first. */
static void order(void)
{
    const struct entry entries[] = {{FORM(L), 1, 2}, {nothing, 1, 0}};
    struct bytes image = built(2, BYTES(L, L, X, X, NULL_LETTER, X), (struct lexicons){{1, 1}, 2, entries});
    uint8_t row[2 * ROW];
    struct bytes rows = {row, sizeof row};
    put_row(row, PATH(0, 0), BYTES(0, 2));
    put_row(row + ROW, PATH(0, 0, 1, 0), BYTES(0, 2));
    rows_of("an ending ahead of an insertion", image, BYTES(L, X), rows);
    put_row(row, PATH(0, 0), BYTES(0));
    put_row(row + ROW, PATH(0, 0, 1, 0), BYTES(0));
    rows_of("an ending ahead of an empty entry", image, BYTES(L), rows);
}

static void several_lexicons(void)
{
    const struct entry entries[] = {{FORM(L), 0, 6}, {nothing, 1, 0}, {FORM(X), 1, 0}, {FORM(X), 1, 0}};
    struct bytes image = built(2, BYTES(L, L, X, X), (struct lexicons){{1, 2, 1}, 3, entries});
    uint8_t row[2 * ROW];
    struct bytes rows = {row, sizeof row};
    put_row(row, PATH(0, 0, 2, 0), BYTES(0, 1));
    put_row(row + ROW, PATH(0, 0, 3, 0), BYTES(0, 1));
    rows_of("two lexicons", image, BYTES(L, X), rows);
    generate("the second lexicon", image, PATH(0, 0, 3, 0), ROOM, 5, (struct bytes){row + ROW, ROW});
    put_row(row, PATH(0, 0, 1, 0), BYTES(0));
    rows_of("the empty entry of the first", image, BYTES(L), first(ROW, rows));
    generate("a path that may not stop", image, PATH(0, 0), ROOM, refused(12), nothing);
}

/* Path and pairing of so many l, entry 0 again and again. */
static void circle(void)
{
    const struct entry entries[] = {{FORM(L), 1, 1}};
    struct bytes image = built(2, BYTES(L, L), (struct lexicons){{1}, 1, entries});
    uint8_t row[ROW], word[17], zeros[32] = {0};
    memset(word, L, sizeof word);
    put_row(row, (struct bytes){zeros, 32}, (struct bytes){zeros, 16});
    rows_of("sixteen l", image, (struct bytes){word, 16}, (struct bytes){row, ROW});
    rows_of("seventeen l", image, (struct bytes){word, 17}, nothing);

    /* the empty entry comes round too: of the paths of 1 to 16 entries with one l there are 136 */
    const struct entry both[] = {{nothing, 1, 1}, {FORM(L), 1, 1}};
    image = built(2, BYTES(L, L), (struct lexicons){{2}, 1, both});
    uint8_t *all = malloc(136 * ROW), path[32];
    size_t n = 0;
    if (all == NULL)
        exit(2);
    for (size_t zeros_before = 16; zeros_before-- > 0;)
        for (size_t after = 0; zeros_before + 1 + after <= 16; after++, n++) {
            memset(path, 0, sizeof path);
            path[2 * zeros_before] = 1;
            put_row(all + ROW * n, (struct bytes){path, 2 * (zeros_before + 1 + after)}, BYTES(0));
        }
    analyse("one l among empty entries", image, BYTES(L), 136 * ROW, 4 * 136 + 1, (struct bytes){all, 136 * ROW});
    analyse("one l among empty entries, a row less", image, BYTES(L), 136 * ROW - 1, 4 * 135 + 2, (struct bytes){all, 135 * ROW});
    free(all);
}

/* Each lexicon by its bit, alone and beside all others: entry 0 goes on to lexicon x, whose one entry is l; those of the others are x. */
static void bits(void)
{
    const struct bytes l = FORM(L), other = FORM(X);
    struct entry entries[64];
    uint8_t row[ROW];
    for (size_t x = 1; x < 64; x++) {
        struct lexicons lexicons = {{0}, 64, entries};
        for (size_t i = 0; i < 64; i++) {
            lexicons.counts[i] = 1;
            entries[i] = (struct entry){i == x ? l : other, 1, 0};
        }
        entries[0] = (struct entry){l, 0, (uint64_t)1 << x};
        struct bytes image = built(2, BYTES(L, L, X, X), lexicons);
        put_row(row, PATH(0, 0, (uint8_t)x, 0), BYTES(0, 0));
        analyse("a lexicon by its bit", image, BYTES(L, L), ROW, 5, (struct bytes){row, ROW});
        analyse("no other lexicon", image, BYTES(L, X), ROW, 0, nothing);
        entries[0].lexicons = UINT64_MAX;
        image = built(2, BYTES(L, L, X, X), lexicons);
        analyse("a lexicon among all", image, BYTES(L, L), 2 * ROW, 5, (struct bytes){row, ROW});
    }
}

/* A lexicon may be empty: a way to it is a way on, and leads nowhere. */
static void empty_lexicon(void)
{
    const struct entry marked[] = {{FORM(L), 1, 2}}, unmarked[] = {{FORM(L), 0, 2}};
    uint8_t row[ROW];
    put_row(row, PATH(0, 0), BYTES(0));
    struct bytes image = built(2, BYTES(L, L), (struct lexicons){{1, 0}, 2, marked});
    rows_of("an ending beside an empty lexicon", image, BYTES(L), (struct bytes){row, ROW});
    convert("an ending beside an empty lexicon", image, image.length, refused(15), nothing);
    image = built(2, BYTES(L, L), (struct lexicons){{1, 0}, 2, unmarked});
    rows_of("an empty lexicon alone", image, BYTES(L), nothing);
    struct bytes other = built(1, BYTES(L, L), (struct lexicons){{1, 0}, 2, unmarked});
    convert("an empty lexicon alone", image, other.length, 1, other);
}

/* As many entries as form 2 has blocks for, all but one in lexicon 63: entry 0 ends or goes on with each of them. */
static struct entry longest_entry(size_t e)
{
    static const uint8_t letters[] = {L};
    return (struct entry){{letters, 1}, 1, e == 0 ? (uint64_t)1 << 63 : 0};
}

static void longest(void)
{
    enum { ENTRIES = 2604, LAST = ENTRIES - 1 };
    static struct image longest;
    uint8_t *rows = malloc(ROW * LAST), path[4] = {0};
    if (rows == NULL)
        exit(2);
    add_header(&longest, 2, 3, 1, 0, 64, ENTRIES, 0);
    memcpy(add_block(&longest, 3, 1), (const uint8_t[]){L, L}, 2);
    uint8_t *counts = add_block(&longest, 5, 64);
    put_two(counts, 1);
    put_two(counts + 2 * 63, LAST);
    add_entries(&longest, ENTRIES, longest_entry);
    struct bytes image = sealed(&longest);
    check("2604 entries in form 2", image, image.length == LONGEST ? 1 : 0);
    for (size_t e = 1; e <= LAST; e++) {
        put_two(path + 2, e);
        put_row(rows + ROW * (e - 1), (struct bytes){path, 4}, BYTES(0, 0));
    }
    analyse("2603 readings", image, BYTES(L, L), 5 * ROW, 4 * 5 + 2, (struct bytes){rows, 5 * ROW});
    analyse("2603 readings, all", image, BYTES(L, L), ROW * LAST, 4 * LAST + 1, (struct bytes){rows, ROW * LAST});
    generate("the last entry", image, (struct bytes){path, 4}, ROOM, 5, (struct bytes){rows + ROW * (LAST - 1), ROW});
    judge("the last entry", image, (struct bytes){path, 4}, BYTES(0, 0), 1);
    form("the last entry", image, LAST, 12, 5, BYTES(L));
    form("no entry 2604", image, ENTRIES, 12, refused(12), nothing);
    put_row(rows, PATH(0, 0), BYTES(0));
    rows_of("entry 0 alone", image, BYTES(L), (struct bytes){rows, ROW});
    free(rows);
}

/* One byte of luz in form 2, and the refusal that it brings. */
static void damaged(const char *what, size_t at, uint8_t byte, unsigned k)
{
    static uint8_t bytes[6 * BLOCK];
    struct bytes image = luz_2(), changed = {bytes, image.length};
    memcpy(bytes, image.at, image.length);
    bytes[at] = byte;
    headwords_seal(bytes, image.length);
    check(what, changed, k == 0 ? 1 : refused(k));
    if (k > 0) {
        analyse(what, changed, BYTES(5, 7, 8), ROOM, refused(k), nothing);
        convert(what, changed, 0, refused(k), nothing);
    }
}

static void refusals(void)
{
    enum { FIRST = 5 * BLOCK + 4, LAST = FIRST + 2 * 24 };
    for (unsigned mark = 2; mark < 256; mark++)
        damaged("an end mark over 1", (mark % 2 ? FIRST : LAST) + 13, (uint8_t)mark, 8);
    damaged("no mark, but a bit", FIRST + 13, 0, 0);
    damaged("neither mark nor bit", LAST + 13, 0, 8);
    damaged("both lexicons", FIRST + 16, 3, 0);
    for (unsigned x = 2; x < 64; x++)
        damaged("a bit for a missing lexicon", (x % 2 ? FIRST : LAST) + 16 + x / 8, (uint8_t)(1 << x % 8), 8);
    damaged("form length 13", LAST, 13, 8);
    damaged("a letter that can't be spelled", LAST + 1, 8, 14);
    damaged("a byte after the last entry", LAST + 24, 1, 3);
    damaged("four entries in the header", 14, 4, 3);
    for (unsigned form = 0; form < 256; form++)
        if (form != 1 && form != 2)
            damaged("another form", 4, (uint8_t)form, 3);
    damaged("form 258", 5, 1, 3);
    damaged("form 2 called form 1", 4, 1, 3);

    static uint8_t bytes[6 * BLOCK];
    struct bytes image = {bytes, luz.length};
    memcpy(bytes, luz.at, luz.length);
    bytes[4] = 2;
    headwords_seal(bytes, luz.length);
    check("form 1 called form 2", image, refused(8));
    bytes[4] = 1;
    bytes[5] = 1;
    headwords_seal(bytes, luz.length);
    check("form 257", image, refused(3));
}

/* luz there and back: its 3,072 bytes with the checks that the papers give. */
static void luz_converted(void)
{
    static const unsigned checks[] = {250, 11848, 1207, 9415, 52, 2677};
    const struct entry entries[] = {{FORM(5, 7, 9), 0, 2}, {FORM(5, 7, 3), 0, 2}, {nothing, 1, 0}, {FORM(2, 4, 6), 1, 0}};
    static struct image image;
    image.length = 5 * BLOCK;
    image.form = 2;
    memcpy(image.bytes, luz.at, image.length);
    image.bytes[4] = 2;
    entries_built = entries;
    add_entries(&image, 4, entry_built);
    struct bytes two = sealed(&image);
    called = "the checks of luz in form 2";
    for (size_t i = 0; i < 6; i++)
        answered(two.at[BLOCK * i + 510] + 256u * two.at[BLOCK * i + 511], checks[i]);
    for (size_t room = 0; room <= 8 * BLOCK; room += room % BLOCK < 2 || room % BLOCK > 508 ? 1 : 101) {
        int fits = room == luz.length;
        convert("luz to form 2", luz, room, fits ? 1 : refused(17), fits ? two : nothing);
        convert("luz back to form 1", two, room, fits ? 1 : refused(17), fits ? luz : nothing);
    }
    uint8_t row[2 * ROW];
    put_row(row, PATH(0, 0, 3, 0), BYTES(3, 5, 6, 0, 2, 4));
    put_row(row + ROW, PATH(1, 0, 3, 0), BYTES(3, 5, 1, 0, 2, 4));
    rows_of("luces by luz as it is converted", two, BYTES(5, 7, 3, 4, 6), (struct bytes){row, sizeof row});
}

/* So many entries: of one way each, to every lexicon and to the end by turns, and those of `several` with two. */
static size_t several[2] = {SIZE_MAX, SIZE_MAX};

static struct entry by_turns(size_t e)
{
    static const uint8_t letters[] = {L, X, L, X, L, X, L, X, L, X, L, X};
    struct entry entry = one_way((struct bytes){letters, e % 13}, e % 65 == 64 ? 255 : (uint8_t)(e % 65));
    if (e == several[0])
        entry.ends = 1;
    if (e == several[1])
        entry.lexicons |= (uint64_t)1 << 63 | 1;
    return entry;
}

static struct bytes many(unsigned form, size_t entries)
{
    static struct image images[2];
    struct image *image = &images[form - 1];
    add_header(image, form, 3, 2, 0, 64, entries, 0);
    memcpy(add_block(image, 3, 2), (const uint8_t[]){L, L, X, X}, 4);
    put_two(add_block(image, 5, 64) + 2 * 63, entries);
    add_entries(image, entries, by_turns);
    return sealed(image);
}

static void blocks(void)
{
    static const size_t counts[] = {1, 20, 21, 22, 30, 31, 32, 42, 43, 62, 63, 64, 93, 94, 651, 652, 2603, 2604};
    for (size_t i = 0; i < sizeof counts / sizeof *counts; i++) {
        struct bytes one = many(1, counts[i]), two = many(2, counts[i]);
        convert("entries to form 2", one, two.length, 1, two);
        convert("entries back to form 1", two, one.length, 1, one);
        convert("a block too many for form 2", one, two.length + BLOCK, refused(17), nothing);
        convert("a byte too few for form 2", one, two.length - 1, refused(17), nothing);
        convert("a block too few for form 1", two, one.length - BLOCK, refused(17), nothing);
        convert("no target", two, 0, refused(17), nothing);
    }
    static const size_t too_many[] = {2605, 2800};
    for (size_t i = 0; i < 2; i++) {
        struct bytes one = many(1, too_many[i]);
        check("too many for form 2", one, 1);
        for (size_t room = 0; room <= LONGEST + BLOCK; room += LONGEST / 2 + BLOCK / 2)
            convert("too many for form 2", one, room, refused(16), nothing);
        convert("too many for form 2", one, one.length, refused(16), nothing);
    }
}

/* More than one way on, of one entry alone: 15, whatever the target. */
static void several_ways(void)
{
    static const size_t places[] = {0, 1, 20, 21, 41, 42, 99};
    for (size_t i = 0; i < sizeof places / sizeof *places; i++)
        for (size_t kind = 0; kind < 2; kind++) {
            several[kind] = places[i];
            struct bytes two = many(2, 100), one;
            several[kind] = SIZE_MAX;
            one = many(1, 100);
            check("an entry of two ways", two, 1);
            convert("an entry of two ways, back", two, one.length, refused(15), nothing);
            convert("an entry of two ways and no target", two, 0, refused(15), nothing);
            convert("an entry of two ways and its own length", two, two.length, refused(15), nothing);
        }
    struct bytes image = luz_2();
    convert("luz without its empty entry, back", image, 6 * BLOCK, refused(15), nothing);

    /* a letter that can't be spelled is told first */
    const struct entry entries[] = {{FORM(X), 1, 1}};
    image = built(2, BYTES(L, L), (struct lexicons){{1}, 1, entries});
    convert("an entry of two ways that can't be spelled", image, 0, refused(14), nothing);
}

int main(int argc, char **argv)
{
    static uint8_t image[65537];
    FILE *file = argc == 2 ? fopen(argv[1], "rb") : NULL;
    if (file == NULL)
        return 2;
    luz = (struct bytes){image, fread(image, 1, sizeof image, file)};
    fclose(file);
    make_room(IMAGE, LONGEST);
    make_room(GIVEN, 16 * HEADWORDS_WORD_BYTES);
    make_room(PAIRING, 40);
    make_room(REPLIES, 16 * 8);
    make_room(OUT, 2604 * ROW);
    watch();
    luz_in_form_2();
    order();
    several_lexicons();
    circle();
    bits();
    empty_lexicon();
    longest();
    refusals();
    luz_converted();
    blocks();
    several_ways();
    return failures > 0;
}
