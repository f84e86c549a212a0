/* The C entry on grammars that leave a search much to try and little to find: hostile FOLDER, with the images that tests/hostile.sh puts there. A call
 * that does not end is ended by a signal. */
#define _DEFAULT_SOURCE
#include "built.h"
#include "calls.h"

enum { SECONDS = 10, LONGEST = 128 * 512, ROW = HEADWORDS_ROW_BYTES, WORDS = 16 };

static uint8_t image_bytes[LONGEST];

static void late(int signal)
{
    (void)signal;
    printf("%s: not answered within %d seconds\n", called, SECONDS);
    fflush(stdout);
    _exit(1);
}

/* Says so where nothing has failed since. */
static void passed(unsigned before, const char *name, const char *what)
{
    alarm(0);
    if (failures == before)
        printf("%s: %s\n", name, what);
}

static struct bytes image_of(const char *folder, const char *name)
{
    char path[4096];
    snprintf(path, sizeof path, "%s/%s.img", folder, name);
    FILE *file = fopen(path, "rb");
    if (!file) {
        perror(path);
        exit(2);
    }
    struct bytes image = {image_bytes, fread(image_bytes, 1, LONGEST, file)};
    fclose(file);
    return image;
}

/* The word in one call with itself, sixteen times, each with a share of so many rows. */
static void sixteen(const char *name, struct bytes image, struct bytes word, size_t share, uint64_t reply, struct bytes rows)
{
    uint8_t records[WORDS * HEADWORDS_WORD_BYTES];
    struct answer answers[WORDS];
    for (size_t i = 0; i < WORDS; i++) {
        put_record(records + HEADWORDS_WORD_BYTES * i, word);
        answers[i] = (struct answer){reply, rows};
    }
    analyse_words(name, image, (struct bytes){records, sizeof records}, 8 * WORDS, share * WORDS, 4 * WORDS + 1, answers);
}

/* The image in form 2, and in it every entry may stop where that is asked for. */
static struct bytes in_form_2(struct bytes image, int all_stop)
{
    static uint8_t bytes[LONGEST];
    size_t entries = image.at[14] + 256u * image.at[15], ahead = image.length / 512 - (entries + 30) / 31;
    struct bytes two = {bytes, 512 * (ahead + (entries + 20) / 21)};
    if (headwords_convert(image.at, image.length, bytes, two.length) != 1) {
        printf("%s: not converted\n", called);
        exit(1);
    }
    for (size_t e = 0; all_stop && e < entries; e++)
        bytes[512 * (ahead + e / 21) + 4 + 24 * (e % 21) + 13] = 1;
    headwords_seal(bytes, two.length);
    return two;
}

/* Neither the word of so many letters a nor the path of entry 0 so many times and then the entry that ends has a reading: by the image, by the same in form 2,
 * and where every entry may stop as well. */
static void none(const char *folder, const char *name, size_t letters, size_t entries, uint8_t last)
{
    struct bytes image = image_of(folder, name);
    uint8_t word[32], path[32] = {0};
    memset(word, 2, sizeof word);
    path[2 * entries] = last;
    unsigned before = failures;
    called = name;
    for (int form = 0; form < 3; form++) {
        struct bytes by = form == 0 ? image : in_form_2(image, form == 2);
        alarm(SECONDS);
        list(headwords_analyse, name, by, (struct bytes){word, letters}, 3 * ROW, 0, nothing);
        sixteen(name, by, (struct bytes){word, letters}, 3 * ROW, 0, nothing);
        list(headwords_generate, name, by, (struct bytes){path, 2 * entries + 2}, 3 * ROW, 0, nothing);
    }
    passed(before, name, "no reading of the word, and none of a path, in either form and where every entry may stop");
}

/* Two readings, with much between them that leads nowhere: what is written before the search is found to be long is written again. */
static void between(const char *folder, const char *name)
{
    struct bytes image = image_of(folder, name);
    uint8_t rows[2 * ROW];
    put_row(rows, BYTES(0, 0), BYTES(0));
    put_row(rows + ROW, BYTES(2, 0, 8, 0), BYTES(0));
    unsigned before = failures;
    called = name;
    alarm(SECONDS);
    for (size_t room = 0; room <= 3; room++) {
        uint64_t reply = room < 2 ? 4 * room + 2 : 4 * 2 + 1;
        struct bytes written = {rows, (room < 2 ? room : 2) * ROW};
        for (int form = 1; form <= 2; form++) {
            struct bytes by = form == 1 ? image : in_form_2(image, 0);
            list(headwords_analyse, name, by, BYTES(2), room * ROW, reply, written);
            sixteen(name, by, BYTES(2), room * ROW, reply, written);
        }
    }
    passed(before, name, "both readings, in buffers of 0 to 3 rows, in either form");
}

/* Entries of form 2 that have a circle without end as their first way on, and are told apart by their others: a dead end of one is none of the next. Of lexicon
 * 0 the first four have the letter l: the first goes to the circle alone, the second ends as well, the third goes to lexicon 2 as well, which has x, the fourth
 * to lexicon 3, which has an empty entry. The fifth is empty and goes to the circle and to lexicon 4, which has l. */
enum { FIRSTS = 5, L = 2, X = 3 };
static size_t in_circle;

static struct entry fork_of(size_t e)
{
    static const uint8_t l[] = {L}, x[] = {X};
    static const uint64_t lexicons[FIRSTS] = {2, 2, 2 | 4, 2 | 8, 2 | 16};
    size_t after = e - FIRSTS - in_circle;
    if (e < FIRSTS)
        return (struct entry){{l, e < FIRSTS - 1}, e == 1, lexicons[e]};
    if (e < FIRSTS + in_circle)
        return (struct entry){nothing, 0, 2};
    return (struct entry){{after == 0 ? x : l, after != 1}, 1, 0};
}

static void forks(size_t round)
{
    static struct image image;
    in_circle = round;
    size_t entries = FIRSTS + round + 3;
    add_header(&image, 2, 3, 2, 0, 5, entries, 0);
    memcpy(add_block(&image, 3, 2), (const uint8_t[]){L, L, X, X}, 4);
    uint8_t *counts = add_block(&image, 5, 5);
    const size_t each[] = {FIRSTS, round, 1, 1, 1};
    for (size_t x = 0; x < 5; x++)
        put_two(counts + 2 * x, each[x]);
    add_entries(&image, entries, fork_of);
    struct bytes forked = sealed(&image);
    uint8_t rows[3 * ROW];
    unsigned before = failures;
    called = "forks";
    alarm(SECONDS);
    put_row(rows, BYTES(1, 0), BYTES(0));
    put_row(rows + ROW, BYTES(3, 0, (uint8_t)(FIRSTS + round + 1), 0), BYTES(0));
    put_row(rows + 2 * ROW, BYTES(4, 0, (uint8_t)(FIRSTS + round + 2), 0), BYTES(0));
    list(headwords_analyse, "forks", forked, BYTES(L), 3 * ROW, 4 * 3 + 1, (struct bytes){rows, sizeof rows});
    list(headwords_analyse, "forks, a row less", forked, BYTES(L), 2 * ROW, 4 * 2 + 2, (struct bytes){rows, 2 * ROW});
    sixteen("forks", forked, BYTES(L), 3 * ROW, 4 * 3 + 1, (struct bytes){rows, sizeof rows});
    put_row(rows, BYTES(2, 0, (uint8_t)(FIRSTS + round), 0), BYTES(0, 1));
    list(headwords_analyse, "forks, by x", forked, BYTES(L, X), 3 * ROW, 5, (struct bytes){rows, ROW});
    passed(before, "forks", "readings by the other ways on than a circle without end");
}

int main(int argc, char **argv)
{
    if (argc != 2)
        return 2;
    const char *folder = argv[1];
    signal(SIGALRM, late);
    make_room(IMAGE, LONGEST);
    make_room(GIVEN, WORDS * HEADWORDS_WORD_BYTES);
    make_room(REPLIES, WORDS * 8);
    make_room(OUT, WORDS * 3 * ROW);
    none(folder, "circle-4-refused", 1, 15, 4);
    none(folder, "circle-10-refused", 1, 15, 10);
    none(folder, "form-refused", 32, 1, 1);
    none(folder, "letter-refused", 32, 15, 1);
    none(folder, "equal-refused", 16, 15, 100);
    between(folder, "between");
    forks(5);
    forks(10);
    return failures > 0;
}
