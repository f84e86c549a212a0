/* What the listings cost, beside a plain program that only reads the words.
 * Usage: listings MODE IMAGE WORDS [REPEATS]
 *   read        each line of WORDS, letter numbers split by single spaces, becomes letter bytes, and these are summed
 *   check       the same, and one image check, which is counted as "all" where it accepts
 *   analyse     the same as read, and each word is analysed into 64 lent rows
 *   records     the same as read, and the words are put into records
 *   many        the same as records, and the words are analysed 1,000 a call, each with a share of 64 rows
 *   points      the same as read, and each word becomes the code points of its letters, as capitals where they have one
 *   spell       the same as points, and each word's code points are spelled; what counts as rows are letters
 *   paths       collects 200 paths from the rows of the words' readings, and sums their bytes
 *   generate    the same as paths, and each path is generated from, into 64 lent rows
 *   time-words  words a second reading only, and analysing
 *   time-paths  paths a second generating
 * REPEATS is how many times the words or paths are gone through, 1 if it is left out; in the last two modes as often as it takes
 * to time them. Each mode prints how many replies were none, all, more and refused, and how many rows were handed back: for the
 * words or paths once. */
#define _POSIX_C_SOURCE 199309L
#include <stdio.h>
#include <stdlib.h>
#include <string.h>
#include <time.h>

#include "headwords.h"

enum { ROWS = 64, PATHS = 200, WORDS = 1000, MOST_LETTERS = 128, MOST_TEXT = 1 << 20, ROUNDS = 20 };
static const double ROUND_SECONDS = 0.03;

static uint8_t image[65537]; /* a byte more than an image may have, so that a longer file is refused */
static size_t image_length;
static char text[MOST_TEXT]; /* the words as they stand in their file; a 0 follows them */
static uint8_t rows[WORDS * ROWS * HEADWORDS_ROW_BYTES]; /* for a word alone the first 64 */
static uint8_t records[WORDS][HEADWORDS_WORD_BYTES];
static uint64_t replies[WORDS];

static struct {
    uint8_t bytes[32];
    size_t length;
} paths[PATHS];

/* The code point of each letter number as a capital, two bytes; as it is where there is none, or that is a letter too. */
static uint8_t capitals[256][2];

/* What one pass saw. The sum keeps the compiler from leaving the reading out. */
struct tally {
    unsigned long long sum;
    unsigned long things, replies[4], rows;
};

static void fail(const char *what, const char *name)
{
    fprintf(stderr, "listings: %s: %s\n", name, what);
    exit(EXIT_FAILURE);
}

static size_t load(const char *name, void *to, size_t most)
{
    FILE *file = fopen(name, "rb");
    if (file == NULL)
        fail("cannot be read", name);
    size_t length = fread(to, 1, most, file);
    fclose(file);
    return length;
}

static void load_words(const char *name)
{
    size_t length = load(name, text, sizeof text);
    if (length == sizeof text)
        fail("too long", name);
    if (length == 0)
        fail("has no word", name);
    if (strspn(text, "0123456789 \n") != length)
        fail("has something else than letter numbers", name);
}

/* The letters of the line at *at, which goes on to the next line. */
static size_t read_word(const char **at, uint8_t *letters)
{
    const char *p = *at;
    size_t n = 0;
    while (*p >= ' ') {
        unsigned number = 0;
        while (*p >= '0')
            number = 10 * number + (unsigned)(*p++ - '0');
        if (number > 255 || n == MOST_LETTERS)
            fail("a number over 255, or too many in a line", "words");
        letters[n++] = (uint8_t)number;
        if (*p == ' ')
            p++;
    }
    *at = *p == '\n' ? p + 1 : p;
    return n;
}

static unsigned point_of(unsigned letter)
{
    const uint8_t *record = image + 512 + 4 + 2 * (letter - 1);
    return record[0] + 256u * record[1];
}

static int has_letter(unsigned letters, unsigned point)
{
    for (unsigned letter = 1; letter <= letters; letter++)
        if (point_of(letter) == point)
            return 1;
    return 0;
}

/* The capitals of a to z and of the letters with accents up to U+00FE will do: the call folds by a table, whatever it folds. */
static void collect_capitals(void)
{
    unsigned letters = headwords_check(image, image_length) == 1 ? image[6] : 0;
    for (unsigned letter = 1; letter <= letters; letter++) {
        unsigned point = point_of(letter);
        int has_capital = (point >= 'a' && point <= 'z') || (point >= 0xE0 && point <= 0xFE && point != 0xF7);
        if (has_capital && !has_letter(letters, point - 32))
            point -= 32;
        capitals[letter][0] = (uint8_t)(point % 256);
        capitals[letter][1] = (uint8_t)(point / 256);
    }
}

static void see(struct tally *tally, const uint8_t *bytes, size_t n)
{
    tally->things++;
    for (size_t i = 0; i < n; i++)
        tally->sum += bytes[i];
}

static void count(struct tally *tally, uint64_t reply)
{
    tally->replies[reply % 4]++;
    if (reply % 4 != HEADWORDS_REFUSED)
        tally->rows += reply / 4;
}

/* A pass is one of the nine below. Four are plain: they read words, as letters, as records or as code points, or paths. The others
 * do the same and make calls. */
typedef void pass(struct tally *);

static void read_words(struct tally *tally)
{
    uint8_t letters[MOST_LETTERS];
    for (const char *at = text; *at != '\0';) {
        size_t n = read_word(&at, letters);
        see(tally, letters, n);
    }
}

static void read_and_check(struct tally *tally)
{
    read_words(tally);
    count(tally, headwords_check(image, image_length));
}

static void analyse_words(struct tally *tally)
{
    uint8_t letters[MOST_LETTERS];
    for (const char *at = text; *at != '\0';) {
        size_t n = read_word(&at, letters);
        see(tally, letters, n);
        count(tally, headwords_analyse(image, image_length, letters, n, rows, ROWS * HEADWORDS_ROW_BYTES));
    }
}

/* The records of the next words, at most 1,000 of them. */
static size_t read_records(const char **at, struct tally *tally)
{
    uint8_t letters[MOST_LETTERS];
    size_t many = 0;
    for (; many < WORDS && **at != '\0'; many++) {
        size_t n = read_word(at, letters);
        see(tally, letters, n);
        if (n > HEADWORDS_WORD_BYTES - 1)
            fail("a word of over 32 letters", "words");
        records[many][0] = (uint8_t)n;
        memcpy(records[many] + 1, letters, n);
    }
    return many;
}

static void read_all_records(struct tally *tally)
{
    for (const char *at = text; *at != '\0';)
        read_records(&at, tally);
}

static void analyse_many(struct tally *tally)
{
    for (const char *at = text; *at != '\0';) {
        size_t many = read_records(&at, tally);
        uint64_t reply = headwords_analyse_words(image, image_length, records[0], many * HEADWORDS_WORD_BYTES, (uint8_t *)replies, many * sizeof *replies, rows, many * ROWS * HEADWORDS_ROW_BYTES);
        if (reply != 4 * many + 1)
            fail("is refused", "image");
        for (size_t i = 0; i < many; i++)
            count(tally, replies[i]);
    }
}

static size_t read_points(const char **at, uint8_t *points)
{
    uint8_t letters[MOST_LETTERS];
    size_t n = read_word(at, letters);
    for (size_t i = 0; i < n; i++)
        memcpy(points + 2 * i, capitals[letters[i]], 2);
    return 2 * n;
}

static void read_capitals(struct tally *tally)
{
    uint8_t points[2 * MOST_LETTERS];
    for (const char *at = text; *at != '\0';) {
        size_t length = read_points(&at, points);
        see(tally, points, length);
    }
}

static void spell_capitals(struct tally *tally)
{
    uint8_t points[2 * MOST_LETTERS], letters[32];
    for (const char *at = text; *at != '\0';) {
        size_t length = read_points(&at, points);
        see(tally, points, length);
        count(tally, headwords_spell(image, image_length, points, length, letters, sizeof letters));
    }
}

static void read_paths(struct tally *tally)
{
    for (size_t i = 0; i < PATHS; i++)
        see(tally, paths[i].bytes, paths[i].length);
}

static void generate_paths(struct tally *tally)
{
    for (size_t i = 0; i < PATHS; i++) {
        see(tally, paths[i].bytes, paths[i].length);
        count(tally, headwords_generate(image, image_length, paths[i].bytes, paths[i].length, rows, ROWS * HEADWORDS_ROW_BYTES));
    }
}

/* Does a pass so many times, and tells what the last saw. */
static struct tally repeat(pass *part, unsigned long repeats)
{
    struct tally tally = {0};
    for (unsigned long i = 0; i < repeats; i++) {
        memset(&tally, 0, sizeof tally);
        part(&tally);
    }
    return tally;
}

/* A row's entries stand as generation takes them: two bytes each, after the two of their count. */
static void take_path(size_t i, const uint8_t *row)
{
    paths[i].length = 2 * (row[0] + 256u * row[1]);
    if (paths[i].length > sizeof paths[i].bytes)
        fail("a path of over 16 entries", "rows");
    memcpy(paths[i].bytes, row + 2, paths[i].length);
}

/* The paths of the first readings of the list, from the start again where the words have fewer. */
static void collect_paths(void)
{
    uint8_t letters[MOST_LETTERS];
    size_t found = 0;
    for (const char *at = text; *at != '\0' && found < PATHS;) {
        size_t n = read_word(&at, letters);
        uint64_t reply = headwords_analyse(image, image_length, letters, n, rows, ROWS * HEADWORDS_ROW_BYTES);
        uint64_t listed = reply % 4 == HEADWORDS_REFUSED ? 0 : reply / 4;
        for (uint64_t k = 0; k < listed && found < PATHS; k++)
            take_path(found++, rows + HEADWORDS_ROW_BYTES * k);
    }
    if (found == 0)
        fail("no word has a reading", "words");
    for (size_t i = found; i < PATHS; i++)
        paths[i] = paths[i - found];
}

static void print_tally(const char *things, struct tally tally)
{
    printf("%lu %s: none %lu, all %lu, more %lu, refused %lu; %lu rows; sum %llu\n", tally.things, things, tally.replies[HEADWORDS_NONE], tally.replies[HEADWORDS_ALL], tally.replies[HEADWORDS_MORE], tally.replies[HEADWORDS_REFUSED], tally.rows, tally.sum);
}

static void print_checked(struct tally tally)
{
    print_tally("words", tally);
    if (tally.replies[HEADWORDS_REFUSED] > 0)
        fail("is refused", "image");
}

static void print_spelled(struct tally tally)
{
    print_tally("words", tally);
    if (tally.replies[HEADWORDS_REFUSED] > 0)
        fail("a word's capitals are not spelled", "words");
}

/* Each path is that of a reading, so generation has to list at least that one. */
static void print_generated(struct tally tally)
{
    print_tally("paths", tally);
    if (tally.replies[HEADWORDS_NONE] + tally.replies[HEADWORDS_REFUSED] > 0)
        fail("a reading's path generates nothing", "paths");
}

/* The processor's seconds and not the clock's, so that what else runs counts little. */
static double seconds(void)
{
    struct timespec now;
    clock_gettime(CLOCK_PROCESS_CPUTIME_ID, &now);
    return (double)now.tv_sec + 1e-9 * (double)now.tv_nsec;
}

/* One of the passes, timed in rounds of so many passes each. */
struct part {
    pass *run;
    unsigned long passes;
    double least;
    struct tally tally;
};

static double time_round(struct part *part, unsigned long passes)
{
    double start = seconds();
    part->tally = repeat(part->run, passes);
    return seconds() - start;
}

/* So many passes that a round can be timed. */
static unsigned long passes_for(struct part *part)
{
    unsigned long passes = 1;
    while (time_round(part, passes) < ROUND_SECONDS)
        passes *= 2;
    return passes;
}

/* The fastest round is kept, since what disturbs a round can only make it slower. The parts take turns, so that what goes on for
 * longer slows all of them. */
static void time_parts(struct part *parts, int many)
{
    for (int i = 0; i < ROUNDS * many; i++) {
        struct part *part = &parts[i % many];
        double took = time_round(part, part->passes);
        if (i < many || took < part->least)
            part->least = took;
    }
}

static double rate(const struct part *part)
{
    return (double)part->tally.things * (double)part->passes / part->least;
}

/* The parts in turn, each REPEATS times a round, or as often as it takes. */
static void time_in_turn(struct part *parts, int many, unsigned long repeats)
{
    for (int i = 0; i < many; i++)
        parts[i].passes = repeats > 0 ? repeats : passes_for(&parts[i]);
    time_parts(parts, many);
}

static void print_word_times(unsigned long repeats)
{
    struct part parts[] = {{.run = read_words}, {.run = analyse_words}};
    time_in_turn(parts, 2, repeats);
    printf("words/s reading only: %.0f\n", rate(&parts[0]));
    printf("words/s analysing: %.0f\n", rate(&parts[1]));
    print_tally("words", parts[1].tally);
}

static void print_path_times(unsigned long repeats)
{
    struct part part = {.run = generate_paths};
    collect_paths();
    time_in_turn(&part, 1, repeats);
    printf("paths/s generating: %.0f\n", rate(&part));
    print_generated(part.tally);
}

/* told is REPEATS, 0 where it is left out. */
static int run(const char *mode, unsigned long told)
{
    unsigned long repeats = told > 0 ? told : 1;
    if (strcmp(mode, "read") == 0) {
        print_tally("words", repeat(read_words, repeats));
    } else if (strcmp(mode, "check") == 0) {
        print_checked(repeat(read_and_check, repeats));
    } else if (strcmp(mode, "analyse") == 0) {
        print_tally("words", repeat(analyse_words, repeats));
    } else if (strcmp(mode, "records") == 0) {
        print_tally("words", repeat(read_all_records, repeats));
    } else if (strcmp(mode, "many") == 0) {
        print_tally("words", repeat(analyse_many, repeats));
    } else if (strcmp(mode, "points") == 0) {
        collect_capitals();
        print_tally("words", repeat(read_capitals, repeats));
    } else if (strcmp(mode, "spell") == 0) {
        collect_capitals();
        print_spelled(repeat(spell_capitals, repeats));
    } else if (strcmp(mode, "paths") == 0) {
        collect_paths();
        print_tally("paths", repeat(read_paths, repeats));
    } else if (strcmp(mode, "generate") == 0) {
        collect_paths();
        print_generated(repeat(generate_paths, repeats));
    } else if (strcmp(mode, "time-words") == 0) {
        print_word_times(told);
    } else if (strcmp(mode, "time-paths") == 0) {
        print_path_times(told);
    } else {
        return 0;
    }
    return 1;
}

/* A count of 1 to 9 digits; 0 for anything else, which is no count. */
static unsigned long number_of(const char *digits)
{
    size_t n = strspn(digits, "0123456789");
    return n <= 9 && digits[n] == '\0' ? strtoul(digits, NULL, 10) : 0;
}

int main(int argc, char **argv)
{
    unsigned long told = argc == 5 ? number_of(argv[4]) : 0;
    if (argc == 4 || (argc == 5 && told > 0)) {
        image_length = load(argv[2], image, sizeof image);
        load_words(argv[3]);
        if (run(argv[1], told))
            return EXIT_SUCCESS;
    }
    fprintf(stderr, "usage: listings read|check|analyse|records|many|points|spell|paths|generate|time-words|time-paths IMAGE WORDS [REPEATS]\n");
    return 2;
}
