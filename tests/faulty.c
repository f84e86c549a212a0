/* The C entry with the one fault that the environment variable FAULT names. The functions of the true library are renamed, with real_ in front.
 *
 * CALL is a function's name without headwords_, or places for analyse_words with its replies as the buffer; RANGE is one of image, given (word, words,
 * path, code points or rules), pairing and out.
 * entry CALL            entry numbers of row 0 from 2,048 on are wrong
 * count CALL            n is cut to two bytes
 * after RANGE CALL      a byte after the range is read
 * before RANGE CALL     a byte before the range is read
 * past CALL             a byte after the buffer is written
 * rest CALL             a byte of the buffer after the rows or letters is written
 * refusal CALL K        a call that is refused with K writes into its buffer, or its image where it has none
 * reading CALL          a call that is not refused writes into its image
 * fold P Q              code point P, where it is no letter, is spelled as Q
 * early spell           a capital below 256 is folded where it is a letter too
 * boundary spell        the boundary is taken for a letter of a word
 * long words            a length byte over 32 is taken for 32
 * early words           the words after one that is refused are not answered
 * last words            of sixteen words and more the last is answered as the first
 * rules WHAT            the judge of rules is that of faulty_rules.c, with the fault WHAT
 * ways WHAT             in form 2 the ways on of an entry are those of faulty_ways.c, with the fault WHAT: stop (every entry may stop), first (the lowest
 *                       bit alone), end (a marked entry goes on with none), go-on (an entry with a bit may not stop), turned (8b + j), last (no lexicon 63);
 *                       mark, missing, neither (what should be refused with 8 is let through)
 * order WHAT            rows of form 2 are listed in another order: plain (an ending is no step), late (an ending comes after every entry), down (entries
 *                       of later lexicons come first)
 * convert WHAT          the converter is that of faulty_ways.c, with the fault WHAT: form (the old one is kept), gloss, mark, bit (of lexicon 63) lost, rest
 *                       (old bytes after the last entry), unsealed, unnumbered (the last block), header (block 0 has its old check), ending (none is
 *                       counted for 15), late-15, late-16 (17 is told first), longer (a target that is too long is taken) */
#include <stdio.h>
#include <stdlib.h>
#include <string.h>

#include "faulty_rules.h"
#include "faulty_ways.h"
#include "headwords.h"

uint64_t real_headwords_analyse(const uint8_t *image, size_t image_length, const uint8_t *word, size_t word_length, uint8_t *rows, size_t rows_length);
uint64_t real_headwords_analyse_words(const uint8_t *image, size_t image_length, const uint8_t *words, size_t words_length, uint8_t *replies, size_t replies_length, uint8_t *rows, size_t rows_length);
uint64_t real_headwords_generate(const uint8_t *image, size_t image_length, const uint8_t *path, size_t path_length, uint8_t *rows, size_t rows_length);
uint64_t real_headwords_check(const uint8_t *image, size_t image_length);
uint64_t real_headwords_seal(uint8_t *image, size_t image_length);
uint64_t real_headwords_judge(const uint8_t *image, size_t image_length, const uint8_t *path, size_t path_length, const uint8_t *pairing, size_t pairing_length);
uint64_t real_headwords_judge_rules(const uint8_t *image, size_t image_length, const uint8_t *pairing, size_t pairing_length, const uint8_t *text, size_t text_length);
uint64_t real_headwords_convert(const uint8_t *image, size_t image_length, uint8_t *target, size_t target_length);
uint64_t real_headwords_form(const uint8_t *image, size_t image_length, size_t entry, uint8_t *letters, size_t letters_length);
uint64_t real_headwords_spell(const uint8_t *image, size_t image_length, const uint8_t *points, size_t points_length, uint8_t *letters, size_t letters_length);

struct range {
    const uint8_t *at;
    size_t length;
};

/* A call, with the bytes of one row or letter that it writes. */
struct call {
    const char *name;
    struct range image, given, pairing, out;
    size_t width;
};

static volatile uint8_t read_byte;

static int is_fault(const char *format, const char *range, const char *call, unsigned k)
{
    char name[64];
    const char *fault = getenv("FAULT");
    snprintf(name, sizeof name, format, range, call, k);
    return fault != NULL && strcmp(fault, name) == 0;
}

/* The image that the true call is given. */
static const uint8_t *given_image(const uint8_t *image, size_t length)
{
    const char *fault = getenv("FAULT");
    return fault != NULL && strncmp(fault, "ways ", 5) == 0 ? image_with_fault(fault + 5, image, length) : image;
}

static void read_around(const char *name, struct range range, const struct call *call)
{
    if (range.at != NULL && is_fault("after %s %s", name, call->name, 0))
        read_byte = range.at[range.length];
    if (range.at != NULL && is_fault("before %s %s", name, call->name, 0))
        read_byte = range.at[-1];
}

static void put_wrong_entries(uint8_t *row)
{
    for (unsigned i = 0; i < row[0]; i++)
        if (row[2 + 2 * i] + 256u * row[3 + 2 * i] >= 2048)
            row[2 + 2 * i] ^= 1;
}

/* The reply of a call with its fault, after the true call. */
static uint64_t with_fault(uint64_t reply, struct call call)
{
    uint8_t *out = (uint8_t *)call.out.at, *image = (uint8_t *)call.image.at;
    read_around("image", call.image, &call);
    read_around("given", call.given, &call);
    read_around("pairing", call.pairing, &call);
    read_around("out", call.out, &call);
    if (is_fault("past%s %s", "", call.name, 0))
        out[call.out.length] = 1;
    if (reply % 4 == HEADWORDS_REFUSED) {
        if (is_fault("refusal%s %s %u", "", call.name, (unsigned)(reply / 4))) {
            if (out != NULL && call.out.length > 0)
                out[call.out.length - 1] ^= 1;
            else if (out == NULL && call.image.length > 0)
                image[call.image.length - 1] ^= 1;
        }
        return reply;
    }
    if (is_fault("reading%s %s", "", call.name, 0))
        image[call.image.length - 1] ^= 1;
    if (call.width * (reply / 4) < call.out.length && is_fault("rest%s %s", "", call.name, 0))
        out[call.width * (reply / 4)] ^= 1;
    if (reply / 4 > 0 && is_fault("entry%s %s", "", call.name, 0))
        put_wrong_entries(out);
    if (is_fault("count%s %s", "", call.name, 0))
        return 4 * (reply / 4 % 65536) + reply % 4;
    return reply;
}

uint64_t headwords_analyse(const uint8_t *image, size_t image_length, const uint8_t *word, size_t word_length, uint8_t *rows, size_t rows_length)
{
    uint64_t reply = real_headwords_analyse(given_image(image, image_length), image_length, word, word_length, rows, rows_length);
    const char *fault = getenv("FAULT");
    if (reply % 4 == HEADWORDS_ALL && image[4] == 2 && fault != NULL && strncmp(fault, "order ", 6) == 0)
        put_in_order(fault + 6, image, image_length, rows, reply / 4);
    return with_fault(reply, (struct call){"analyse", {image, image_length}, {word, word_length}, {NULL, 0}, {rows, rows_length}, HEADWORDS_ROW_BYTES});
}

static void *copy_of(const uint8_t *bytes, size_t length)
{
    void *copy = malloc(length + 1);
    if (copy == NULL)
        exit(2);
    return memcpy(copy, bytes, length);
}

/* The words that the true call is given. */
static void put_wrong_words(uint8_t *words, size_t length)
{
    size_t n = length / HEADWORDS_WORD_BYTES, last = HEADWORDS_WORD_BYTES * (n - 1);
    for (size_t i = 0; i < n && is_fault("long%s %s", "", "words", 0); i++)
        if (words[HEADWORDS_WORD_BYTES * i] > 32)
            words[HEADWORDS_WORD_BYTES * i] = 32;
    if (n >= 16 && is_fault("last%s %s", "", "words", 0))
        memcpy(words + last, words, HEADWORDS_WORD_BYTES);
}

uint64_t headwords_analyse_words(const uint8_t *image, size_t image_length, const uint8_t *words, size_t words_length, uint8_t *replies, size_t replies_length, uint8_t *rows, size_t rows_length)
{
    uint8_t *given = copy_of(words, words_length), *before = copy_of(replies, replies_length);
    put_wrong_words(given, words_length);
    uint64_t reply = real_headwords_analyse_words(given_image(image, image_length), image_length, given, words_length, replies, replies_length, rows, rows_length);
    size_t n = reply % 4 == HEADWORDS_REFUSED ? 0 : reply / 4, share = n == 0 ? 0 : rows_length / HEADWORDS_ROW_BYTES / n;
    for (size_t i = 0; i < n && is_fault("early%s %s", "", "words", 0); i++)
        if (replies[8 * i] % 4 == HEADWORDS_REFUSED) {
            memcpy(replies + 8 * (i + 1), before + 8 * (i + 1), 8 * (n - i - 1));
            break;
        }
    free(given);
    free(before);
    reply = with_fault(reply, (struct call){"places", {image, image_length}, {words, words_length}, {NULL, 0}, {replies, replies_length}, 8});
    return with_fault(reply, (struct call){"analyse_words", {image, image_length}, {words, words_length}, {NULL, 0}, {rows, rows_length}, HEADWORDS_ROW_BYTES * share});
}

uint64_t headwords_generate(const uint8_t *image, size_t image_length, const uint8_t *path, size_t path_length, uint8_t *rows, size_t rows_length)
{
    uint64_t reply = real_headwords_generate(given_image(image, image_length), image_length, path, path_length, rows, rows_length);
    return with_fault(reply, (struct call){"generate", {image, image_length}, {path, path_length}, {NULL, 0}, {rows, rows_length}, HEADWORDS_ROW_BYTES});
}

uint64_t headwords_check(const uint8_t *image, size_t image_length)
{
    uint64_t reply = real_headwords_check(given_image(image, image_length), image_length);
    return with_fault(reply, (struct call){"check", {image, image_length}, {NULL, 0}, {NULL, 0}, {NULL, 0}, 0});
}

uint64_t headwords_seal(uint8_t *image, size_t image_length)
{
    uint64_t reply = real_headwords_seal(image, image_length);
    return with_fault(reply, (struct call){"seal", {image, image_length}, {NULL, 0}, {NULL, 0}, {NULL, 0}, 0});
}

uint64_t headwords_convert(const uint8_t *image, size_t image_length, uint8_t *target, size_t target_length)
{
    const char *fault = getenv("FAULT"), *what = fault != NULL && strncmp(fault, "convert ", 8) == 0 ? fault + 8 : NULL;
    uint64_t reply = what != NULL ? convert_with_fault(what, image, image_length, target, target_length) : real_headwords_convert(image, image_length, target, target_length);
    return with_fault(reply, (struct call){"convert", {image, image_length}, {NULL, 0}, {NULL, 0}, {target, target_length}, 0});
}

uint64_t headwords_judge(const uint8_t *image, size_t image_length, const uint8_t *path, size_t path_length, const uint8_t *pairing, size_t pairing_length)
{
    uint64_t reply = real_headwords_judge(given_image(image, image_length), image_length, path, path_length, pairing, pairing_length);
    return with_fault(reply, (struct call){"judge", {image, image_length}, {path, path_length}, {pairing, pairing_length}, {NULL, 0}, 0});
}

uint64_t headwords_judge_rules(const uint8_t *image, size_t image_length, const uint8_t *pairing, size_t pairing_length, const uint8_t *text, size_t text_length)
{
    const char *fault = getenv("FAULT");
    uint64_t reply = real_headwords_judge_rules(image, image_length, pairing, pairing_length, text, text_length);
    if (fault != NULL && strncmp(fault, "rules ", 6) == 0 && real_headwords_check(image, image_length) == 1)
        return judge_rules_with_fault(fault + 6, image, pairing, pairing_length, text, text_length);
    return with_fault(reply, (struct call){"judge_rules", {image, image_length}, {text, text_length}, {pairing, pairing_length}, {NULL, 0}, 0});
}

uint64_t headwords_form(const uint8_t *image, size_t image_length, size_t entry, uint8_t *letters, size_t letters_length)
{
    uint64_t reply = real_headwords_form(image, image_length, entry, letters, letters_length);
    return with_fault(reply, (struct call){"form", {image, image_length}, {NULL, 0}, {NULL, 0}, {letters, letters_length}, 1});
}

static unsigned point_at(const uint8_t *points, size_t i)
{
    return points[2 * i] + 256u * points[2 * i + 1];
}

/* The letter of a code point that is in the alphabet of an accepted image, or 0. */
static unsigned letter_of(const uint8_t *image, unsigned point)
{
    const uint8_t *alphabet = image + 512;
    for (unsigned i = 0; i < alphabet[3]; i++)
        if (point_at(alphabet + 4, i) == point)
            return i + 1;
    return 0;
}

/* The code point that the true call is given for one, by an accepted image. */
static unsigned wrong_point(const uint8_t *image, unsigned point)
{
    unsigned from, to;
    const char *fault = getenv("FAULT");
    int capital = (point >= 65 && point <= 90) || (point >= 192 && point <= 222 && point != 215);
    if (fault != NULL && sscanf(fault, "fold %u %u", &from, &to) == 2 && point == from && letter_of(image, point) == 0)
        return to;
    if (capital && is_fault("early%s %s", "", "spell", 0))
        return point + 32;
    return point;
}

/* Writes the letters of code points that are all in the alphabet, the boundary's too, and says whether they are and fit. */
static int put_letters(const uint8_t *image, const uint8_t *points, size_t count, uint8_t *letters, size_t letters_length)
{
    for (size_t i = 0; i < count; i++)
        if (letter_of(image, point_at(points, i)) == 0)
            return 0;
    for (size_t i = 0; i < count && count <= letters_length; i++)
        letters[i] = (uint8_t)letter_of(image, point_at(points, i));
    return count <= letters_length;
}

uint64_t headwords_spell(const uint8_t *image, size_t image_length, const uint8_t *points, size_t points_length, uint8_t *letters, size_t letters_length)
{
    uint8_t changed[64];
    const uint8_t *given = points;
    uint64_t reply;
    size_t count = points_length / 2;
    if (points_length % 2 == 0 && count <= 32 && real_headwords_check(image, image_length) == 1) {
        for (size_t i = 0; i < count; i++) {
            unsigned point = wrong_point(image, point_at(points, i));
            changed[2 * i] = (uint8_t)point;
            changed[2 * i + 1] = (uint8_t)(point / 256);
        }
        given = changed;
    }
    reply = real_headwords_spell(image, image_length, given, points_length, letters, letters_length);
    if (reply == 4 * 23 + 3 && is_fault("boundary%s %s", "", "spell", 0) && put_letters(image, points, count, letters, letters_length))
        reply = 4 * count + 1;
    return with_fault(reply, (struct call){"spell", {image, image_length}, {points, points_length}, {NULL, 0}, {letters, letters_length}, 1});
}
