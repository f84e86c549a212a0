/* Each call is made twice, with its ranges at the end of their pages and at the start, and its reply and every byte of its ranges are compared. */
#ifndef CALLS_H
#define CALLS_H

#include "headwords.h"
#include "lent.h"

static inline uint64_t refused(unsigned k)
{
    return 4 * k + 3;
}

/* The row of a path, two bytes an entry, and a pairing. */
static inline void put_row(uint8_t *row, struct bytes path, struct bytes pairing)
{
    memset(row, 255, HEADWORDS_ROW_BYTES);
    row[0] = (uint8_t)(path.length / 2);
    row[1] = 0;
    memcpy(row + 2, path.at, path.length);
    row[34] = (uint8_t)pairing.length;
    row[35] = 0;
    for (size_t i = 0; i < pairing.length; i++) {
        row[36 + 2 * i] = pairing.at[i];
        row[37 + 2 * i] = 0;
    }
}

/* `what` names the call when it is wrong; `written` is what stands at the front of the buffer afterwards. */

/* Analysis and generation; spelling, which writes letters and not rows, is called in the same way. */
typedef uint64_t listing(const uint8_t *, size_t, const uint8_t *, size_t, uint8_t *, size_t);

static inline void list(listing *call, const char *what, struct bytes image, struct bytes given, size_t room, uint64_t reply, struct bytes written)
{
    for (enum side side = 0; side < SIDES; side++) {
        const uint8_t *lent_image = lend(IMAGE, side, image), *lent_given = lend(GIVEN, side, given);
        uint8_t *rows = lend_room(OUT, side, room);
        expect(OUT, written);
        called = what;
        answered(call(lent_image, image.length, lent_given, given.length, rows, room), reply);
    }
}

static inline void analyse(const char *what, struct bytes image, struct bytes word, size_t room, uint64_t reply, struct bytes written)
{
    list(headwords_analyse, what, image, word, room, reply, written);
}

/* A word's record. The bytes past its letters are no letters of any word. */
static inline void put_record(uint8_t *record, struct bytes word)
{
    memset(record, 255, HEADWORDS_WORD_BYTES);
    record[0] = (uint8_t)word.length;
    memcpy(record + 1, word.at, word.length);
}

/* What one of many words is answered with: its reply, and the rows at the front of its share. */
struct answer {
    uint64_t reply;
    struct bytes rows;
};

/* Words in records, so many bytes for their replies and for all rows. Where the image is refused there are no answers. */
static inline void analyse_words(const char *what, struct bytes image, struct bytes words, size_t places, size_t room, uint64_t reply, const struct answer *answers)
{
    size_t n = reply % 4 == HEADWORDS_REFUSED ? 0 : reply / 4;
    for (enum side side = 0; side < SIDES; side++) {
        const uint8_t *lent_image = lend(IMAGE, side, image), *lent_words = lend(GIVEN, side, words);
        uint8_t *replies = lend_room(REPLIES, side, places), *rows = lend_room(OUT, side, room);
        for (size_t i = 0; i < n; i++) {
            uint8_t number[8];
            for (size_t j = 0; j < 8; j++)
                number[j] = (uint8_t)(answers[i].reply >> 8 * j);
            expect_at(REPLIES, 8 * i, (struct bytes){number, 8});
            expect_at(OUT, room / HEADWORDS_ROW_BYTES / n * HEADWORDS_ROW_BYTES * i, answers[i].rows);
        }
        called = what;
        answered(headwords_analyse_words(lent_image, image.length, lent_words, words.length, replies, places, rows, room), reply);
    }
}

/* The bytes of code points, in one place for all: a call has to take them before the next are made. */
#define POINTS(...) points_of((const uint16_t[]){__VA_ARGS__}, sizeof((const uint16_t[]){__VA_ARGS__}) / sizeof(uint16_t))

static inline struct bytes points_of(const uint16_t *points, size_t count)
{
    static uint8_t bytes[128];
    for (size_t i = 0; i < count; i++) {
        bytes[2 * i] = (uint8_t)(points[i] % 256);
        bytes[2 * i + 1] = (uint8_t)(points[i] / 256);
    }
    return (struct bytes){bytes, 2 * count};
}

static inline void spell(const char *what, struct bytes image, struct bytes points, size_t room, uint64_t reply, struct bytes written)
{
    list(headwords_spell, what, image, points, room, reply, written);
}

static inline void generate(const char *what, struct bytes image, struct bytes path, size_t room, uint64_t reply, struct bytes written)
{
    list(headwords_generate, what, image, path, room, reply, written);
}

static inline void judge(const char *what, struct bytes image, struct bytes path, struct bytes pairing, uint64_t reply)
{
    for (enum side side = 0; side < SIDES; side++) {
        const uint8_t *lent_image = lend(IMAGE, side, image), *lent_path = lend(GIVEN, side, path), *lent_pairing = lend(PAIRING, side, pairing);
        called = what;
        answered(headwords_judge(lent_image, image.length, lent_path, path.length, lent_pairing, pairing.length), reply);
    }
}

static inline void judge_rules(const char *what, struct bytes image, struct bytes pairing, struct bytes text, uint64_t reply)
{
    for (enum side side = 0; side < SIDES; side++) {
        const uint8_t *lent_image = lend(IMAGE, side, image), *lent_pairing = lend(PAIRING, side, pairing), *lent_text = lend(GIVEN, side, text);
        called = what;
        answered(headwords_judge_rules(lent_image, image.length, lent_pairing, pairing.length, lent_text, text.length), reply);
    }
}

static inline void form(const char *what, struct bytes image, size_t entry, size_t room, uint64_t reply, struct bytes written)
{
    for (enum side side = 0; side < SIDES; side++) {
        const uint8_t *lent_image = lend(IMAGE, side, image);
        uint8_t *letters = lend_room(OUT, side, room);
        expect(OUT, written);
        called = what;
        answered(headwords_form(lent_image, image.length, entry, letters, room), reply);
    }
}

static inline void check(const char *what, struct bytes image, uint64_t reply)
{
    for (enum side side = 0; side < SIDES; side++) {
        const uint8_t *lent_image = lend(IMAGE, side, image);
        called = what;
        answered(headwords_check(lent_image, image.length), reply);
    }
}

/* `converted` is the whole target afterwards, or nothing where the call is refused. */
static inline void convert(const char *what, struct bytes image, size_t room, uint64_t reply, struct bytes converted)
{
    for (enum side side = 0; side < SIDES; side++) {
        const uint8_t *lent_image = lend(IMAGE, side, image);
        uint8_t *target = lend_room(OUT, side, room);
        expect(OUT, converted);
        called = what;
        answered(headwords_convert(lent_image, image.length, target, room), reply);
    }
}

/* `sealed` is the image afterwards. */
static inline void seal(const char *what, struct bytes image, uint64_t reply, struct bytes sealed)
{
    for (enum side side = 0; side < SIDES; side++) {
        uint8_t *lent_image = lend(IMAGE, side, image);
        expect(IMAGE, sealed);
        called = what;
        answered(headwords_seal(lent_image, image.length), reply);
    }
}

#endif
