/* Images made block by block, in either form. */
#ifndef BUILT_H
#define BUILT_H

#include "headwords.h"
#include "lent.h"

enum { BLOCK = 512, MOST_BLOCKS = 128 };

static inline void put_two(uint8_t *at, size_t number)
{
    at[0] = (uint8_t)(number % 256);
    at[1] = (uint8_t)(number / 256);
}

struct image {
    uint8_t bytes[MOST_BLOCKS * BLOCK];
    size_t length;
    unsigned form;
};

/* The records of the next block. */
static inline uint8_t *add_block(struct image *image, uint8_t kind, size_t records)
{
    uint8_t *block = image->bytes + image->length;
    image->length += BLOCK;
    memset(block, 0, BLOCK);
    block[2] = kind;
    block[3] = (uint8_t)records;
    return block + 4;
}

/* The first two blocks; letters have code points from 100 on. */
static inline void add_header(struct image *image, unsigned form, size_t letters, size_t pairs, size_t rules, size_t lexicons, size_t entries, size_t sets)
{
    size_t counts[] = {form, letters, pairs, rules, lexicons, entries, sets};
    image->length = 0;
    image->form = form;
    uint8_t *header = add_block(image, 1, 1);
    for (size_t i = 0; i < 7; i++)
        put_two(header + 2 * i, counts[i]);
    uint8_t *points = add_block(image, 2, letters);
    for (size_t i = 0; i < letters; i++)
        put_two(points + 2 * i, 100 + i);
}

/* Whether a path may stop at an entry, and the lexicons that it may go on to, bit x for lexicon x. */
struct entry {
    struct bytes form;
    int ends;
    uint64_t lexicons;
};

/* An entry as form 1 has it: one lexicon, or 255 for the end. */
static inline struct entry one_way(struct bytes form, uint8_t continuation)
{
    return (struct entry){form, continuation == 255, continuation == 255 ? 0 : (uint64_t)1 << continuation};
}

static inline void put_ways(uint8_t *record, unsigned form, struct entry entry)
{
    uint8_t lowest = 0;
    while (!entry.ends && lowest < 63 && (entry.lexicons >> lowest & 1) == 0)
        lowest++;
    if (form == 1) {
        record[13] = entry.ends ? 255 : lowest;
        return;
    }
    record[13] = (uint8_t)(entry.ends != 0);
    for (size_t j = 0; j < 8; j++)
        record[16 + j] = (uint8_t)(entry.lexicons >> 8 * j);
}

/* Entry number e is entry_of(e), with gloss e. */
static inline void add_entries(struct image *image, size_t entries, struct entry entry_of(size_t))
{
    size_t width = image->form == 1 ? 16 : 24, in_block = image->form == 1 ? 31 : 21;
    uint8_t *at = NULL;
    for (size_t e = 0; e < entries; e++) {
        at = e % in_block > 0 ? at + width : add_block(image, 6, entries - e < in_block ? entries - e : in_block);
        struct entry entry = entry_of(e);
        at[0] = (uint8_t)entry.form.length;
        memcpy(at + 1, entry.form.at, entry.form.length);
        put_two(at + 14, e);
        put_ways(at, image->form, entry);
    }
}

static inline struct bytes sealed(struct image *image)
{
    headwords_seal(image->bytes, image->length);
    return (struct bytes){image->bytes, image->length};
}

#endif
