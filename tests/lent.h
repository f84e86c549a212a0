/* Ranges to lend to a call: each lies flush against a page that nothing may touch, and after the call every byte of the pages around it is compared. */
#ifndef LENT_H
#define LENT_H

#include <signal.h>
#include <stdint.h>
#include <stdio.h>
#include <stdlib.h>
#include <string.h>
#include <sys/mman.h>
#include <unistd.h>

struct bytes {
    const uint8_t *at;
    size_t length;
};

#define BYTES(...) ((struct bytes){(const uint8_t[]){__VA_ARGS__}, sizeof((const uint8_t[]){__VA_ARGS__})})
#define TEXT(string) ((struct bytes){(const uint8_t *)(string), strlen(string)})

static const struct bytes nothing = {(const uint8_t[]){0}, 0};

static inline struct bytes first(size_t count, struct bytes of)
{
    return (struct bytes){of.at, count};
}

/* Where a range lies within its pages: no byte after its end, or none before its start, can be touched. */
enum side { AT_END, AT_START, SIDES };

struct lent {
    const char *name;
    uint8_t *pages; /* with a page before and one after that nothing may touch */
    size_t size;
    uint8_t *expected; /* what the pages should hold after the call */
    size_t start, length; /* the range within the pages */
    int is_lent;
};

enum range { IMAGE, GIVEN, PAIRING, REPLIES, OUT, RANGES };
static struct lent ranges[RANGES] = {{.name = "image"}, {.name = "word, words, code points, path or rules"}, {.name = "pairing"}, {.name = "replies"}, {.name = "buffer"}};

static const char *called = "no call"; /* the call under way, to be told when it is wrong */
static unsigned failures;

static inline void failed(void)
{
    if (++failures == 20) {
        printf("and perhaps more\n");
        exit(1);
    }
}

/* A range has room for so many bytes. */
static inline void make_room(enum range range, size_t most)
{
    struct lent *lent = &ranges[range];
    size_t page = (size_t)sysconf(_SC_PAGESIZE);
    lent->size = (most / page + 1) * page;
    lent->expected = malloc(lent->size);
    uint8_t *all = mmap(NULL, lent->size + 2 * page, PROT_NONE, MAP_PRIVATE | MAP_ANONYMOUS, -1, 0);
    if (lent->expected == NULL || all == MAP_FAILED || mprotect(all + page, lent->size, PROT_READ | PROT_WRITE) != 0) {
        perror("no room");
        exit(2);
    }
    lent->pages = all + page;
}

/* Lends so many bytes, which hold what the pages around them hold. */
static inline uint8_t *lend_room(enum range range, enum side side, size_t length)
{
    struct lent *lent = &ranges[range];
    for (size_t i = 0; i < lent->size; i++)
        lent->pages[i] = (uint8_t)(7 * i + 11);
    memcpy(lent->expected, lent->pages, lent->size);
    lent->start = side == AT_END ? lent->size - length : 0;
    lent->length = length;
    lent->is_lent = 1;
    return lent->pages + lent->start;
}

/* After the call a range should have these bytes from a place on. */
static inline void expect_at(enum range range, size_t place, struct bytes bytes)
{
    memcpy(ranges[range].expected + ranges[range].start + place, bytes.at, bytes.length);
}

/* After the call a range should begin with these bytes. */
static inline void expect(enum range range, struct bytes bytes)
{
    expect_at(range, 0, bytes);
}

/* Lends these bytes. */
static inline uint8_t *lend(enum range range, enum side side, struct bytes bytes)
{
    uint8_t *start = lend_room(range, side, bytes.length);
    memcpy(start, bytes.at, bytes.length);
    expect(range, bytes);
    return start;
}

/* The reply is the one wanted and every byte of the ranges lent is as expected; after this none is lent. */
static inline void answered(uint64_t reply, uint64_t wanted)
{
    if (reply != wanted) {
        printf("%s: %llu, not %llu\n", called, (unsigned long long)reply, (unsigned long long)wanted);
        failed();
    }
    for (struct lent *lent = ranges; lent < ranges + RANGES; lent++) {
        if (lent->is_lent && memcmp(lent->pages, lent->expected, lent->size) != 0) {
            size_t i = 0;
            while (lent->pages[i] == lent->expected[i])
                i++;
            printf("%s: byte %ld of the %s, which has %zu, is %u, not %u\n", called, (long)(i - lent->start), lent->name, lent->length, lent->pages[i], lent->expected[i]);
            failed();
        }
        lent->is_lent = 0;
    }
}

/* Tells what was touched. The signal comes from within a call, which holds nothing that printing needs. */
static inline void touched(int signal, siginfo_t *info, void *context)
{
    (void)signal;
    (void)context;
    printf("%s: a byte that is not lent is touched\n", called);
    for (struct lent *lent = ranges; lent < ranges + RANGES; lent++) {
        long at = (uint8_t *)info->si_addr - lent->pages, page = sysconf(_SC_PAGESIZE);
        if (lent->is_lent && at >= -page && at < (long)lent->size + page)
            printf("byte %ld of the %s, which has %zu\n", at - (long)lent->start, lent->name, lent->length);
    }
    fflush(stdout);
    _exit(1);
}

static inline void watch(void)
{
    struct sigaction action = {.sa_sigaction = touched, .sa_flags = SA_SIGINFO};
    sigaction(SIGSEGV, &action, NULL);
}

#endif
