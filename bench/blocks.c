/* What the sum of a block costs, beside one plain read of its bytes.
 * Usage: blocks MODE REPEATS
 *   read  every byte of 128 blocks that a check counts is added up
 *   seal  the 128 blocks are sealed: each is summed, and its number and check written
 *   time  how many times as long sealing takes as reading, REPEATS times each, the fastest of some rounds
 * Each mode prints a number made of what it read or wrote, which keeps the compiler from leaving it out. */
#define _POSIX_C_SOURCE 199309L
#include <stdio.h>
#include <stdlib.h>
#include <string.h>
#include <time.h>

#include "headwords.h"

enum { BLOCKS = 128, BLOCK = 512, COUNTED = 510, ROUNDS = 20 };

static uint8_t image[BLOCKS * BLOCK];

static uint64_t read_all(void)
{
    uint64_t sum = 0;
    for (int k = 0; k < BLOCKS; k++) {
        const uint8_t *block = image + k * BLOCK;
        uint32_t of_block = 0;
        for (int i = 0; i < COUNTED; i++)
            of_block += block[i];
        sum += of_block;
    }
    return sum;
}

static uint64_t seal_all(void)
{
    if (headwords_seal(image, sizeof image) % 4 == HEADWORDS_REFUSED)
        exit(EXIT_FAILURE);
    return image[sizeof image - 1];
}

static uint64_t repeat(uint64_t pass(void), unsigned long repeats)
{
    uint64_t sum = 0;
    for (unsigned long i = 0; i < repeats; i++) {
        image[4] = (uint8_t)i;
        sum += pass();
    }
    return sum;
}

/* The processor's seconds and not the clock's, so that what else runs counts little. */
static double seconds(void)
{
    struct timespec now;
    clock_gettime(CLOCK_PROCESS_CPUTIME_ID, &now);
    return (double)now.tv_sec + 1e-9 * (double)now.tv_nsec;
}

static double least(uint64_t pass(void), unsigned long repeats, double before, uint64_t *sum)
{
    double start = seconds();
    *sum += repeat(pass, repeats);
    double took = seconds() - start;
    return before == 0 || took < before ? took : before;
}

static void print_time(unsigned long repeats)
{
    double reading = 0, sealing = 0;
    uint64_t sum = 0;
    for (int i = 0; i < ROUNDS; i++) {
        reading = least(read_all, repeats, reading, &sum);
        sealing = least(seal_all, repeats, sealing, &sum);
    }
    printf("sealing / reading: %.2f\nsum %llu\n", sealing / reading, (unsigned long long)sum);
}

int main(int argc, char **argv)
{
    unsigned long repeats = argc == 3 ? strtoul(argv[2], NULL, 10) : 0;
    for (size_t i = 0; i < sizeof image; i++)
        image[i] = (uint8_t)(7 * i + i / 3);
    if (repeats > 0 && strcmp(argv[1], "read") == 0) {
        printf("%llu\n", (unsigned long long)repeat(read_all, repeats));
    } else if (repeats > 0 && strcmp(argv[1], "seal") == 0) {
        printf("%llu\n", (unsigned long long)repeat(seal_all, repeats));
    } else if (repeats > 0 && strcmp(argv[1], "time") == 0) {
        print_time(repeats);
    } else {
        fprintf(stderr, "usage: blocks read|seal|time REPEATS\n");
        return 2;
    }
    return EXIT_SUCCESS;
}
