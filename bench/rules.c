/* Calls of the judge of written rules, to be counted. Usage: rules MODE IMAGE PAIRING TEXT
 *   read    sums the bytes of the text
 *   check   the same, and one image check
 *   judge   the same as read, and one call of the judge; prints its reply
 *   time    the least time of some calls, in microseconds
 * PAIRING has pair numbers, split by spaces; TEXT is a file of rules. */
#define _POSIX_C_SOURCE 199309L
#include <stdio.h>
#include <stdlib.h>
#include <string.h>
#include <time.h>

#include "headwords.h"

enum { ROUNDS = 200 };

static uint8_t image[65537], text[65536], pairing[64];

static size_t load(const char *name, uint8_t *to, size_t most)
{
    FILE *file = fopen(name, "rb");
    if (file == NULL) {
        perror(name);
        exit(EXIT_FAILURE);
    }
    size_t length = fread(to, 1, most, file);
    fclose(file);
    return length;
}

static size_t read_pairing(const char *numbers)
{
    size_t length = 0;
    char *end;
    for (unsigned long pair = strtoul(numbers, &end, 10); end != numbers && length < sizeof pairing; pair = strtoul(numbers, &end, 10)) {
        pairing[length++] = (uint8_t)pair;
        numbers = end;
    }
    return length;
}

static double microseconds(void)
{
    struct timespec now;
    clock_gettime(CLOCK_PROCESS_CPUTIME_ID, &now);
    return 1e6 * (double)now.tv_sec + 1e-3 * (double)now.tv_nsec;
}

int main(int argc, char **argv)
{
    if (argc != 5)
        return 2;
    size_t image_length = load(argv[2], image, sizeof image), pairs = read_pairing(argv[3]), length = load(argv[4], text, sizeof text);
    unsigned long sum = 0;
    for (size_t i = 0; i < length; i++)
        sum += text[i];
    if (strcmp(argv[1], "check") == 0)
        printf("%llu\n", (unsigned long long)headwords_check(image, image_length));
    else if (strcmp(argv[1], "judge") == 0)
        printf("%llu\n", (unsigned long long)headwords_judge_rules(image, image_length, pairing, pairs, text, length));
    else if (strcmp(argv[1], "time") == 0) {
        double least = 1e12;
        for (int i = 0; i < ROUNDS; i++) {
            double start = microseconds();
            headwords_judge_rules(image, image_length, pairing, pairs, text, length);
            double took = microseconds() - start;
            least = took < least ? took : least;
        }
        printf("%.0f\n", least);
    } else if (strcmp(argv[1], "read") == 0)
        printf("%lu\n", sum);
    else
        return 2;
    return EXIT_SUCCESS;
}
