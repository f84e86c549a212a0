/* Searches for the rule that the judge takes longest for: worst_rules IMAGE SECONDS [SEED]. From rules with stars in stars, and from any, bytes are changed
 * one or some at a time, and a change is kept where 32 such rules take longer by a pairing of 40 pairs. Prints, at the end, microseconds, the pairing and
 * the rule. Times are of the processor, the least of some calls. */
#define _POSIX_C_SOURCE 199309L
#include <stdio.h>
#include <stdlib.h>
#include <string.h>
#include <time.h>

#include "headwords.h"

enum { RULES = 32, PAIRS = 40, MOST = 64, CALLS = 3, PATIENCE = 400 };

struct rule {
    unsigned operator, own;
    char contexts[2][MOST + 1];
    uint8_t pairing[PAIRS];
};

static uint8_t image[65537];
static size_t image_length;
static unsigned pairs;
static uint64_t state;

static unsigned below(unsigned bound)
{
    state = state * 6364136223846793005u + 1442695040888963407u;
    return (unsigned)(state >> 33) % bound;
}

static double seconds(void)
{
    struct timespec now;
    clock_gettime(CLOCK_PROCESS_CPUTIME_ID, &now);
    return (double)now.tv_sec + 1e-9 * (double)now.tv_nsec;
}

static size_t write_rule(char *to, size_t room, const struct rule *rule)
{
    static const char *operators[] = {"=>", "<=", "<=>", "/<="};
    return (size_t)snprintf(to, room, "%s %03u %s_%s\n", operators[rule->operator], rule->own, rule->contexts[0], rule->contexts[1]);
}

/* What 32 such rules take, or 0 where they are refused. */
static double cost(const struct rule *rule)
{
    static char text[RULES * (2 * MOST + 16)];
    size_t length = 0;
    double least = 1e9;
    for (int i = 0; i < RULES; i++)
        length += write_rule(text + length, sizeof text - length, rule);
    for (int i = 0; i < CALLS; i++) {
        double start = seconds();
        if (headwords_judge_rules(image, image_length, rule->pairing, PAIRS, (uint8_t *)text, length) > 1)
            return 0;
        double took = seconds() - start;
        least = took < least ? took : least;
    }
    return least;
}

static void change_context(char *context)
{
    static const char *pieces[] = {".", "*", "|", "(", ")", "000", "001", "255", ".*", "(.*)*", "|.", "(.|.)", ")*", "(."};
    char changed[4 * MOST];
    size_t length = strlen(context), from = below((unsigned)length + 1), gone = below(4) == 0 ? below(8) : below(2);
    const char *piece = pieces[below(sizeof pieces / sizeof *pieces)];
    char copied[16] = "";
    if (below(3) == 0 && length > 0) {
        size_t start = below((unsigned)length), count = 1 + below(12);
        snprintf(copied, sizeof copied, "%.*s", (int)count, context + start);
        piece = copied;
    }
    if (from + gone > length)
        gone = length - from;
    snprintf(changed, sizeof changed, "%.*s%s%s", (int)from, context, piece, context + from + gone);
    if (strlen(changed) <= MOST)
        strcpy(context, changed);
}

static struct rule changed(struct rule rule)
{
    for (unsigned many = 1 + below(3); many > 0; many--)
        switch (below(8)) {
        case 0:
            rule.operator = below(4);
            break;
        case 1:
            rule.own = below(pairs);
            break;
        case 2:
            rule.pairing[below(PAIRS)] = (uint8_t)below(pairs);
            break;
        case 3:
            memset(rule.pairing, (int)below(pairs), PAIRS);
            break;
        case 4:
            strcpy(rule.contexts[below(2)], rule.contexts[below(2)]);
            break;
        default:
            change_context(rule.contexts[below(2)]);
        }
    return rule;
}

static struct rule any_start(void)
{
    static const char *starts[] = {
        "",
        ".",
        "((((((((.*)*)*)*)*)*)*)*)*",
        "(((((((.*.*)*.*)*.*)*.*)*.*)*.*)*.*)*.*.*.*.*.*.*.*.*.*.*.",
        "(.|..|...|....|.....|......|.......|........|.........)*.*",
        "((.*|.*)*|(.*|.*)*|((.*|.*)*|(.*|.*)*)*)*.*.*.*.*.*.*.*.*.",
        ".*.*.*.*.*.*.*.*.*.*.*.*.*.*.*.*.*.*.*.*.*.*.*.*.*.*.*.*.*.*.*.*",
    };
    enum { STARTS = sizeof starts / sizeof *starts };
    struct rule rule = {.operator = below(4), .own = 0};
    strcpy(rule.contexts[0], starts[below(STARTS)]);
    strcpy(rule.contexts[1], starts[below(STARTS)]);
    return rule;
}

int main(int argc, char **argv)
{
    FILE *file = argc > 2 ? fopen(argv[1], "rb") : NULL;
    if (file == NULL)
        return 2;
    image_length = fread(image, 1, sizeof image, file);
    fclose(file);
    if (headwords_check(image, image_length) != 1)
        return 2;
    pairs = image[8];
    state = argc > 3 ? strtoul(argv[3], NULL, 10) : 1;
    double end = seconds() + strtod(argv[2], NULL), worst = 0;
    struct rule found = any_start();
    while (seconds() < end) {
        struct rule rule = any_start();
        double took = cost(&rule);
        for (unsigned idle = 0; idle < PATIENCE && seconds() < end; idle++) {
            struct rule other = changed(rule);
            /* measured again, so that what only once took long is not kept */
            double longer = cost(&other), again = longer > 1.01 * took ? cost(&other) : 0;
            if (again > 1.01 * took) {
                rule = other;
                took = again < longer ? again : longer;
                idle = 0;
            }
        }
        if (took > worst) {
            worst = took;
            found = rule;
        }
    }
    char text[2 * MOST + 32];
    write_rule(text, sizeof text, &found);
    printf("%.0f microseconds\n", 1e6 * worst);
    for (int i = 0; i < PAIRS; i++)
        printf("%u%c", found.pairing[i], i + 1 < PAIRS ? ' ' : '\n');
    fputs(text, stdout);
    return EXIT_SUCCESS;
}
