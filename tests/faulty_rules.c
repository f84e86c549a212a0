/* A judge of written rules with one fault. It goes over the text from the left and has, in place of a tree, the set of places that a run may have come to.
 *
 * none             no fault
 * pair             <= compares the pair and not the lexical letter
 * null             a lexical null counts as no letter
 * front, back      the boundary pair is missing before the first pair, after the last
 * one              a star needs one
 * twice            a star repeats at most twice
 * wide             a star is of the whole sequence before it
 * tight            a bar binds tighter than a sequence
 * anchored         a left context begins at the front
 * whole            a right context goes on to the end
 * inner            a full stop does not match the boundary pair
 * last             the last place is not looked at
 * either           where both contexts are asked for, one is enough
 * both             of <=> only the first half is asked for
 * length           a context of 65 bytes is taken
 * depth            brackets to depth 9 are taken
 * count            33 rules are taken
 * side             an empty side after a bar is taken
 * brackets         empty brackets are taken
 * star             a star on nothing is taken
 * line             an empty last line is taken
 * return           a carriage return before a line's end is taken
 * own              255 is taken as an own pair
 * last-pair        pair P is taken
 * order            20 is told before 19 */
#include <string.h>

#include "faulty_rules.h"

typedef uint64_t places; /* a bit for each place between two pairs */

enum { NOT_OF_THE_GRAMMAR = 19, NO_SUCH_PAIR = 20 };

struct reader {
    const uint8_t *text;
    size_t at, end;
    unsigned depth;
    int broken, unlisted;
};

static unsigned pairs; /* how many the grammar has */
static unsigned fed[64]; /* the pairing with its boundary pairs */
static size_t length; /* how many are fed */

static const char *fault; /* the name of the fault */

static int is(const char *name)
{
    return strcmp(fault, name) == 0;
}

static int next_is(const struct reader *reader, char byte)
{
    return reader->at < reader->end && reader->text[reader->at] == byte;
}

static int three_digits(const uint8_t *text, size_t left)
{
    int number = 0;
    for (size_t i = 0; i < 3; i++) {
        if (i == left || text[i] < '0' || text[i] > '9')
            return -1;
        number = 10 * number + text[i] - '0';
    }
    return number;
}

/* The places after one pair, this one or any. */
static places after(places from, int number)
{
    places to = 0;
    for (size_t i = 0; i < length; i++) {
        int matches = number < 0 ? !(is("inner") && fed[i] == 255) : fed[i] == (unsigned)number;
        if (from >> i & 1 && matches)
            to |= (places)1 << (i + 1);
    }
    return to;
}

static places either(struct reader *, places);

static places atom(struct reader *reader, places from)
{
    int number = three_digits(reader->text + reader->at, reader->end - reader->at);
    if (next_is(reader, '.')) {
        reader->at++;
        return after(from, -1);
    }
    if (number >= 0) {
        reader->at += 3;
        if (number != 255 && (unsigned)number >= pairs + is("last-pair"))
            reader->unlisted = 1;
        return after(from, number);
    }
    if (!next_is(reader, '(') || reader->depth == 8u + is("depth")) {
        reader->broken = 1;
        return 0;
    }
    reader->depth++;
    reader->at++;
    places to = is("brackets") && next_is(reader, ')') ? from : either(reader, from);
    reader->depth--;
    if (next_is(reader, ')'))
        reader->at++;
    else
        reader->broken = 1;
    return to;
}

/* What stands at the start over and over, until no place is new, where once leads to these. */
static places repeated(const struct reader *start, places from, places once, places (*part)(struct reader *, places))
{
    places all = is("one") ? once : once | from, before;
    do {
        struct reader again = *start;
        before = all;
        all |= part(&again, all);
    } while (all != before && !is("twice"));
    return all;
}

static places starred(struct reader *reader, places from)
{
    struct reader start = *reader;
    if (is("star") && next_is(reader, '*')) {
        reader->at++;
        return from;
    }
    places to = atom(reader, from);
    if (!reader->broken && next_is(reader, '*'))
        to = repeated(&start, from, to, atom);
    while (!reader->broken && next_is(reader, '*'))
        reader->at++;
    return to;
}

static int goes_on(const struct reader *reader)
{
    return !reader->broken && reader->at < reader->end && !next_is(reader, '|') && !next_is(reader, ')');
}

/* With a bar that binds tighter. */
static places bound(struct reader *reader, places from)
{
    places to = starred(reader, from);
    while (is("tight") && !reader->broken && next_is(reader, '|')) {
        reader->at++;
        to |= starred(reader, from);
    }
    return to;
}

static places plain_sequence(struct reader *reader, places from)
{
    places to = bound(reader, from);
    while (goes_on(reader))
        to = bound(reader, to);
    return to;
}

static places sequence(struct reader *reader, places from)
{
    struct reader start = *reader;
    places to = plain_sequence(reader, from);
    if (is("wide") && !reader->broken && reader->text[reader->at - 1] == '*')
        to = repeated(&start, from, to, plain_sequence);
    return to;
}

static places either(struct reader *reader, places from)
{
    places to = sequence(reader, from);
    while (!reader->broken && next_is(reader, '|')) {
        reader->at++;
        if (is("side") && (reader->at == reader->end || next_is(reader, ')')))
            to |= from;
        else
            to |= sequence(reader, from);
    }
    return to;
}

struct context {
    const uint8_t *text;
    size_t length;
};

/* The places to which a run from one of these may come; sets what is wrong with the context. */
static places matched(struct context context, places from, int *broken, int *unlisted)
{
    struct reader reader = {context.text, 0, context.length, 0, 0, 0};
    if (context.length == 0)
        return from;
    places to = either(&reader, from);
    *broken |= reader.broken || reader.at < reader.end || context.length > 64u + is("length");
    *unlisted |= reader.unlisted;
    return to;
}

struct rule {
    int only, always, never;
    unsigned own;
    struct context left, right;
};

/* Reads a line and says what is wrong with it, or 0. */
static unsigned read_rule(const uint8_t *line, size_t left, struct rule *rule)
{
    static const char *names[] = {"=> ", "<= ", "<=> ", "/<= "};
    size_t kind = 0;
    while (kind < 4 && (left < strlen(names[kind]) || memcmp(line, names[kind], strlen(names[kind])) != 0))
        kind++;
    if (kind == 4)
        return NOT_OF_THE_GRAMMAR;
    line += strlen(names[kind]);
    left -= strlen(names[kind]);
    int own = three_digits(line, left), broken = 0, unlisted = 0;
    const uint8_t *place = left < 4 ? NULL : memchr(line + 4, '_', left - 4);
    if (own < 0 || place == NULL || line[3] != ' ')
        return NOT_OF_THE_GRAMMAR;
    if (is("return") && line[left - 1] == '\r')
        left--;
    *rule = (struct rule){kind == 0 || kind == 2, kind == 1 || (kind == 2 && !is("both")), kind == 3, (unsigned)own, {line + 4, (size_t)(place - line) - 4}, {place + 1, left - (size_t)(place - line) - 1}};
    matched(rule->left, 0, &broken, &unlisted);
    matched(rule->right, 0, &broken, &unlisted);
    if (broken)
        return NOT_OF_THE_GRAMMAR;
    return unlisted || (rule->own >= pairs + is("last-pair") && !(is("own") && own == 255)) ? NO_SUCH_PAIR : 0;
}

static unsigned lexical(const uint8_t *image, unsigned pair)
{
    return image[2 * 512 + 4 + 2 * pair];
}

static int kept(const uint8_t *image, const struct rule *rule)
{
    int none = 0;
    size_t first = !is("front"), end = length - !is("back");
    places everywhere = ((places)1 << (length + 1)) - 1;
    places left = matched(rule->left, is("anchored") ? 1 : everywhere, &none, &none);
    for (size_t i = first; i + is("last") < end; i++) {
        places right = matched(rule->right, (places)1 << (i + 1), &none, &none);
        int holds_left = left >> i & 1, holds_right = is("whole") && rule->right.length > 0 ? right >> length & 1 : right != 0;
        int there = is("either") ? holds_left || holds_right : holds_left && holds_right, is_own = fed[i] == rule->own;
        unsigned letter = lexical(image, fed[i]);
        int same = is("pair") ? is_own : letter == lexical(image, rule->own) && !(is("null") && letter == 0);
        if ((rule->only && is_own && !there) || (rule->always && there && same && !is_own) || (rule->never && is_own && there))
            return 0;
    }
    return 1;
}

uint64_t judge_rules_with_fault(const char *name, const uint8_t *image, const uint8_t *pairing, size_t pairing_length, const uint8_t *text, size_t text_length)
{
    static struct rule rules[64];
    unsigned count = 0, wrong = 0;
    fault = name;
    pairs = image[8];
    if (pairing_length == 0 || pairing_length > 40)
        return 4 * 13 + 3;
    length = 0;
    if (!is("front"))
        fed[length++] = 255;
    for (size_t i = 0; i < pairing_length; i++) {
        if (pairing[i] >= pairs)
            return 4 * 13 + 3;
        fed[length++] = pairing[i];
    }
    if (!is("back"))
        fed[length++] = 255;
    for (size_t at = 0; at < text_length;) {
        const uint8_t *end = memchr(text + at, '\n', text_length - at);
        size_t left = end == NULL ? text_length - at : (size_t)(end - text) - at;
        unsigned found = count == 32u + is("count") ? NOT_OF_THE_GRAMMAR : read_rule(text + at, left, &rules[count]);
        if (is("line") && left == 0 && at > 0 && at + 1 == text_length)
            break;
        if (found == NOT_OF_THE_GRAMMAR || (found != 0 && is("order")))
            return 4 * found + 3;
        wrong = found != 0 ? found : wrong;
        count++;
        at += left + 1;
    }
    if (wrong != 0)
        return 4 * wrong + 3;
    for (unsigned i = 0; i < count; i++)
        if (!kept(image, &rules[i]))
            return 0;
    return 1;
}
