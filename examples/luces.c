/* Prints the headwords of some words by the luz grammar: of each reading the first entry of its path, as its letters.
 * Usage: luces IMAGE */
#include <stdio.h>
#include <stdlib.h>

#include "headwords.h"

enum { WORDS = 3, SHARE = 8 }; /* so many words, and rows for each */
static const char *const written[WORDS] = {"Luces", "Luz", "luzes"};

static uint8_t image[65537]; /* a byte more than an image may have, so that a longer file is refused */
static size_t image_length;

/* Letters 1 to 9 of the luz grammar, to print forms with. */
static const char alphabet[] = "#+celsuzZ";

static unsigned number(const uint8_t *row, unsigned place)
{
    return row[2 * place] + 256u * row[2 * place + 1];
}

static int print_form(unsigned entry)
{
    uint8_t letters[12];
    uint64_t reply = headwords_form(image, image_length, entry, letters, sizeof letters);
    if (reply % 4 != HEADWORDS_ALL)
        return 0;
    putchar(' ');
    for (uint64_t i = 0; i < reply / 4; i++)
        putchar(letters[i] < sizeof alphabet ? alphabet[letters[i] - 1] : '?'); /* another grammar may have more letters */
    return 1;
}

static int refused(uint64_t reply)
{
    fprintf(stderr, "refused %u\n", (unsigned)(reply / 4));
    return EXIT_FAILURE;
}

/* Spells a word into its record: the length, and then a letter for each code point. */
static uint64_t put_word(const char *word, uint8_t *record)
{
    uint8_t points[64];
    size_t n = 0;
    for (; n < 32 && word[n] != '\0'; n++) {
        points[2 * n] = (uint8_t)word[n]; /* two bytes each, the low byte first */
        points[2 * n + 1] = 0;
    }
    uint64_t reply = headwords_spell(image, image_length, points, 2 * n, record + 1, HEADWORDS_WORD_BYTES - 1);
    record[0] = (uint8_t)(reply / 4);
    return reply;
}

int main(int argc, char **argv)
{
    uint8_t words[WORDS * HEADWORDS_WORD_BYTES], rows[WORDS * SHARE * HEADWORDS_ROW_BYTES];
    uint64_t replies[WORDS];
    FILE *file = argc == 2 ? fopen(argv[1], "rb") : NULL;
    if (file != NULL) {
        image_length = fread(image, 1, sizeof image, file);
        fclose(file);
    }

    for (size_t i = 0; i < WORDS; i++) {
        uint64_t spelled = put_word(written[i], words + HEADWORDS_WORD_BYTES * i);
        if (spelled % 4 == HEADWORDS_REFUSED)
            return refused(spelled);
    }

    uint64_t reply = headwords_analyse_words(image, image_length, words, sizeof words, (uint8_t *)replies, sizeof replies, rows, sizeof rows);
    if (reply % 4 == HEADWORDS_REFUSED)
        return refused(reply);
    for (size_t i = 0; i < WORDS; i++) {
        const uint8_t *share = rows + HEADWORDS_ROW_BYTES * SHARE * i;
        printf("%s:", written[i]);
        for (uint64_t k = 0; k < replies[i] / 4; k++) /* what is spelled is not refused */
            if (!print_form(number(share + HEADWORDS_ROW_BYTES * k, 1)))
                return EXIT_FAILURE;
        puts(replies[i] % 4 == HEADWORDS_MORE ? " and more" : "");
    }
    return EXIT_SUCCESS;
}
