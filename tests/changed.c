/* Changes bytes of an image and seals it again. Usage: changed IMAGE, with a place and a value a line on standard input */
#include <stdio.h>

#include "headwords.h"

int main(int argc, char **argv)
{
    static uint8_t image[65536];
    size_t at, length;
    unsigned value;
    int fields;
    FILE *file = argc == 2 ? fopen(argv[1], "r+b") : NULL;
    if (file == NULL)
        return 2;
    length = fread(image, 1, sizeof image, file);
    while ((fields = scanf("%zu %u", &at, &value)) == 2 && at < length && value < 256)
        image[at] = (uint8_t)value;
    if (fields != EOF || headwords_seal(image, length) != 1)
        return 1;
    rewind(file);
    return fwrite(image, 1, length, file) == length && fclose(file) == 0 ? 0 : 2;
}
