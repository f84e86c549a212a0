/* Faults of the ways on that an entry has in form 2, and of the converter, by their names in faulty.c. */
#ifndef FAULTY_WAYS_H
#define FAULTY_WAYS_H

#include <stddef.h>
#include <stdint.h>

/* The image that the true call is given, with the fault WHAT; it is the image itself where the fault changes nothing, and stands until the next call. */
const uint8_t *image_with_fault(const char *what, const uint8_t *image, size_t length);

/* Puts all rows of a word into the order WHAT. */
void put_in_order(const char *what, const uint8_t *image, size_t length, uint8_t *rows, size_t count);

/* The converter with the fault WHAT. */
uint64_t convert_with_fault(const char *what, const uint8_t *image, size_t length, uint8_t *target, size_t target_length);

#endif
