/* The judge of written rules, on an accepted image, with the fault of this name. */
#ifndef FAULTY_RULES_H
#define FAULTY_RULES_H

#include <stddef.h>
#include <stdint.h>

uint64_t judge_rules_with_fault(const char *name, const uint8_t *image, const uint8_t *pairing, size_t pairing_length, const uint8_t *text, size_t text_length);

#endif
