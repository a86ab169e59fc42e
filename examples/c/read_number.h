/* Reading a number among the arguments: the part that the examples of a level share. */
#ifndef NEKBROD_EXAMPLES_READ_NUMBER_H
#define NEKBROD_EXAMPLES_READ_NUMBER_H

#include <stdbool.h>
#include <stdint.h>

/* Decimal digits alone, for a number of 32 bits. */
static bool read_number(const char *word, uint32_t *number)
{
    uint64_t value = 0;
    if (*word == '\0') {
        return false;
    }
    for (; *word != '\0'; word++) {
        if (*word < '0' || '9' < *word) {
            return false;
        }
        value = 10 * value + (uint64_t)(*word - '0');
        if (UINT32_MAX < value) {
            return false;
        }
    }
    *number = (uint32_t)value;
    return true;
}

#endif
