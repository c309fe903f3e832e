/* A plain pass: every byte of a table is read once, as words of eight bytes, and nothing else is done. Compiled without vectorizing. */
#include "plain.h"

#include <string.h>

uint64_t plain_pass(const uint8_t *bytes, size_t length)
{
    uint64_t sum = 0;
    for (size_t i = 0; i + 8 <= length; i += 8) {
        uint64_t word;
        memcpy(&word, bytes + i, 8);
        sum += word;
    }
    return sum;
}
