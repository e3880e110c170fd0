/* Reads a number in an argument, for the examples beside it. */
#ifndef NUMBER_H
#define NUMBER_H

#include <stddef.h>
#include <stdint.h>

/* Reads the decimal digits from `text` up to `end`, which is a separator, or
 * '\0' where the word ends. Returns where `end` stands, or NULL if there are no
 * digits, something else is among them or the number is above `most`. */
static const char *read_number(const char *text, char end, uint32_t most, uint32_t *number)
{
    const char *at = text;
    uint64_t value = 0;

    for (; *at >= '0' && *at <= '9'; at++) {
        value = 10 * value + (uint64_t)(*at - '0');
        if (value > most) {
            return NULL;
        }
    }
    if (at == text || *at != end) {
        return NULL;
    }
    *number = (uint32_t)value;
    return at;
}

#endif
