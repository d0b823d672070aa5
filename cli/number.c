#include "number.h"

int digit_value(char digit)
{
    if (digit >= '0' && digit <= '9')
        return digit - '0';
    if (digit >= 'a' && digit <= 'f')
        return digit - 'a' + 10;
    if (digit >= 'A' && digit <= 'F')
        return digit - 'A' + 10;
    return -1;
}

bool read_number(struct slice word, uint32_t *number)
{
    int base = 10;
    if (word.length > 2 && word.start[0] == '0' && word.start[1] == 'x') {
        base = 16;
        word = without_first(word, 2);
    }
    uint64_t value = 0;
    for (size_t i = 0; i < word.length; i++) {
        int digit = digit_value(word.start[i]);
        if (digit < 0 || digit >= base)
            return false;
        value = value * (uint64_t)base + (uint64_t)digit;
        if (value > UINT32_MAX)
            return false;
    }
    *number = (uint32_t)value;
    return word.length > 0;
}

bool read_number_within(struct slice word, uint32_t least, uint32_t most, uint32_t *number)
{
    return read_number(word, number) && *number >= least && *number <= most;
}

bool read_colour(struct slice word, uint32_t *colour)
{
    static const char *const names[] = { "black", "blue", "green", "cyan", "red", "magenta", "yellow", "white" };
    for (uint32_t i = 0; i < sizeof names / sizeof names[0]; i++)
        if (slice_is(word, names[i])) {
            *colour = i;
            return true;
        }
    return read_number(word, colour);
}
