/* Numbers and colours as they are written in files and on the command line. */
#ifndef NUMBER_H
#define NUMBER_H

#include <stdint.h>

#include "slice.h"

/* The value of a hexadecimal digit of either case, or -1. */
int digit_value(char digit);

/* Decimal digits, or 0x and hexadecimal digits, at most 4294967295. */
bool read_number(struct slice word, uint32_t *number);

/* How it may be written, after its range in a message. */
#define IN_FORM " (hexadecimal after 0x)"

/* A number from least to most. */
bool read_number_within(struct slice word, uint32_t least, uint32_t most, uint32_t *number);

/* What a colour may be, for messages and help. */
#define COLOURS "black, blue, green, cyan, red, magenta, yellow, white, or 0 to 7"

/* A colour by its name, or any number: whether it is one of the eight is for whoever takes it. */
bool read_colour(struct slice word, uint32_t *colour);

#endif
