/* The records of a text, read again to explain what the library found: it decides, and this only looks for the words. */
#ifndef RECORD_H
#define RECORD_H

#include <stdint.h>

#include "dirgeflint.h"
#include "slice.h"

enum shape { WHOLE, EMPTY, BAD_CHARACTER, ODD_DIGITS, WRONG_COUNT };

enum { AROUND_DATA = 5, MOST_RECORD = 255 + AROUND_DATA };

/* A line as a record, as far as it has the shape of one. */
struct record {
    enum shape shape;
    size_t count;               /* bytes that the line spells, of which MOST_RECORD are kept */
    uint8_t bytes[MOST_RECORD]; /* length, address (2), type, data, checksum */
};

struct record read_record(struct slice line);
unsigned record_address(const struct record *record);
unsigned record_type(const struct record *record);

/* What the checksum byte has to be. */
uint8_t right_checksum(const struct record *record);

/* For each byte of the image the number of the line that gives it first, 0 for none, by the records up to the end record. */
void find_givers(struct slice text, size_t givers[DIRGEFLINT_IMAGE_BYTES]);

#endif
