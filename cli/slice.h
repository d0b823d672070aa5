/* A part of some text that is lent: not ended by NUL, and it may hold any byte. */
#ifndef SLICE_H
#define SLICE_H

#include <stdbool.h>
#include <stddef.h>

struct slice {
    const char *start;
    size_t length;
};

struct slice slice_of(const char *string);
struct slice without_first(struct slice slice, size_t count);
bool slice_is(struct slice slice, const char *string);

/* Whether the byte is printable ASCII, a blank included. */
bool is_printable(char byte);

/* Room for a word as it stands in a message. */
enum { SHOWN = 128 };

/* The slice between quotes, for a message: a byte that is not printable ASCII as \xHH, and cut if it is long. Gives back room. */
const char *shown(struct slice slice, char room[SHOWN]);

#endif
