#include "slice.h"

#include <stdio.h>
#include <string.h>

enum { MOST_SHOWN = 28 }; /* bytes of a word that a message shows; four characters each, quotes and dots fit in SHOWN */

struct slice slice_of(const char *string)
{
    struct slice all = { string, strlen(string) };
    return all;
}

struct slice without_first(struct slice slice, size_t count)
{
    struct slice rest = { slice.start + count, slice.length - count };
    return rest;
}

bool slice_is(struct slice slice, const char *string)
{
    return slice.length == strlen(string) && memcmp(slice.start, string, slice.length) == 0;
}

bool is_printable(char byte)
{
    return byte >= ' ' && byte <= '~';
}

const char *shown(struct slice slice, char room[SHOWN])
{
    size_t used = 0;
    room[used++] = '\'';
    for (size_t i = 0; i < slice.length && i < MOST_SHOWN; i++) {
        char byte = slice.start[i];
        if (is_printable(byte))
            room[used++] = byte;
        else
            used += (size_t)snprintf(room + used, SHOWN - used, "\\x%02X", (unsigned)(unsigned char)byte);
    }
    snprintf(room + used, SHOWN - used, "%s", slice.length > MOST_SHOWN ? "..'" : "'");
    return room;
}
