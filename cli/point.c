#include "point.h"

#include <stdio.h>
#include <string.h>

enum { WINDOW = 72 }; /* bytes of a line that are shown */

#define INDENT "    "
#define LEFT_OUT "..."

static size_t lesser(size_t one, size_t other)
{
    return one < other ? one : other;
}

/* Where what is shown of a line begins: the place is in its middle, unless the line begins or ends nearer to it. */
static size_t window_start(size_t length, size_t place)
{
    size_t middle = WINDOW / 2;
    return lesser(place > middle ? place - middle : 0, length > WINDOW ? length - WINDOW : 0);
}

void point_at(struct slice line, size_t place)
{
    char window[WINDOW];
    size_t start = window_start(line.length, place), length = lesser(line.length - start, WINDOW), dots = strlen(LEFT_OUT);
    for (size_t i = 0; i < length; i++)
        window[i] = is_printable(line.start[start + i]) ? line.start[start + i] : '?';
    if (start > 0)
        memcpy(window, LEFT_OUT, dots);
    if (start + length < line.length)
        memcpy(window + length - dots, LEFT_OUT, dots);
    fprintf(stderr, INDENT "%.*s\n" INDENT "%*s\n", (int)length, window, (int)(place - start) + 1, "^");
}
