/* A line of a text on standard error, with a mark under one of its characters: it follows the message about that character. */
#ifndef POINT_H
#define POINT_H

#include "slice.h"

/* The line is lent without its end; place is the character's in it, from 0. Of a long line the part round the character is shown. */
void point_at(struct slice line, size_t place);

#endif
