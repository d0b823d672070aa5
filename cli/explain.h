/* Why the library refused a text, from the text itself. */
#ifndef EXPLAIN_H
#define EXPLAIN_H

#include "dirgeflint.h"
#include "input.h"

enum { REASON = 320 };

/* Says that the text was refused, and where and why; gives the status. The byte at the answer's place is image's, for a text that was read. */
int explain_refusal(const struct input *input, dirgeflint_answer answer, const uint8_t *image);

/* Where an address of the image lies, for a message: its cell and row, or that it holds no row. */
const char *place_in_font(size_t address, char room[REASON]);

/* The first address that no record of an accepted text gives; DIRGEFLINT_IMAGE_BYTES if every one is given. */
size_t first_not_given(struct slice text);

#endif
