/* A font from its text, with all that has to be said about it; and the text of a font. */
#ifndef FONTTEXT_H
#define FONTTEXT_H

#include "dirgeflint.h"

struct font {
    uint16_t rows[DIRGEFLINT_FONT_ROWS];
    uint32_t given; /* how many bytes of the image the text gives */
};

/* Reads a font; gives the status. A text that does not give every byte is warned of, or is bad input if it has to be whole. */
int load_font(const char *path, bool whole, struct font *font);

/* Says that the library refused a font, and at which cell and row if one of its rows is bad; gives the status. */
int refused_font(dirgeflint_answer answer);

/* Makes the text of a font, as it is written to files; gives the status. */
int make_text(const uint16_t rows[DIRGEFLINT_FONT_ROWS], uint8_t text[DIRGEFLINT_TEXT_BYTES]);

/* What a table knows its font by: the CRC-32 of that text. */
uint32_t sum_of_text(const uint8_t text[DIRGEFLINT_TEXT_BYTES]);

#endif
