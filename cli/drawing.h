/* A font as a drawing: a heading for each cell, then its rows, a character a dot. */
#ifndef DRAWING_H
#define DRAWING_H

#include <stdio.h>

#include "dirgeflint.h"
#include "slice.h"

struct drawing {
    uint16_t rows[DIRGEFLINT_FONT_ROWS];
    size_t headings[DIRGEFLINT_CELLS]; /* the line of each cell's heading, 0 for a cell that is not drawn */
};

/* Reads a drawing; gives the status. A cell that is not drawn is empty. */
int read_drawing(const char *path, struct drawing *drawing);

/* A cell's number as drawings and tables have it, which are for people: decimal, as 0x belongs to words and bytes. */
bool read_drawn_cell(struct slice word, uint32_t *cell);

void write_cell(FILE *stream, const uint16_t *font, uint32_t cell);

#endif
