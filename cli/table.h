/* The table of a packed font: which glyph is in which cell. */
#ifndef TABLE_H
#define TABLE_H

#include <stdio.h>

#include "glyphs.h"

struct table {
    const char *file;
    struct names names;
    uint8_t cells[MOST_NAMES]; /* of the names */
    uint32_t sum;              /* of the font's text */
    size_t sum_line;           /* where it stands; 0 if it does not */
};

/* Writes the table of glyphs that were packed to these cells, so many of them being used, of a font with this sum. */
void write_table(FILE *stream, const struct glyphs *glyphs, const uint8_t *cells, uint32_t used, uint32_t sum);

/* Reads a table; gives the status. */
int read_table(const char *path, struct table *table);

/* Tells of a font that is not the table's; gives the status. */
int judge_sum(const struct table *table, const uint16_t rows[DIRGEFLINT_FONT_ROWS]);

/* The cell of the glyph that a line of another file names. If the table has no such name a message tells; gives the status. */
int find_cell(const struct table *table, const char *file, size_t line, struct slice name, uint32_t *cell);

#endif
