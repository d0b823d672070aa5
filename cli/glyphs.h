/* Drawn glyphs: a heading with a name for each, then its rows, a character a dot. */
#ifndef GLYPHS_H
#define GLYPHS_H

#include "names.h"

struct glyphs {
    size_t count;       /* of all that are drawn; of more than MOST_NAMES the first are kept */
    struct names names; /* with the lines of the headings */
    uint16_t rows[MOST_NAMES * DIRGEFLINT_CELL_ROWS];
};

/* Reads drawings of glyphs; gives the status. */
int read_glyphs(const char *path, struct glyphs *glyphs);

#endif
