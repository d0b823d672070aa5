/* What drawings of cells and of glyphs have in common: headings, and below each its 18 rows, a character a dot. */
#ifndef ROWS_H
#define ROWS_H

#include "dirgeflint.h"
#include "lines.h"

enum { LABEL = SHOWN + 8 }; /* a word, and a name as messages show it */

/* The reading of a drawing, how far it is. */
struct rows {
    const struct drawn *drawn;
    const char *file;
    struct lines lines;
    void *into;        /* what the headings note things in */
    char label[LABEL]; /* what is under way, for a message */
    uint16_t *to;      /* where its rows go; NULL before the first heading */
    uint32_t row;      /* the row that comes next; DIRGEFLINT_CELL_ROWS if it is whole */
};

/* A kind of drawing. */
struct drawn {
    const char *word;            /* that a heading begins with, and what is drawn below it */
    const char *form, *example;  /* of a heading, for messages */
    const char *other, *command; /* what the other kind of drawing has, and who takes it */

    /* Takes what follows the word in a heading: sets the label and where the rows go, or says what is wrong; gives the status. */
    int (*begin)(struct rows *rows, struct slice rest);
};

/* Reads a drawing; gives the status. */
int read_rows(const char *path, const struct drawn *drawn, void *into);

#endif
