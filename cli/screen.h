/* The file of a screen: a word a line. */
#ifndef SCREEN_H
#define SCREEN_H

#include "table.h"

/* Reads a screen, with the table of the glyphs that it may name, or NULL; gives the status. Words that the file does not give are ends. */
int read_screen(const char *path, const struct table *table, uint16_t words[DIRGEFLINT_WORDS]);

#endif
