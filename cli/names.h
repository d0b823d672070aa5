/* The names of glyphs: what may be one, finding one among others, and how a message shows it. */
#ifndef NAMES_H
#define NAMES_H

#include "dirgeflint.h"
#include "slice.h"

enum {
    MOST_NAME = 64,                         /* bytes of the longest name */
    MOST_NAMES = DIRGEFLINT_MOST_GLYPHS + 1 /* one more than can be packed, so that more are refused and not cut */
};

struct name {
    char text[MOST_NAME + 1];
    size_t line; /* where it stands in its file */
};

struct names {
    size_t count;
    struct name all[MOST_NAMES];
};

/* Whether the word can be a name; a message on this line of the file tells if not. Gives the status. */
int judge_name(const char *file, size_t line, struct slice word);

/* The index of a name, or the count if there is no such name. */
size_t find_name(const struct names *names, struct slice word);

/* The index of the name that is most like the word, or the count if none is much like it. The word can be a name. */
size_t find_near(const struct names *names, struct slice word);

/* Adds what can be a name, if there is room. */
void add_name(struct names *names, struct slice word, size_t line);

/* The number of the letter that the name is, if it is a single one outside ASCII; else 0. */
uint32_t single_letter(struct slice name);

/* The name between quotes, for a message, with the number of a single letter: two alphabets may have letters that look alike. Gives back room. */
const char *shown_name(struct slice name, char room[SHOWN]);

#endif
