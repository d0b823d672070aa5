/* Files that are read, whole. */
#ifndef INPUT_H
#define INPUT_H

#include "slice.h"

struct input {
    const char *name;  /* for messages */
    struct slice text; /* all that was read */
    char *room;        /* what free_input gives back */
};

/* Whether the path names standard input, and what a message calls the file. */
bool is_standard(const char *path);
const char *input_name(const char *path);

/* Reads a file, or its first most bytes if it has more. Where it cannot, a message says why; then there is nothing to free. */
bool read_input(const char *path, size_t most, struct input *input);
/* Some editors put a byte order mark in front of a text; no kind of file may have one. */
#define MARKED "the file begins with a byte order mark (EF BB BF): save it without"
bool has_mark(struct slice text);

/* Tells of the mark that a file of lines begins with; gives the status. */
int judge_mark(const struct input *input);

void free_input(struct input *input);

#endif
