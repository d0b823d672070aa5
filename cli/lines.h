/* The lines of a text, and the words of a line. */
#ifndef LINES_H
#define LINES_H

#include "slice.h"

/* Start with the whole text and number 0. */
struct lines {
    struct slice rest;
    size_t number; /* of the line that next_line gave last, from 1 */
};

/* The next line, without its end, which is LF or CR LF and may be missing from the last. False if there is none. */
bool next_line(struct lines *lines, struct slice *line);

/* The line that holds this place of the text, without its end, and its number. */
struct slice line_at(struct slice text, size_t place);
size_t line_number(struct slice text, size_t place);

/* Spaces and tabs at the end are taken off. */
struct slice without_blanks_after(struct slice line);

/* The next word of the rest, which then stands after it; empty if there is none. */
struct slice next_word(struct slice *rest);

/* A line of a file in which ; and # start a comment, by its words. */
enum { MOST_WORDS = 4 };
struct statement {
    size_t line;
    size_t count; /* of all its words, of which the first MOST_WORDS are kept */
    struct slice words[MOST_WORDS];
};

/* The next line that has a word. False if there is none. */
bool next_statement(struct lines *lines, struct statement *statement);

#endif
