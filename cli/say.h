/* The exit statuses, and the messages on standard error that go with them: one line each; point.h has what may follow one. */
#ifndef SAY_H
#define SAY_H

#include <stddef.h>
#include <stdio.h>

#include "dirgeflint.h"

#ifdef __GNUC__
#define LIKE_PRINTF(at, rest) __attribute__((format(printf, at, rest)))
#else
#define LIKE_PRINTF(at, rest)
#endif

/* Where several come together the greatest is the program's. */
enum {
    DONE = 0,
    BAD = 1,    /* refused, or bad input */
    TROUBLE = 2 /* wrong usage, or trouble with a file */
};

/* What a message is about when no file is. */
#define PROGRAM "dirgeflint"

/* A file's name as messages and lines have it: a control character as \xHH, so that it stays on its line. */
void write_name(FILE *stream, const char *file);

/* Each of these gives back the status that goes with what it says. Line 0 is no line. */
int wrong_usage(const char *command, const char *format, ...) LIKE_PRINTF(2, 3);
int wrong_output(const char *command, const char *option, const char *file); /* an output that is an input, too */
int bad_input(const char *file, size_t line, const char *format, ...) LIKE_PRINTF(3, 4);
int refused(const char *file, size_t line, dirgeflint_answer answer, const char *format, ...) LIKE_PRINTF(4, 5);

/* Trouble with a file, for the reason that errno tells: what is "read" or "written". */
int file_trouble(const char *file, const char *what);

void warn(const char *file, const char *format, ...) LIKE_PRINTF(2, 3);

#endif
