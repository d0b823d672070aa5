/* Files that are written. A regular file is replaced only when it is whole, so open one when nothing can be refused any more. */
#ifndef OUTPUT_H
#define OUTPUT_H

#include <stdbool.h>
#include <stdio.h>

#include "options.h"

struct output {
    FILE *stream;
    const char *name; /* for messages */
    char *target;     /* what the temporary file is to replace, links followed; NULL if there is none */
    char *temporary;
    bool is_placed; /* the temporary file has the target's name */
    char *kept;     /* a second name of the file that was there, until all are placed; NULL if there is none */
};

/* Standard output is what no path, - and /dev/stdout name. */
bool is_standard_output(const char *path);

/* Wrong usage, for which it gives the status, if the option's file is the regular file that the input is: it would be lost. */
int judge_output(const char *command, const struct option *option, const char *input);

/* Wrong usage, too, if the two options name one regular file, be it there or not, or both name standard output. */
int judge_outputs(const char *command, const struct option *one, const struct option *other);

/* Opens a file to write to its stream. False, and a message, if it cannot be written. */
bool open_output(const char *path, struct output *output);

/*
 * Puts the files in their places if the work's status is DONE, and gives the status that comes of it. Else, or if writing failed, of which a
 * message tells, nothing is left of them: all are whole before any is put in its place, and if one cannot be, those before it are taken back.
 */
enum { MOST_OUTPUTS = 2 }; /* open at a time */
int close_outputs(struct output outputs[], size_t count, int status);
int close_output(struct output *output, int status);

/* Whether all that standard output was given so far got there. If not, finish_output tells. */
bool is_printed(void);

/* For main: the three standard files are there and signals leave no temporary file; and at the end all was written. */
void prepare_output(void);
int finish_output(int status);

#endif
