/* The words of a command line, after the command: options, and the files or numbers that are no option's. */
#ifndef OPTIONS_H
#define OPTIONS_H

#include <stdbool.h>
#include <stddef.h>

struct option {
    const char *name; /* with its dashes */
    bool takes_value;
    const char *value; /* NULL if the option is not given; if it takes none, not NULL says that it is */
};

struct usage {
    const char *command;
    const char *needs;      /* what has to be named, in the words of the command's help */
    int least, most;        /* how many words that are no option's */
    struct option *options; /* ended by one without a name */
};

/*
 * Fills in the options' values and moves the words that are no option's to the front; *count becomes their number. False if the program
 * is to end now with *status: after a message on wrong usage, or after the help that was asked for.
 */
bool read_options(const struct usage *usage, int *count, char **words, int *status);

#endif
