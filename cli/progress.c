#define _XOPEN_SOURCE 700

#include "progress.h"

#include <stdbool.h>
#include <stdio.h>
#include <time.h>
#include <unistd.h>

static bool telling;

/* Once a second is enough to read, and short work says nothing. */
static bool second_passed(void)
{
    static time_t last;
    time_t now = time(NULL);
    if (last == 0)
        last = now;
    bool passed = now != last;
    last = now;
    return passed;
}

void tell_progress(const char *doing, size_t done, size_t all)
{
    if (!isatty(STDERR_FILENO) || isatty(STDOUT_FILENO) || !second_passed())
        return;
    fprintf(stderr, "\r%s: %zu of %zu", doing, done, all);
    telling = true;
}

void end_progress(void)
{
    if (telling)
        fputc('\n', stderr);
    telling = false;
}
