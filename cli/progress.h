/* How far long work is: on standard error where that is a terminal, and standard output is none, which would show it anyway. */
#ifndef PROGRESS_H
#define PROGRESS_H

#include <stddef.h>

void tell_progress(const char *doing, size_t done, size_t all);
void end_progress(void);

#endif
