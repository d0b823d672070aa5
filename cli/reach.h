/* How far a screen's cells reach, also where nothing is painted any more. */
#ifndef REACH_H
#define REACH_H

#include "dirgeflint.h"

struct reach {
    uint64_t dots, lines; /* where the rightmost cell and the lowest one end: the first dot and line past them; 0 without a cell */
};

/* The words have 10 bits; h and v are the settings'. */
struct reach find_reach(const uint16_t words[DIRGEFLINT_WORDS], uint32_t h, uint32_t v);

#endif
