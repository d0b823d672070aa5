/* What the DAC put out, as a VCD file. */
#ifndef WAVE_H
#define WAVE_H

#include <stdio.h>

#include "dirgeflint.h"

struct wave {
    FILE *stream;
    uint64_t clock; /* clocks written */
    uint8_t level;  /* of the clock before, like the pair */
    dirgeflint_pair pair;
};

void begin_wave(struct wave *wave, FILE *stream);

/* So many clocks more, all played with this pair in force. */
void add_to_wave(struct wave *wave, dirgeflint_pair pair, const uint8_t *levels, uint32_t clocks);

void end_wave(struct wave *wave);

#endif
