#include "wave.h"

#include <inttypes.h>
#include <string.h>

enum { HALF_BITS = 7 };

/* Each bit of a half is a wire of its own, as some programs take no wider ones; its name in the file is a letter, from bit 6 on. */
static const struct half {
    const char *name;
    char first;
} coarse_half = { "coarse", 'A' }, fine_half = { "fine", 'a' };

static void declare_half(FILE *stream, struct half half)
{
    for (int i = 0; i < HALF_BITS; i++)
        fprintf(stream, "$var wire 1 %c %s[%d] $end\n", half.first + i, half.name, HALF_BITS - 1 - i);
}

/* The bits that changed. */
static void write_half(FILE *stream, struct half half, uint8_t before, uint8_t now)
{
    for (int i = 0; i < HALF_BITS; i++) {
        int bit = HALF_BITS - 1 - i, is = now >> bit & 1;
        if (is != (before >> bit & 1))
            fprintf(stream, "%d%c\n", is, half.first + i);
    }
}

void begin_wave(struct wave *wave, FILE *stream)
{
    memset(wave, 0, sizeof *wave);
    wave->stream = stream;
    fputs("$comment dirgeflint " DIRGEFLINT_VERSION ": the 14-bit DAC; a time unit is a clock $end\n"
          "$timescale 1 us $end\n"
          "$scope module dac $end\n"
          "$var wire 1 l level $end\n",
          stream);
    declare_half(stream, coarse_half);
    declare_half(stream, fine_half);
    fputs("$upscope $end\n"
          "$enddefinitions $end\n"
          "$dumpvars\n"
          "0l\n",
          stream);
    write_half(stream, coarse_half, UINT8_MAX, 0);
    write_half(stream, fine_half, UINT8_MAX, 0);
    fputs("$end\n", stream);
}

static void add_clock(struct wave *wave, dirgeflint_pair pair, uint8_t level)
{
    bool new_level = level != wave->level;
    if (new_level || pair.coarse != wave->pair.coarse || pair.fine != wave->pair.fine)
        fprintf(wave->stream, "#%" PRIu64 "\n", wave->clock);
    if (new_level)
        fprintf(wave->stream, "%dl\n", level);
    write_half(wave->stream, coarse_half, wave->pair.coarse, pair.coarse);
    write_half(wave->stream, fine_half, wave->pair.fine, pair.fine);
    wave->level = level;
    wave->pair = pair;
    wave->clock++;
}

void add_to_wave(struct wave *wave, dirgeflint_pair pair, const uint8_t *levels, uint32_t clocks)
{
    for (uint32_t i = 0; i < clocks; i++)
        add_clock(wave, pair, levels[i]);
}

void end_wave(struct wave *wave)
{
    fprintf(wave->stream, "#%" PRIu64 "\n", wave->clock);
}
