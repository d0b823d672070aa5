/* fine.c: tells which fine bit adds a clock to which sub-periods of the tuning DAC; with a coarse and a fine half as words, draws a period of that pair. */
#include "dirgeflint.h"
#include <stdio.h>
#include <stdlib.h>

enum { BITS = 7, NONE = -1, HALF_MOST = 127 };

/* A period's levels, sub-period by sub-period. */
static uint8_t levels[DIRGEFLINT_SUB_PERIODS][DIRGEFLINT_SUB_PERIOD];

/* The fine bit that serves each sub-period, or NONE. */
static int serving[DIRGEFLINT_SUB_PERIODS];

/* Plays a period of a pair, from reset, and gives how many of its clocks were high. */
static unsigned play(unsigned coarse, unsigned fine)
{
    dirgeflint_dac dac;
    dirgeflint_dac_reset(&dac);
    dirgeflint_dac_write_low(&dac, (uint8_t)fine);
    dirgeflint_dac_write_high(&dac, (uint8_t)coarse);
    dirgeflint_answer a = dirgeflint_dac_play(&dac, DIRGEFLINT_PERIOD, (uint8_t *)levels, sizeof levels);
    if (a.number != DIRGEFLINT_ACCEPTED) {
        fprintf(stderr, "fine: %s (refused %u)\n", dirgeflint_reason(a.number), (unsigned)a.number);
        exit(1);
    }
    return (unsigned)a.value;
}

/* Plays each bit alone, with coarse 0: the clocks that it adds are then the only high ones, each the first of a sub-period that no other bit serves. */
static void find(void)
{
    for (int n = 0; n < DIRGEFLINT_SUB_PERIODS; n++)
        serving[n] = NONE;
    for (int bit = 0; bit < BITS; bit++) {
        play(0, 1u << bit);
        for (int n = 0; n < DIRGEFLINT_SUB_PERIODS; n++)
            for (int clock = 0; clock < DIRGEFLINT_SUB_PERIOD; clock++)
                if (levels[n][clock] == 1) {
                    if (clock > 0)
                        fprintf(stderr, "fine: bit %d makes clock %d of sub-period %d high\n", bit, clock, n);
                    else if (serving[n] != NONE)
                        fprintf(stderr, "fine: bits %d and %d both serve sub-period %d\n", serving[n], bit, n);
                    if (clock > 0 || serving[n] != NONE)
                        exit(1);
                    serving[n] = bit;
                }
    }
}

/* How many zero bits a number ends in, of the 7 that a sub-period's number has. */
static int zero_bits(int n)
{
    int zeros = 0;
    while (zeros < BITS && n % 2 == 0) {
        n /= 2;
        zeros++;
    }
    return zeros;
}

/* The sub-periods that a bit serves: how many, in how many zero bits they all end (-1 if not in equally many), and which. */
static void tell(int bit)
{
    int served[DIRGEFLINT_SUB_PERIODS], count = 0, zeros = NONE;
    for (int n = 0; n < DIRGEFLINT_SUB_PERIODS; n++)
        if (serving[n] == bit) {
            zeros = count == 0 || zeros == zero_bits(n) ? zero_bits(n) : NONE;
            served[count++] = n;
        }
    if (bit == NONE)
        printf("none");
    else
        printf("%4d", bit);
    printf("%10d%14d ", count, zeros);
    for (int i = 0; i < count; i++) {
        if (i > 0 && i % 16 == 0)
            printf("\n%29s", "");
        printf("%4d", served[i]);
    }
    putchar('\n');
}

/* A column for each sub-period, as high as it has high clocks; below it, if it has one more than the coarse half says, the bit that added it. */
static void draw(unsigned coarse, unsigned fine)
{
    unsigned high = play(coarse, fine);
    int rows = 0, last = NONE;
    for (int n = 0; n < DIRGEFLINT_SUB_PERIODS; n++)
        for (int clock = 0; clock < DIRGEFLINT_SUB_PERIOD; clock++)
            if (levels[n][clock] == 1) {
                if (rows <= clock)
                    rows = clock + 1;
                if (clock == (int)coarse)
                    last = n;
            }
    printf("coarse %u, fine %u: high for %u of %d clocks\n", coarse, fine, high, DIRGEFLINT_PERIOD);
    if (rows < DIRGEFLINT_SUB_PERIOD)
        printf("from clock %d on every sub-period is low\n", rows);
    for (int clock = rows - 1; clock >= 0; clock--) {
        printf("clock %3d  ", clock);
        for (int n = 0; n < DIRGEFLINT_SUB_PERIODS; n++)
            putchar(levels[n][clock] == 1 ? '#' : '.');
        putchar('\n');
    }
    printf("bit        ");
    for (int n = 0; n <= last; n++)
        putchar(levels[n][coarse] == 1 && serving[n] != NONE ? '0' + serving[n] : ' ');
    printf("\nsub-period ");
    for (int n = 0; n < DIRGEFLINT_SUB_PERIODS - 8; n += 8)
        printf("%-8d", n);
    printf("%d\n", DIRGEFLINT_SUB_PERIODS - 8);
}

/* A half as a word: false if it is no number from 0 to 127. */
static bool half(const char *word, unsigned *value)
{
    char *end;
    unsigned long number = strtoul(word, &end, 10);
    *value = (unsigned)number;
    return *word >= '0' && *word <= '9' && *end == '\0' && number <= HALF_MOST;
}

int main(int words, char **word)
{
    unsigned coarse, fine;
    find();
    if (words == 1) {
        printf(" bit  how many  zeros at end  which\n");
        for (int bit = BITS - 1; bit >= NONE; bit--)
            tell(bit);
    } else if (words == 3 && half(word[1], &coarse) && half(word[2], &fine)) {
        draw(coarse, fine);
    } else {
        fprintf(stderr, "usage: fine                which fine bit serves which sub-periods\n"
                        "       fine COARSE FINE    a period of that pair; each half is a decimal number from 0 to 127\n");
        return 2;
    }
    return 0;
}
