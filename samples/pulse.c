#include "dirgeflint.h"
#include <stdio.h>

int main(void)
{
    /* 0xC2 written to channel 4, which keeps the low 6 bits: 2. Its period has 64 clocks. */
    for (uint32_t t = 0; t < 66; t++) {
        dirgeflint_answer a = dirgeflint_pulse_level(4, 0xC2, t);
        if (a.number != DIRGEFLINT_ACCEPTED)
            printf("clock %u: %s (refused %u)\n", (unsigned)t, dirgeflint_reason(a.number), (unsigned)a.number);
        else if (t < 4)
            printf("clock %u: level %u\n", (unsigned)t, (unsigned)a.value);
    }
    return 0;
}
