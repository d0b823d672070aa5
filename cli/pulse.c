#include <stdio.h>

#include "commands.h"
#include "number.h"
#include "options.h"
#include "say.h"

enum { LONGEST = 128 }; /* clocks of the longest period of a channel */

/* The levels of a whole period, a character each: it ends where the library refuses a clock. Gives the answer on clock 0. */
static dirgeflint_answer draw_period(uint32_t channel, uint8_t byte, char clocks[LONGEST + 1], uint32_t *high)
{
    dirgeflint_answer first = dirgeflint_pulse_level(channel, byte, 0), level = first;
    uint32_t clock = 0;
    *high = 0;
    while (level.number == DIRGEFLINT_ACCEPTED && clock < LONGEST) {
        *high += level.value;
        clocks[clock++] = level.value == 1 ? '#' : '.';
        level = dirgeflint_pulse_level(channel, byte, clock);
    }
    clocks[clock] = '\0';
    return first;
}

int pulse_command(int count, char **words)
{
    struct option options[] = { { NULL, false, NULL } };
    struct usage usage = { "pulse", "a CHANNEL from 0 to 7 and a BYTE from 0 to 255", 2, 2, options };
    char clocks[LONGEST + 1], room[SHOWN];
    uint32_t channel, byte, high;
    int status;
    if (!read_options(&usage, &count, words, &status))
        return status;
    if (!read_number(slice_of(words[0]), &channel))
        return wrong_usage("pulse", "%s is no channel: channels are 0 to %d", shown(slice_of(words[0]), room), DIRGEFLINT_CHANNELS - 1);
    if (!read_number_within(slice_of(words[1]), 0, UINT8_MAX, &byte))
        return wrong_usage("pulse", "%s is no byte: a byte is 0 to %d", shown(slice_of(words[1]), room), UINT8_MAX);
    dirgeflint_answer answer = draw_period(channel, (uint8_t)byte, clocks, &high);
    if (answer.number != DIRGEFLINT_ACCEPTED)
        return refused(PROGRAM, 0, answer, "channel %lu: channels are 0 to %d", (unsigned long)channel, DIRGEFLINT_CHANNELS - 1);
    printf("channel %lu byte %lu: high for %lu of %zu clocks\n%s\n", (unsigned long)channel, (unsigned long)byte, (unsigned long)high, slice_of(clocks).length,
           clocks);
    return DONE;
}
