#include "events.h"

#include <errno.h>
#include <stdint.h>
#include <stdlib.h>

#include "input.h"
#include "lines.h"
#include "number.h"
#include "progress.h"
#include "say.h"

dirgeflint_answer take_event(dirgeflint_dac *dac, struct event event, uint8_t levels[DIRGEFLINT_PERIOD])
{
    dirgeflint_answer accepted = { DIRGEFLINT_ACCEPTED, 0, 0 };
    switch (event.kind) {
    case LOW: dirgeflint_dac_write_low(dac, (uint8_t)event.number); break;
    case HIGH: dirgeflint_dac_write_high(dac, (uint8_t)event.number); break;
    case PLAY: return dirgeflint_dac_play(dac, event.number, levels, DIRGEFLINT_PERIOD);
    case RESET: dirgeflint_dac_reset(dac); break;
    }
    return accepted;
}

static bool find_kind(struct slice word, enum kind *kind)
{
    static const char *const names[] = { [LOW] = "low", [HIGH] = "high", [PLAY] = "play", [RESET] = "reset" };
    for (*kind = LOW; *kind <= RESET; (*kind)++)
        if (slice_is(word, names[*kind]))
            return true;
    return false;
}

static int event_line(const char *file, const struct statement *line, struct event *event)
{
    char room[SHOWN];
    if (!find_kind(line->words[0], &event->kind))
        return bad_input(file, line->line, "%s is no event: they are low N, high N, play C and reset", shown(line->words[0], room));
    event->number = 0;
    bool bare = event->kind == RESET;
    if (line->count != (bare ? 1 : 2))
        return bad_input(file, line->line, bare ? "reset stands alone" : "one number has to follow, and nothing else");
    bool plays = event->kind == PLAY;
    if (bare || read_number_within(line->words[1], 0, plays ? UINT32_MAX : UINT8_MAX, &event->number))
        return DONE;
    return bad_input(file, line->line, "%s is %s" IN_FORM, shown(line->words[1], room),
                     plays ? "no number of clocks: a play has 0 to 16384" : "no byte: a byte is 0 to 255");
}

static int add_event(const char *file, struct events *events, size_t *room, struct event event)
{
    if (events->count == *room) {
        size_t wanted = *room == 0 ? 256 : 2 * *room;
        struct event *grown = wanted > SIZE_MAX / sizeof event ? NULL : realloc(events->all, wanted * sizeof event);
        if (grown == NULL) {
            errno = ENOMEM;
            return file_trouble(file, "read");
        }
        events->all = grown;
        *room = wanted;
    }
    events->all[events->count++] = event;
    return DONE;
}

static int try_event(const char *file, size_t line, dirgeflint_dac *dac, struct event event)
{
    static uint8_t levels[DIRGEFLINT_PERIOD];
    dirgeflint_answer answer = take_event(dac, event, levels);
    if (answer.number == DIRGEFLINT_ACCEPTED)
        return DONE;
    return refused(file, line, answer, "%lu clocks: a play has at most %d; write several", (unsigned long)event.number, (int)DIRGEFLINT_PERIOD);
}

static int read_lines(const struct input *input, struct events *events)
{
    struct lines lines = { input->text, 0 };
    struct statement line;
    struct event event;
    dirgeflint_dac dac;
    size_t room = 0;
    int status = DONE;
    dirgeflint_dac_reset(&dac);
    while (status == DONE && next_statement(&lines, &line)) {
        status = event_line(input->name, &line, &event);
        if (status == DONE)
            status = try_event(input->name, line.line, &dac, event);
        if (status == DONE)
            status = add_event(input->name, events, &room, event);
        tell_progress("bytes tried", input->text.length - lines.rest.length, input->text.length);
    }
    end_progress();
    return status;
}

static bool has_clock(const struct events *events)
{
    for (size_t i = 0; i < events->count; i++)
        if (events->all[i].kind == PLAY && events->all[i].number > 0)
            return true;
    return false;
}

int read_events(const char *path, struct events *events)
{
    struct input input;
    events->all = NULL;
    events->count = 0;
    if (!read_input(path, SIZE_MAX, &input))
        return TROUBLE;
    int status = judge_mark(&input);
    if (status == DONE)
        status = read_lines(&input, events);
    if (status == DONE && !has_clock(events))
        warn(input.name, "no clock is played");
    free_input(&input);
    return status;
}
