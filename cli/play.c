#include <inttypes.h>
#include <stdio.h>
#include <stdlib.h>

#include "commands.h"
#include "events.h"
#include "options.h"
#include "output.h"
#include "progress.h"
#include "say.h"
#include "wave.h"

struct player {
    dirgeflint_dac dac;
    uint64_t period;  /* the number of the period under way, from 1 */
    FILE *lines;      /* where the periods are told */
    struct wave wave; /* without a stream if none is asked for */
};

/* Tells of the period whose clocks were played last, whole if the position is 0 again, and begins the next. */
static void end_period(struct player *player)
{
    dirgeflint_pair pair = player->dac.in_force;
    int clocks = player->dac.position;
    fprintf(player->lines, "period %" PRIu64 ": coarse %d fine %d T %d high %d", player->period, pair.coarse, pair.fine,
            DIRGEFLINT_SUB_PERIODS * pair.coarse + pair.fine, player->dac.high);
    if (clocks > 0)
        fprintf(player->lines, " in %d clock%s", clocks, clocks == 1 ? "" : "s");
    fputc('\n', player->lines);
    player->period++;
}

/* Ends a period of which some clocks were played, but not all. */
static void cut_period(struct player *player)
{
    if (player->dac.position > 0)
        end_period(player);
}

/* Plays clocks that lie in one period, so that one pair is in force for all of them. */
static dirgeflint_answer play_piece(struct player *player, uint32_t clocks)
{
    static uint8_t levels[DIRGEFLINT_PERIOD];
    struct event piece = { PLAY, clocks };
    dirgeflint_answer answer = take_event(&player->dac, piece, levels);
    if (answer.number != DIRGEFLINT_ACCEPTED)
        return answer;
    if (player->wave.stream != NULL)
        add_to_wave(&player->wave, player->dac.in_force, levels, clocks);
    if (clocks > 0 && player->dac.position == 0)
        end_period(player);
    return answer;
}

static dirgeflint_answer play_clocks(struct player *player, uint32_t clocks)
{
    uint32_t left = DIRGEFLINT_PERIOD - player->dac.position, first = clocks < left ? clocks : left;
    dirgeflint_answer answer = play_piece(player, first);
    if (answer.number == DIRGEFLINT_ACCEPTED && clocks > first)
        answer = play_piece(player, clocks - first);
    return answer;
}

static dirgeflint_answer play_event(struct player *player, struct event event)
{
    if (event.kind == PLAY)
        return play_clocks(player, event.number);
    if (event.kind == RESET)
        cut_period(player);
    return take_event(&player->dac, event, NULL);
}

static int play_events(struct player *player, const struct events *events)
{
    for (size_t i = 0; i < events->count; i++) {
        dirgeflint_answer answer = play_event(player, events->all[i]);
        if (answer.number != DIRGEFLINT_ACCEPTED)
            return refused(PROGRAM, 0, answer, "playing: %s", dirgeflint_reason(answer.number));
        tell_progress("events played", i + 1, events->count);
    }
    cut_period(player);
    end_progress();
    return DONE;
}

static int play_to_wave(struct player *player, const struct events *events, const char *path)
{
    struct output output;
    if (!open_output(path, &output))
        return TROUBLE;
    begin_wave(&player->wave, output.stream);
    int status = play_events(player, events);
    end_wave(&player->wave);
    if (status == DONE && !is_printed())
        status = TROUBLE;
    return close_output(&output, status);
}

int play_command(int count, char **words)
{
    struct option options[] = { { "-o", true, NULL }, { NULL, false, NULL } };
    struct usage usage = { "play", "a file of EVENTS, or -", 1, 1, options };
    struct events events;
    int status;
    if (!read_options(&usage, &count, words, &status))
        return status;
    const char *path = options[0].value;
    status = judge_output("play", &options[0], words[0]);
    if (status != DONE)
        return status;
    struct player player = { .period = 1, .lines = path != NULL && is_standard_output(path) ? stderr : stdout };
    dirgeflint_dac_reset(&player.dac);
    status = read_events(words[0], &events);
    if (status == DONE)
        status = path == NULL ? play_events(&player, &events) : play_to_wave(&player, &events, path);
    free(events.all);
    return status;
}
