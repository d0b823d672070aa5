#include <stdio.h>

#include "commands.h"
#include "drawing.h"
#include "fonttext.h"
#include "input.h"
#include "options.h"
#include "output.h"
#include "say.h"

enum { LIST = 8 * DIRGEFLINT_CELLS }; /* no cell takes more than ", 40 to " of the list of the empty ones */

/* Lists the cells that are not drawn, runs of them by their ends; gives how many there are. */
static int list_empty(const struct drawing *drawing, char list[LIST])
{
    size_t used = 0;
    int empty = 0;
    for (int first = 0, after; first < DIRGEFLINT_CELLS; first = after + 1) {
        for (after = first; after < DIRGEFLINT_CELLS && drawing->headings[after] == 0; after++)
            empty++;
        if (after > first)
            used += (size_t)snprintf(list + used, LIST - used, "%s%d", used == 0 ? "" : ", ", first);
        if (after > first + 1)
            used += (size_t)snprintf(list + used, LIST - used, " to %d", after - 1);
    }
    return empty;
}

/* Tells of cells that are not drawn: bad input if the font has to be whole. */
static int judge_empty(const char *file, const struct drawing *drawing, bool whole)
{
    char list[LIST];
    int empty = list_empty(drawing, list);
    const char *are = empty == 1 ? "cell is" : "cells are";
    if (empty > 0 && whole)
        return bad_input(file, 0, "%d %s not drawn: %s", empty, are, list);
    if (empty > 0)
        warn(file, "%d %s not drawn and %s empty: %s", empty, are, empty == 1 ? "is" : "are", list);
    return DONE;
}

static int write_text(const struct drawing *drawing, const char *path)
{
    static uint8_t text[DIRGEFLINT_TEXT_BYTES];
    struct output output;
    if (make_text(drawing->rows, text) != DONE)
        return BAD;
    if (!open_output(path, &output))
        return TROUBLE;
    fwrite(text, 1, sizeof text, output.stream);
    return close_output(&output, DONE);
}

int font_command(int count, char **words)
{
    struct option options[] = { { "-o", true, NULL }, { "--whole", false, NULL }, { NULL, false, NULL } };
    struct usage usage = { "font", "a DRAWING.txt, or -", 1, 1, options };
    struct drawing drawing;
    int status;
    if (!read_options(&usage, &count, words, &status))
        return status;
    status = judge_output("font", &options[0], words[0]);
    if (status == DONE)
        status = read_drawing(words[0], &drawing);
    if (status == DONE)
        status = judge_empty(input_name(words[0]), &drawing, options[1].value != NULL);
    return status == DONE ? write_text(&drawing, options[0].value) : status;
}
