#include <limits.h>
#include <stdio.h>

#include "commands.h"
#include "drawing.h"
#include "fonttext.h"
#include "number.h"
#include "options.h"
#include "output.h"
#include "say.h"

static bool read_cell(const char *word, uint32_t *cell)
{
    return read_number_within(slice_of(word), 0, DIRGEFLINT_CELLS - 1, cell);
}

static int wrong_cell(char *const *cells, int count)
{
    uint32_t cell;
    char room[SHOWN];
    for (int i = 0; i < count; i++)
        if (!read_cell(cells[i], &cell))
            return wrong_usage("show", "%s is no cell: cells are 0 to %d", shown(slice_of(cells[i]), room), DIRGEFLINT_CELLS - 1);
    return DONE;
}

/* Writes the cells named, or all if none is. */
static void write_cells(FILE *stream, const uint16_t *font, char *const *cells, int count)
{
    int all = count == 0 ? DIRGEFLINT_CELLS : count;
    for (int i = 0; i < all; i++) {
        uint32_t cell = (uint32_t)i;
        if (count > 0)
            read_cell(cells[i], &cell);
        if (i > 0)
            fputc('\n', stream);
        write_cell(stream, font, cell);
    }
}

int show_command(int count, char **words)
{
    struct option options[] = { { "-o", true, NULL }, { NULL, false, NULL } };
    struct usage usage = { "show", "a FONT.hex, or -, and then CELLs from 0 to 61 or none", 1, INT_MAX, options };
    struct font font;
    struct output output;
    int status;
    if (!read_options(&usage, &count, words, &status))
        return status;
    status = wrong_cell(words + 1, count - 1);
    if (status == DONE)
        status = judge_output("show", &options[0], words[0]);
    if (status == DONE)
        status = load_font(words[0], false, &font);
    if (status != DONE)
        return status;
    if (!open_output(options[0].value, &output))
        return TROUBLE;
    write_cells(output.stream, font.rows, words + 1, count - 1);
    return close_output(&output, DONE);
}
