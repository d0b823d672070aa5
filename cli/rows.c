#include "rows.h"

#include <stdint.h>

#include "input.h"
#include "say.h"

/* What is under way has to be whole before the next heading, and before the end. */
static int end_rows(const struct rows *rows)
{
    if (rows->row == DIRGEFLINT_CELL_ROWS)
        return DONE;
    return bad_input(rows->file, rows->lines.number, "%s has %lu row%s so far, and ends here: draw all %d", rows->label, (unsigned long)rows->row,
                     rows->row == 1 ? "" : "s", (int)DIRGEFLINT_CELL_ROWS);
}

static int begin_rows(struct rows *rows, struct slice rest)
{
    int status = end_rows(rows);
    if (status == DONE)
        status = rows->drawn->begin(rows, rest);
    rows->row = 0;
    return status;
}

static int read_dots(const struct rows *rows, struct slice line, uint16_t *row)
{
    char room[SHOWN];
    unsigned dots = 0;
    for (size_t i = 0; i < line.length; i++) {
        struct slice dot = { line.start + i, 1 };
        if (dot.start[0] != '#' && dot.start[0] != '.')
            return bad_input(rows->file, rows->lines.number, "column %zu: %s is no dot: a row has # for a lit dot and . for an unlit one", i + 1,
                             shown(dot, room));
        dots = (dots << 1 | (dot.start[0] == '#')) & DIRGEFLINT_MOST_ROW;
    }
    if (line.length != DIRGEFLINT_CELL_DOTS)
        return bad_input(rows->file, rows->lines.number, "the row has %zu dot%s: it has to have %d", line.length, line.length == 1 ? "" : "s",
                         (int)DIRGEFLINT_CELL_DOTS);
    *row = (uint16_t)dots;
    return DONE;
}

static int read_row(struct rows *rows, struct slice line)
{
    if (rows->to == NULL)
        return bad_input(rows->file, rows->lines.number, "a row before the first heading: write a line such as %s above it%s", rows->drawn->example,
                         line.start[0] == '#' ? "; if it is a comment, begin it with ;" : "");
    if (rows->row == DIRGEFLINT_CELL_ROWS)
        return bad_input(rows->file, rows->lines.number, "a row more than the %s's %d: remove it, or write the next heading above it", rows->drawn->word,
                         (int)DIRGEFLINT_CELL_ROWS);
    return read_dots(rows, line, &rows->to[rows->row++]);
}

static int read_line(struct rows *rows, struct slice line)
{
    const struct drawn *drawn = rows->drawn;
    struct slice rest = without_blanks_after(line);
    if (rest.length == 0 || rest.start[0] == ';')
        return DONE;
    if (rest.start[0] == '#' || rest.start[0] == '.')
        return read_row(rows, rest);
    struct slice word = next_word(&rest);
    if (slice_is(word, drawn->word) && word.start == line.start)
        return begin_rows(rows, rest);
    char room[SHOWN];
    shown(line, room);
    if (slice_is(word, drawn->other))
        return bad_input(rows->file, rows->lines.number, "%s is neither a heading (%s) nor a row of # and .: drawings of %ss are for " PROGRAM " %s", room,
                         drawn->form, drawn->other, drawn->command);
    return bad_input(rows->file, rows->lines.number, "%s is neither a heading (%s) nor a row of # and .%s", room, drawn->form,
                     word.start == line.start ? "" : ": take out the blanks at its start, or write . for them");
}

static int read_lines(struct rows *rows)
{
    struct slice line;
    while (next_line(&rows->lines, &line)) {
        int status = read_line(rows, line);
        if (status != DONE)
            return status;
    }
    if (rows->to == NULL)
        return bad_input(rows->file, 0, "no %s is drawn: a %s is a heading (%s) and %d rows", rows->drawn->word, rows->drawn->word, rows->drawn->form,
                         (int)DIRGEFLINT_CELL_ROWS);
    return end_rows(rows);
}

int read_rows(const char *path, const struct drawn *drawn, void *into)
{
    struct input input;
    if (!read_input(path, SIZE_MAX, &input))
        return TROUBLE;
    struct rows rows = { drawn, input.name, { input.text, 0 }, into, "", NULL, DIRGEFLINT_CELL_ROWS };
    int status = judge_mark(&input);
    if (status == DONE)
        status = read_lines(&rows);
    free_input(&input);
    return status;
}
