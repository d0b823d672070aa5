#include "screen.h"

#include <stdint.h>

#include "input.h"
#include "lines.h"
#include "number.h"
#include "say.h"

/* Each kind of line gives its word, or a message and BAD. */

static int wrong_form(const char *file, const struct statement *line, const char *form)
{
    return bad_input(file, line->line, "the line has to be: %s", form);
}

static int wrong_part(const char *file, const struct statement *line, size_t place, const char *reason)
{
    char room[SHOWN];
    return bad_input(file, line->line, "%s is %s", shown(line->words[place], room), reason);
}

static int colour_part(const char *file, const struct statement *line, size_t place, uint32_t *colour)
{
    if (read_colour(line->words[place], colour) && *colour <= DIRGEFLINT_WHITE)
        return DONE;
    return wrong_part(file, line, place, "no colour: " COLOURS);
}

/* A cell by its number, which begins with a digit, or by the name of a glyph that is in it. */
static int cell_part(const char *file, const struct statement *line, const struct table *table, uint32_t *cell)
{
    char room[SHOWN];
    struct slice word = line->words[1];
    bool is_number = word.start[0] >= '0' && word.start[0] <= '9';
    if (is_number && read_number_within(word, 0, DIRGEFLINT_CELLS - 1, cell))
        return DONE;
    if (is_number)
        return wrong_part(file, line, 1, "no cell: cells are 0 to 61" IN_FORM);
    if (table == NULL)
        return bad_input(file, line->line, "%s is no cell: cells are 0 to 61" IN_FORM "; for the name of a glyph give its table: --table TABLE.txt",
                         shown_name(word, room));
    return find_cell(table, file, line->line, word, cell);
}

static int character_line(const char *file, const struct statement *line, const struct table *table, uint16_t *word)
{
    uint32_t cell, colour;
    if (line->count < 3 || line->count > 4 || (line->count == 4 && !slice_is(line->words[3], "blink")))
        return wrong_form(file, line, table == NULL ? "character CELL COLOUR, and then blink or nothing"
                                                     : "character CELL COLOUR or character NAME COLOUR, and then blink or nothing");
    if (cell_part(file, line, table, &cell) != DONE)
        return BAD;
    if (colour_part(file, line, 2, &colour) != DONE)
        return BAD;
    *word = dirgeflint_character(cell, colour, line->count == 4);
    return DONE;
}

static int space_line(const char *file, const struct statement *line, uint16_t *word)
{
    uint32_t colour;
    if (line->count != 2)
        return wrong_form(file, line, "space COLOUR");
    if (colour_part(file, line, 1, &colour) != DONE)
        return BAD;
    *word = dirgeflint_space(colour);
    return DONE;
}

static int return_line(const char *file, const struct statement *line, uint16_t *word)
{
    uint32_t size, spacing;
    if (line->count != 3)
        return wrong_form(file, line, "return SIZE SPACING");
    if (!read_number_within(line->words[1], 1, 4, &size))
        return wrong_part(file, line, 1, "no size: sizes are 1 to 4");
    if (!read_number_within(line->words[2], 0, 12, &spacing) || spacing % 4 != 0)
        return wrong_part(file, line, 2, "no spacing: it is 0, 4, 8 or 12");
    *word = dirgeflint_return(size, spacing);
    return DONE;
}

static int end_line(const char *file, const struct statement *line, uint16_t *word)
{
    if (line->count != 1)
        return wrong_form(file, line, "end");
    *word = dirgeflint_end();
    return DONE;
}

static int number_line(const char *file, const struct statement *line, uint16_t *word)
{
    uint32_t number;
    if (!read_number(line->words[0], &number))
        return wrong_part(file, line, 0, "no word: a line is character, space, return, end, or a number from 0 to 1023" IN_FORM);
    if (line->count != 1)
        return wrong_form(file, line, "the word's number alone");
    if (number > DIRGEFLINT_MOST_WORD)
        return wrong_part(file, line, 0, "too large: a word is 0 to 1023");
    *word = (uint16_t)number;
    return DONE;
}

static int screen_line(const char *file, const struct statement *line, const struct table *table, uint16_t *word)
{
    struct slice kind = line->words[0];
    if (slice_is(kind, "character"))
        return character_line(file, line, table, word);
    if (slice_is(kind, "space"))
        return space_line(file, line, word);
    if (slice_is(kind, "return"))
        return return_line(file, line, word);
    if (slice_is(kind, "end"))
        return end_line(file, line, word);
    return number_line(file, line, word);
}

static int screen_lines(const struct input *input, const struct table *table, uint16_t words[DIRGEFLINT_WORDS])
{
    struct lines lines = { input->text, 0 };
    struct statement line;
    size_t count = 0;
    while (next_statement(&lines, &line)) {
        if (count == DIRGEFLINT_WORDS)
            return bad_input(input->name, line.line, "word 65: a screen has 64 words; leave out what is too much");
        int status = screen_line(input->name, &line, table, &words[count++]);
        if (status != DONE)
            return status;
    }
    if (count == 0)
        warn(input->name, "no word is given: the screen is empty");
    while (count < DIRGEFLINT_WORDS)
        words[count++] = dirgeflint_end();
    return DONE;
}

int read_screen(const char *path, const struct table *table, uint16_t words[DIRGEFLINT_WORDS])
{
    struct input input;
    if (!read_input(path, SIZE_MAX, &input))
        return TROUBLE;
    int status = judge_mark(&input);
    if (status == DONE)
        status = screen_lines(&input, table, words);
    free_input(&input);
    return status;
}
