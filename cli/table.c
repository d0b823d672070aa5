#include "table.h"

#include <inttypes.h>
#include <string.h>

#include "drawing.h"
#include "fonttext.h"
#include "input.h"
#include "lines.h"
#include "number.h"
#include "say.h"

/* The line of a glyph: its cell and its name; and as a comment the number of a single letter, and which glyph it shares its cell with. */
static void write_glyph(FILE *stream, const struct glyphs *glyphs, const uint8_t *cells, size_t glyph)
{
    const char *name = glyphs->names.all[glyph].text;
    uint32_t letter = single_letter(slice_of(name));
    size_t first = 0;
    while (cells[first] != cells[glyph])
        first++;
    fprintf(stream, "cell %02u %s", (unsigned)cells[glyph], name);
    if (letter != 0)
        fprintf(stream, " ; U+%04" PRIX32, letter);
    if (first < glyph)
        fprintf(stream, "%s as %s", letter == 0 ? " ;" : ",", glyphs->names.all[first].text);
    fputc('\n', stream);
}

void write_table(FILE *stream, const struct glyphs *glyphs, const uint8_t *cells, uint32_t used, uint32_t sum)
{
    fprintf(stream, "; %zu glyph%s in %" PRIu32 " of %d cells, by " PROGRAM " pack; for " PROGRAM " paint --table\n", glyphs->count,
            glyphs->count == 1 ? "" : "s", used, (int)DIRGEFLINT_CELLS);
    fprintf(stream, "font %08" PRIX32 "\n", sum);
    for (uint32_t cell = 0; cell < used; cell++)
        for (size_t i = 0; i < glyphs->count; i++)
            if (cells[i] == cell)
                write_glyph(stream, glyphs, cells, i);
}

/* The reading of a table's lines. Each kind of line gives its status. */

static int cell_line(const struct statement *line, struct table *table)
{
    char room[SHOWN];
    uint32_t cell;
    struct names *names = &table->names;
    if (line->count != 3)
        return bad_input(table->file, line->line, "the line has to be: cell CELL NAME");
    if (!read_drawn_cell(line->words[1], &cell))
        return bad_input(table->file, line->line, "%s is no cell: cells are 0 to %d, in decimal digits", shown(line->words[1], room), DIRGEFLINT_CELLS - 1);
    if (judge_name(table->file, line->line, line->words[2]) != DONE)
        return BAD;
    size_t twin = find_name(names, line->words[2]);
    if (twin < names->count)
        return bad_input(table->file, line->line, "%s is named already, at line %zu: keep one of the two", shown_name(line->words[2], room),
                         names->all[twin].line);
    if (names->count == DIRGEFLINT_MOST_GLYPHS)
        return bad_input(table->file, line->line, "name %d: a table has %d names at most", DIRGEFLINT_MOST_GLYPHS + 1, (int)DIRGEFLINT_MOST_GLYPHS);
    table->cells[names->count] = (uint8_t)cell;
    add_name(names, line->words[2], line->line);
    return DONE;
}

/* The digits of a sum, which are always hexadecimal. */
static bool read_sum(struct slice word, uint32_t *sum)
{
    enum { DIGITS = 8 };
    *sum = 0;
    for (size_t i = 0; i < word.length; i++) {
        int digit = digit_value(word.start[i]);
        if (digit < 0)
            return false;
        *sum = *sum << 4 | (uint32_t)digit;
    }
    return word.length == DIGITS;
}

static int font_line(const struct statement *line, struct table *table)
{
    char room[SHOWN];
    if (line->count != 2)
        return bad_input(table->file, line->line, "the line has to be: font SUM");
    if (!read_sum(line->words[1], &table->sum))
        return bad_input(table->file, line->line, "%s is no sum: it is 8 hexadecimal digits", shown(line->words[1], room));
    if (table->sum_line != 0)
        return bad_input(table->file, line->line, "the font's sum is given already, at line %zu: keep one of the two", table->sum_line);
    table->sum_line = line->line;
    return DONE;
}

static int table_line(const struct statement *line, struct table *table)
{
    char room[SHOWN];
    if (slice_is(line->words[0], "cell"))
        return cell_line(line, table);
    if (slice_is(line->words[0], "font"))
        return font_line(line, table);
    return bad_input(table->file, line->line, "%s is no line of a table: they are cell CELL NAME and font SUM", shown(line->words[0], room));
}

static int table_lines(const struct input *input, struct table *table)
{
    struct lines lines = { input->text, 0 };
    struct statement line;
    while (next_statement(&lines, &line)) {
        int status = table_line(&line, table);
        if (status != DONE)
            return status;
    }
    if (table->names.count == 0)
        return bad_input(table->file, 0, "no glyph is named: " PROGRAM " pack writes a table, with a line for each glyph (cell CELL NAME)");
    return DONE;
}

int read_table(const char *path, struct table *table)
{
    struct input input;
    if (!read_input(path, SIZE_MAX, &input))
        return TROUBLE;
    memset(table, 0, sizeof *table);
    table->file = input.name;
    int status = judge_mark(&input);
    if (status == DONE)
        status = table_lines(&input, table);
    free_input(&input);
    return status;
}

int judge_sum(const struct table *table, const uint16_t rows[DIRGEFLINT_FONT_ROWS])
{
    static uint8_t text[DIRGEFLINT_TEXT_BYTES];
    if (table->sum_line == 0)
        return DONE;
    if (make_text(rows, text) != DONE)
        return BAD;
    uint32_t sum = sum_of_text(text);
    if (sum == table->sum)
        return DONE;
    return bad_input(table->file, table->sum_line,
                     "the table is of another font: its sum is %08" PRIX32 ", and that of this font is %08" PRIX32
                     "; pack again, or take the line out if the cells are still right",
                     table->sum, sum);
}

static int no_glyph(const struct names *names, const char *file, size_t line, struct slice name)
{
    char room[SHOWN], near_room[SHOWN];
    size_t near = find_near(names, name);
    shown_name(name, room);
    if (near < names->count)
        return bad_input(file, line, "%s is no glyph of the table; the nearest is %s", room, shown_name(slice_of(names->all[near].text), near_room));
    if (name.length == 1 || single_letter(name) != 0)
        return bad_input(file, line, "%s is no glyph of the table: look there for its name; a letter of another alphabet may look the same", room);
    return bad_input(file, line, "%s is no glyph of the table: look there for its name", room);
}

int find_cell(const struct table *table, const char *file, size_t line, struct slice name, uint32_t *cell)
{
    if (judge_name(file, line, name) != DONE)
        return BAD;
    size_t found = find_name(&table->names, name);
    if (found == table->names.count)
        return no_glyph(&table->names, file, line, name);
    *cell = table->cells[found];
    return DONE;
}
