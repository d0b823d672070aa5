#include <stdio.h>

#include "commands.h"
#include "fonttext.h"
#include "glyphs.h"
#include "input.h"
#include "options.h"
#include "output.h"
#include "say.h"
#include "table.h"

enum { FONT, TABLE, OPTIONS };

/* What packing gives. */
struct packed {
    uint16_t rows[DIRGEFLINT_FONT_ROWS];
    uint8_t cells[MOST_NAMES];
    uint32_t used;
    uint8_t text[DIRGEFLINT_TEXT_BYTES]; /* of the font */
};

/* In how many dots two glyphs differ. */
static int dots_apart(const struct glyphs *glyphs, size_t one, size_t other)
{
    int apart = 0;
    for (size_t row = 0; row < DIRGEFLINT_CELL_ROWS; row++)
        for (unsigned dots = glyphs->rows[one * DIRGEFLINT_CELL_ROWS + row] ^ glyphs->rows[other * DIRGEFLINT_CELL_ROWS + row]; dots != 0; dots &= dots - 1)
            apart++;
    return apart;
}

/* The glyphs of which none before them is alike; gives how many. */
static size_t find_different(const struct glyphs *glyphs, size_t different[MOST_NAMES])
{
    size_t count = 0;
    for (size_t glyph = 0; glyph < glyphs->count; glyph++) {
        size_t i = 0;
        while (i < count && dots_apart(glyphs, different[i], glyph) != 0)
            i++;
        if (i == count)
            different[count++] = glyph;
    }
    return count;
}

/* The two of them that differ in the fewest dots, as these may be meant to be the same; gives in how many. */
static int find_likest(const struct glyphs *glyphs, const size_t *different, size_t count, size_t *one, size_t *other)
{
    int fewest = DIRGEFLINT_CELL_ROWS * DIRGEFLINT_CELL_DOTS + 1;
    for (size_t i = 0; i < count; i++)
        for (size_t j = i + 1; j < count; j++) {
            int apart = dots_apart(glyphs, different[i], different[j]);
            if (apart < fewest) {
                fewest = apart;
                *one = different[i];
                *other = different[j];
            }
        }
    return fewest;
}

static const char *shown_glyph(const struct glyphs *glyphs, size_t glyph, char room[SHOWN])
{
    return shown_name(slice_of(glyphs->names.all[glyph].text), room);
}

static int too_many_glyphs(const char *file, const struct glyphs *glyphs, dirgeflint_answer answer)
{
    char room[SHOWN];
    size_t first = DIRGEFLINT_MOST_GLYPHS;
    return refused(file, glyphs->names.all[first].line, answer, "glyph %s is number %zu: there are %zu glyphs, and at most %zu can be packed; leave out %zu",
                   shown_glyph(glyphs, first, room), first + 1, glyphs->count, first, glyphs->count - first);
}

static int too_many_patterns(const char *file, const struct glyphs *glyphs, dirgeflint_answer answer)
{
    char room[SHOWN], one_room[SHOWN], other_room[SHOWN];
    size_t different[MOST_NAMES], one = 0, other = 0, count = find_different(glyphs, different);
    if (count <= DIRGEFLINT_CELLS)
        return refused(file, 0, answer, "%s", dirgeflint_reason(answer.number));
    size_t first = different[DIRGEFLINT_CELLS];
    int apart = find_likest(glyphs, different, count, &one, &other);
    return refused(file, glyphs->names.all[first].line, answer,
                   "glyph %s finds no cell: %zu glyphs are different, and a font has %d cells; leave out %zu, or draw them as others are: the most "
                   "alike are %s at line %zu and %s at line %zu, which differ in %d dot%s",
                   shown_glyph(glyphs, first, room), count, (int)DIRGEFLINT_CELLS, count - DIRGEFLINT_CELLS, shown_glyph(glyphs, one, one_room),
                   glyphs->names.all[one].line, shown_glyph(glyphs, other, other_room), glyphs->names.all[other].line, apart, apart == 1 ? "" : "s");
}

static int pack_glyphs(const char *file, const struct glyphs *glyphs, struct packed *packed)
{
    dirgeflint_answer answer = dirgeflint_pack(glyphs->rows, glyphs->names.count * DIRGEFLINT_CELL_ROWS, packed->rows, DIRGEFLINT_FONT_ROWS, packed->cells,
                                               sizeof packed->cells);
    if (answer.number == DIRGEFLINT_BAD_GLYPHS && glyphs->count > DIRGEFLINT_MOST_GLYPHS)
        return too_many_glyphs(file, glyphs, answer);
    if (answer.number == DIRGEFLINT_TOO_MANY_PATTERNS)
        return too_many_patterns(file, glyphs, answer);
    if (answer.number != DIRGEFLINT_ACCEPTED)
        return refused(file, 0, answer, "%s", dirgeflint_reason(answer.number));
    packed->used = answer.value;
    return make_text(packed->rows, packed->text);
}

static void write_both(FILE *font, FILE *table, const struct glyphs *glyphs, const struct packed *packed)
{
    fwrite(packed->text, 1, sizeof packed->text, font);
    write_table(table, glyphs, packed->cells, packed->used, sum_of_text(packed->text));
}

/* The table is printed if no file is named for it: where the text of the font does not go. */
static int write_and_print(const struct glyphs *glyphs, const struct packed *packed, const char *font)
{
    struct output output;
    if (!open_output(font, &output))
        return TROUBLE;
    write_both(output.stream, is_standard_output(font) ? stderr : stdout, glyphs, packed);
    return close_output(&output, is_printed() ? DONE : TROUBLE);
}

static int write_files(const struct glyphs *glyphs, const struct packed *packed, const char *font, const char *table)
{
    struct output outputs[OPTIONS];
    if (!open_output(font, &outputs[FONT]))
        return TROUBLE;
    if (!open_output(table, &outputs[TABLE]))
        return close_output(&outputs[FONT], TROUBLE);
    write_both(outputs[FONT].stream, outputs[TABLE].stream, glyphs, packed);
    return close_outputs(outputs, OPTIONS, DONE);
}

int pack_command(int count, char **words)
{
    struct option options[OPTIONS + 1] = { [FONT] = { "-o", true, NULL }, [TABLE] = { "--table", true, NULL } };
    struct usage usage = { "pack", "a DRAWINGS.txt, or -", 1, 1, options };
    static struct glyphs glyphs;
    static struct packed packed;
    int status;
    if (!read_options(&usage, &count, words, &status))
        return status;
    status = judge_outputs("pack", &options[FONT], &options[TABLE]);
    for (int i = 0; i < OPTIONS && status == DONE; i++)
        status = judge_output("pack", &options[i], words[0]);
    if (status == DONE)
        status = read_glyphs(words[0], &glyphs);
    if (status == DONE)
        status = pack_glyphs(input_name(words[0]), &glyphs, &packed);
    if (status != DONE)
        return status;
    const char *font = options[FONT].value, *table = options[TABLE].value;
    return table == NULL ? write_and_print(&glyphs, &packed, font) : write_files(&glyphs, &packed, font, table);
}
