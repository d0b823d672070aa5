#include "glyphs.h"

#include <string.h>

#include "rows.h"
#include "say.h"

/* Nothing may follow the name but a comment: two words are no name, and one of them would be lost. */
static int judge_rest(const struct rows *rows, struct slice rest)
{
    char room[SHOWN];
    struct slice word = next_word(&rest);
    if (word.length == 0 || word.start[0] == ';' || word.start[0] == '#')
        return DONE;
    return bad_input(rows->file, rows->lines.number, "%s follows the name: a name is one word, such as volume-bar; a comment begins with ; or #",
                     shown(word, room));
}

/* Notes a name that is not there yet. */
static int take_name(const struct rows *rows, struct names *names, struct slice name)
{
    char room[SHOWN];
    size_t twin = find_name(names, name);
    if (twin < names->count)
        return bad_input(rows->file, rows->lines.number, "glyph %s is drawn already, at line %zu: leave one out, or give it another name",
                         shown_name(name, room), names->all[twin].line);
    add_name(names, name, rows->lines.number);
    return DONE;
}

/* What follows the word glyph. Glyphs past those that are kept are looked at and counted, and all drawn to the last place. */
static int begin_glyph(struct rows *rows, struct slice rest)
{
    struct glyphs *glyphs = rows->into;
    char room[SHOWN];
    struct slice name = next_word(&rest);
    int status = judge_name(rows->file, rows->lines.number, name);
    if (status == DONE)
        status = judge_rest(rows, rest);
    if (status == DONE && glyphs->count < MOST_NAMES)
        status = take_name(rows, &glyphs->names, name);
    size_t place = glyphs->count < MOST_NAMES ? glyphs->count : MOST_NAMES - 1;
    glyphs->count++;
    rows->to = &glyphs->rows[place * DIRGEFLINT_CELL_ROWS];
    snprintf(rows->label, LABEL, "glyph %s", shown_name(name, room));
    return status;
}

int read_glyphs(const char *path, struct glyphs *glyphs)
{
    static const struct drawn drawn = { "glyph", "glyph NAME", "glyph A", "cell", "font", begin_glyph };
    memset(glyphs, 0, sizeof *glyphs);
    return read_rows(path, &drawn, glyphs);
}
