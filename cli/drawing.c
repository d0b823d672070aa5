#include "drawing.h"

#include <string.h>

#include "number.h"
#include "rows.h"
#include "say.h"

bool read_drawn_cell(struct slice word, uint32_t *cell)
{
    return memchr(word.start, 'x', word.length) == NULL && read_number_within(word, 0, DIRGEFLINT_CELLS - 1, cell);
}

/* What follows the word cell. */
static int begin_cell(struct rows *rows, struct slice rest)
{
    struct drawing *drawing = rows->into;
    uint32_t cell;
    char room[SHOWN];
    struct slice word = next_word(&rest);
    if (!read_drawn_cell(word, &cell))
        return bad_input(rows->file, rows->lines.number, "%s is no cell: a heading is the word cell and a number from 0 to %d", shown(word, room),
                         DIRGEFLINT_CELLS - 1);
    size_t *heading = &drawing->headings[cell];
    if (*heading != 0)
        return bad_input(rows->file, rows->lines.number, "cell %lu is drawn already, at line %zu: keep one of the two", (unsigned long)cell, *heading);
    *heading = rows->lines.number;
    snprintf(rows->label, LABEL, "cell %lu", (unsigned long)cell);
    rows->to = &drawing->rows[cell * DIRGEFLINT_CELL_ROWS];
    return DONE;
}

int read_drawing(const char *path, struct drawing *drawing)
{
    static const struct drawn cells = { "cell", "cell NN", "cell 00", "glyph", "pack", begin_cell };
    memset(drawing, 0, sizeof *drawing);
    return read_rows(path, &cells, drawing);
}

void write_cell(FILE *stream, const uint16_t *font, uint32_t cell)
{
    fprintf(stream, "cell %02lu\n", (unsigned long)cell);
    for (uint32_t row = 0; row < DIRGEFLINT_CELL_ROWS; row++) {
        for (int dot = DIRGEFLINT_CELL_DOTS - 1; dot >= 0; dot--)
            fputc(font[cell * DIRGEFLINT_CELL_ROWS + row] >> dot & 1 ? '#' : '.', stream);
        fputc('\n', stream);
    }
}
