/* glyphs.c: packs drawn glyphs, prints which of them share a cell, and paints those that are named after the file, a character for each dot. */
#include "dirgeflint.h"
#include <stdio.h>
#include <stdlib.h>
#include <string.h>

/* Room for a glyph more than can be packed, so that more are refused and not cut. */
enum { ROOM = DIRGEFLINT_MOST_GLYPHS + 1, ROOM_ROWS = ROOM * DIRGEFLINT_CELL_ROWS };

static char names[ROOM][65];
static uint16_t drawn[ROOM_ROWS], font[DIRGEFLINT_FONT_ROWS], words[DIRGEFLINT_WORDS];
static uint8_t cells[DIRGEFLINT_MOST_GLYPHS], dots[DIRGEFLINT_MOST_WIDTH];

static dirgeflint_answer need(const char *what, dirgeflint_answer a)
{
    if (a.number != DIRGEFLINT_ACCEPTED) {
        fprintf(stderr, "glyphs: %s: %s (refused %u at %u)\n", what, dirgeflint_reason(a.number), (unsigned)a.number, (unsigned)a.place);
        exit(1);
    }
    return a;
}

/* Reads headings (glyph NAME) and rows of # and ., all of them right: dirgeflint pack would tell. Gives how many rows there are. */
static size_t read_rows(FILE *file)
{
    char line[512];
    size_t glyphs = 0, rows = 0;
    while (fgets(line, sizeof line, file) != NULL) {
        if (glyphs < ROOM && sscanf(line, "glyph %64s", names[glyphs]) == 1)
            glyphs++;
        if ((line[0] == '#' || line[0] == '.') && rows < ROOM_ROWS) {
            for (int dot = 0; dot < DIRGEFLINT_CELL_DOTS; dot++)
                drawn[rows] = (uint16_t)(drawn[rows] << 1 | (line[dot] == '#'));
            rows++;
        }
    }
    return rows;
}

static size_t glyph_named(const char *name, size_t glyphs)
{
    for (size_t g = 0; g < glyphs; g++)
        if (strcmp(names[g], name) == 0)
            return g;
    fprintf(stderr, "glyphs: there is no glyph %s\n", name);
    exit(1);
}

int main(int count, char **arguments)
{
    FILE *file = count > 1 && count < 2 + DIRGEFLINT_WORDS ? fopen(arguments[1], "r") : NULL;
    if (file == NULL) {
        fputs("glyphs: give the path of glyphs.txt, and then names of glyphs, at most 64\n", stderr);
        return 2;
    }
    size_t rows = read_rows(file), glyphs = rows / DIRGEFLINT_CELL_ROWS;
    fclose(file);
    uint32_t used = need(arguments[1], dirgeflint_pack(drawn, rows, font, DIRGEFLINT_FONT_ROWS, cells, sizeof cells)).value;
    printf("%u glyphs in %u cells\n", (unsigned)glyphs, (unsigned)used);
    for (size_t g = 0; g < glyphs; g++)
        for (size_t first = 0; first < g; first++)
            if (cells[first] == cells[g]) {
                printf("%s shares cell %u with %s\n", names[g], cells[g], names[first]);
                break;
            }

    /* The glyphs that are named, by their cells; the words left over are ends. */
    uint32_t shown = 0, width = DIRGEFLINT_CELL_DOTS * (uint32_t)(count - 2);
    for (int i = 2; i < count; i++)
        words[shown++] = dirgeflint_character(cells[glyph_named(arguments[i], glyphs)], DIRGEFLINT_WHITE, false);
    for (size_t n = shown; n < DIRGEFLINT_WORDS; n++)
        words[n] = dirgeflint_end();
    dirgeflint_settings settings = { .on = true, .mode = 2 };
    for (uint32_t line = 0; line < DIRGEFLINT_CELL_ROWS && shown > 0; line++) {
        need("a line", dirgeflint_paint(words, DIRGEFLINT_WORDS, font, DIRGEFLINT_FONT_ROWS, settings, 0, line, width, dots, sizeof dots));
        for (uint32_t k = 0; k < width; k++)
            putchar(dots[k] == DIRGEFLINT_COLOURED + DIRGEFLINT_WHITE ? '#' : '.');
        putchar('\n');
    }
    return 0;
}
