/* words.c: a screen by the builders of words, painted with the font of a text and printed, a character for each dot. */
#include "dirgeflint.h"
#include <stdio.h>
#include <stdlib.h>

enum { WIDTH = 36, LINES = 58 };

/* One byte more than a text may have, so that a longer one is refused and not cut. */
static uint8_t text[DIRGEFLINT_MOST_TEXT + 1], image[DIRGEFLINT_IMAGE_BYTES], dots[WIDTH];
static uint16_t font[DIRGEFLINT_FONT_ROWS], words[DIRGEFLINT_WORDS];

static void need(const char *what, dirgeflint_answer a)
{
    if (a.number != DIRGEFLINT_ACCEPTED) {
        fprintf(stderr, "words: %s: %s (refused %u at %u)\n", what, dirgeflint_reason(a.number), (unsigned)a.number, (unsigned)a.place);
        exit(1);
    }
}

int main(int count, char **names)
{
    FILE *file = count == 2 ? fopen(names[1], "rb") : NULL;
    if (file == NULL) {
        fputs("words: cannot open the font; give the path of font.hex\n", stderr);
        return 2;
    }
    size_t length = fread(text, 1, sizeof text, file);
    fclose(file);
    need(names[1], dirgeflint_hex_read(text, length, image, sizeof image));
    need(names[1], dirgeflint_image_to_font(image, sizeof image, font, DIRGEFLINT_FONT_ROWS));

    /* On blue, "CH"; four lines below it, twice as large, a 7 that blinks. The words left over must be ends: 0 is a black 0. */
    size_t n = 0;
    words[n++] = dirgeflint_space(DIRGEFLINT_BLUE);
    words[n++] = dirgeflint_character(13, DIRGEFLINT_WHITE, false);
    words[n++] = dirgeflint_character(18, DIRGEFLINT_WHITE, false);
    words[n++] = dirgeflint_return(2, 4);
    words[n++] = dirgeflint_character(7, DIRGEFLINT_YELLOW, true);
    while (n < DIRGEFLINT_WORDS)
        words[n++] = dirgeflint_end();

    dirgeflint_settings settings = { .on = true, .mode = 2 };
    for (uint32_t line = 0; line < LINES; line++) {
        need("a line", dirgeflint_paint(words, DIRGEFLINT_WORDS, font, DIRGEFLINT_FONT_ROWS, settings, 0, line, WIDTH, dots, sizeof dots));
        for (size_t k = 0; k < WIDTH; k++)
            putchar(dots[k] == DIRGEFLINT_VIDEO ? ' ' : ".:+=*%@#"[dots[k] - DIRGEFLINT_COLOURED]);
        putchar('\n');
    }
    return 0;
}
