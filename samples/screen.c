/* Paints a channel display with the sample font and prints it: a character for each dot. */
#include "dirgeflint.h"
#include <stdio.h>

enum { WIDTH = 112 };

/* One byte more than a text may have, so that a longer one is refused and not cut. */
static uint8_t text[DIRGEFLINT_MOST_TEXT + 1], image[DIRGEFLINT_IMAGE_BYTES], dots[WIDTH];
static uint16_t font[DIRGEFLINT_FONT_ROWS];

static int refused(const char *what, dirgeflint_answer a)
{
    fprintf(stderr, "screen: %s: %s (refused %u at %u)\n", what, dirgeflint_reason(a.number), (unsigned)a.number, (unsigned)a.place);
    return 1;
}

int main(int count, char **names)
{
    FILE *file = fopen(count > 1 ? names[1] : "samples/font.hex", "rb");
    if (file == NULL) {
        fputs("screen: no font; give the path of samples/font.hex\n", stderr);
        return 1;
    }
    size_t length = fread(text, 1, sizeof text, file);
    fclose(file);
    dirgeflint_answer a = dirgeflint_hex_read(text, length, image, sizeof image);
    if (a.number != DIRGEFLINT_ACCEPTED)
        return refused("the text", a);
    a = dirgeflint_image_to_font(image, sizeof image, font, DIRGEFLINT_FONT_ROWS);
    if (a.number != DIRGEFLINT_ACCEPTED)
        return refused("the image", a);

    /* "CH 12" in white through the write port, then an end. Cells 0 to 9 are the digits, 11 to 36 the letters. */
    static const uint8_t codes[] = { 13, 18, 61, 1, 2 };
    dirgeflint_port port;
    dirgeflint_port_reset(&port);
    dirgeflint_port_write_attribute(&port, DIRGEFLINT_WHITE << 1);
    for (size_t i = 0; i < sizeof codes; i++)
        dirgeflint_port_write_character(&port, codes[i]);
    dirgeflint_port_write_attribute(&port, 1);
    dirgeflint_port_write_character(&port, 63);

    /* An h of 10 or more, as the data sheets vouch for nothing below it. */
    dirgeflint_settings settings = { .on = true, .mode = 2, .colour = DIRGEFLINT_BLUE, .h = 10, .v = 0, .ratio = 0, .frequency = 0 };
    for (uint32_t line = 0; line < DIRGEFLINT_CELL_ROWS; line++) {
        a = dirgeflint_paint(port.words, DIRGEFLINT_WORDS, font, DIRGEFLINT_FONT_ROWS, settings, 0, line, WIDTH, dots, sizeof dots);
        if (a.number != DIRGEFLINT_ACCEPTED)
            return refused("a line", a);
        for (size_t k = 0; k < WIDTH; k++)
            putchar(dots[k] == DIRGEFLINT_VIDEO ? ' ' : dots[k] == DIRGEFLINT_COLOURED + DIRGEFLINT_WHITE ? '#' : '.');
        putchar('\n');
    }
    return 0;
}
