#include "fonttext.h"

#include "explain.h"
#include "input.h"
#include "say.h"

#define NOT_GIVEN "%d of %d bytes %s as FF, which is lit dots in a row: first at address %04X (%s)"

static int tell_gaps(const struct input *input, bool whole, uint32_t given)
{
    char place[REASON];
    int all = DIRGEFLINT_IMAGE_BYTES, missing = all - (int)given;
    size_t first = first_not_given(input->text);
    if (missing == 0)
        return DONE;
    const char *count = missing == 1 ? "is not given; it counts" : "are not given; they count";
    place_in_font(first, place);
    if (whole)
        return bad_input(input->name, 0, NOT_GIVEN, missing, all, count, (unsigned)first, place);
    warn(input->name, NOT_GIVEN, missing, all, count, (unsigned)first, place);
    return DONE;
}

static int turn_text(const struct input *input, bool whole, struct font *font)
{
    uint8_t image[DIRGEFLINT_IMAGE_BYTES];
    dirgeflint_answer read = dirgeflint_hex_read((const uint8_t *)input->text.start, input->text.length, image, sizeof image);
    if (read.number != DIRGEFLINT_ACCEPTED)
        return explain_refusal(input, read, NULL);
    dirgeflint_answer turned = dirgeflint_image_to_font(image, sizeof image, font->rows, DIRGEFLINT_FONT_ROWS);
    if (turned.number != DIRGEFLINT_ACCEPTED)
        return explain_refusal(input, turned, image);
    font->given = read.value;
    return tell_gaps(input, whole, read.value);
}

int load_font(const char *path, bool whole, struct font *font)
{
    struct input input;
    if (!read_input(path, DIRGEFLINT_MOST_TEXT + 1, &input))
        return TROUBLE;
    int status = turn_text(&input, whole, font);
    free_input(&input);
    return status;
}

int refused_font(dirgeflint_answer answer)
{
    const char *reason = dirgeflint_reason(answer.number);
    unsigned long cell = answer.place / DIRGEFLINT_CELL_ROWS, row = answer.place % DIRGEFLINT_CELL_ROWS;
    if (answer.number == DIRGEFLINT_BAD_ROW)
        return refused(PROGRAM, 0, answer, "the font: cell %lu row %lu: %s", cell, row, reason);
    return refused(PROGRAM, 0, answer, "the font: %s", reason);
}

int make_text(const uint16_t rows[DIRGEFLINT_FONT_ROWS], uint8_t text[DIRGEFLINT_TEXT_BYTES])
{
    dirgeflint_answer answer = dirgeflint_hex_write(rows, DIRGEFLINT_FONT_ROWS, text, DIRGEFLINT_TEXT_BYTES);
    return answer.number == DIRGEFLINT_ACCEPTED ? DONE : refused_font(answer);
}

uint32_t sum_of_text(const uint8_t text[DIRGEFLINT_TEXT_BYTES])
{
    const uint32_t divisor = 0xEDB88320; /* of the CRC-32 that gzip and zip use, its lowest power in the highest bit */
    uint32_t rest = UINT32_MAX;
    for (size_t i = 0; i < DIRGEFLINT_TEXT_BYTES; i++) {
        rest ^= text[i];
        for (int bit = 0; bit < 8; bit++)
            rest = rest >> 1 ^ (rest % 2 == 1 ? divisor : 0);
    }
    return ~rest;
}
