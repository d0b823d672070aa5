#include "explain.h"

#include <stdio.h>

#include "lines.h"
#include "point.h"
#include "record.h"
#include "say.h"

enum { CELL_STRIDE = 32, HALF = 4096, SPARE = CELL_STRIDE - DIRGEFLINT_CELL_ROWS };

/* What the whole text looks like, if that is the likelier cause than its first line. */
static const char *explain_start(struct slice text)
{
    if (has_mark(text))
        return MARKED;
    if (text.length == DIRGEFLINT_IMAGE_BYTES && text.start[0] != ':')
        return "this looks like an image, and a text is wanted: objcopy -I binary -O ihex IMAGE TEXT.hex makes one of it";
    return NULL;
}

/* Each of these writes the reason to room, or leaves it empty where it does not find what the library found. */

static void explain_shape(const struct record *record, struct slice line, char room[REASON])
{
    switch (record->shape) {
    case EMPTY:
        snprintf(room, REASON, "the line is empty: remove it");
        break;
    case ODD_DIGITS:
        snprintf(room, REASON, "an odd number of digits, %zu: each byte has two", line.length - 1);
        break;
    case WRONG_COUNT:
        if (record->count == 0)
            snprintf(room, REASON, "no byte follows the colon: a record has %d at least", (int)AROUND_DATA);
        else
            snprintf(room, REASON, "length %02X asks for %d bytes in all, and the line has %zu", (unsigned)record->bytes[0],
                     record->bytes[0] + AROUND_DATA, record->count);
        break;
    case BAD_CHARACTER:
    case WHOLE:
        break;
    }
}

static void explain_sum(const struct record *record, char room[REASON])
{
    unsigned is = record->bytes[record->count - 1], right = right_checksum(record);
    if (is != right)
        snprintf(room, REASON, "the checksum is %02X and has to be %02X for these bytes", is, right);
}

static void explain_type(const struct record *record, char room[REASON])
{
    unsigned type = record_type(record), length = record->bytes[0], address = record_address(record);
    if (type > 1)
        snprintf(room, REASON, "record type %02X: only 00 (data) and 01 (end) are taken; write the text with 16-bit addresses and no start address", type);
    else if (type == 1 && length != 0)
        snprintf(room, REASON, "an end record with length %02X: it has to be :00000001FF", length);
    else if (type == 1 && address != 0)
        snprintf(room, REASON, "an end record with address %04X: it has to be :00000001FF", address);
}

static void explain_past(const struct record *record, char room[REASON])
{
    snprintf(room, REASON, "address %04X and length %02X go past the image, which ends at %04X (%d bytes)", record_address(record),
             (unsigned)record->bytes[0], (unsigned)DIRGEFLINT_IMAGE_BYTES, (int)DIRGEFLINT_IMAGE_BYTES);
}

static void explain_twice(const struct record *record, struct slice before, char room[REASON])
{
    size_t givers[DIRGEFLINT_IMAGE_BYTES];
    find_givers(before, givers);
    size_t address = record_address(record), end = address + record->bytes[0];
    while (address < end && address < DIRGEFLINT_IMAGE_BYTES && givers[address] == 0)
        address++;
    if (address < end && address < DIRGEFLINT_IMAGE_BYTES)
        snprintf(room, REASON, "the byte at address %04X is given already, by line %zu: keep one of the two", (unsigned)address, givers[address]);
}

static void explain_record(struct slice text, dirgeflint_answer answer, char room[REASON])
{
    struct slice line = line_at(text, answer.place), before = { text.start, answer.place };
    struct record record = read_record(line);
    if (answer.number == DIRGEFLINT_NO_RECORD)
        explain_shape(&record, line, room);
    if (record.shape != WHOLE)
        return;
    switch (answer.number) {
    case DIRGEFLINT_BAD_SUM: explain_sum(&record, room); break;
    case DIRGEFLINT_BAD_TYPE: explain_type(&record, room); break;
    case DIRGEFLINT_PAST_IMAGE: explain_past(&record, room); break;
    case DIRGEFLINT_GIVEN_TWICE: explain_twice(&record, before, room); break;
    default: break;
    }
}

/* The library has found the character: its line is shown, with a mark under it. */
static int explain_character(const struct input *input, dirgeflint_answer answer)
{
    char room[SHOWN];
    struct slice line = line_at(input->text, answer.place), bad = { input->text.start + answer.place, 1 };
    size_t number = line_number(input->text, answer.place), place = (size_t)(bad.start - line.start);
    int status = refused(input->name, number, answer, "record %zu: column %zu: %s %s", number, place + 1, shown(bad, room),
                         place == 0 ? "stands where a record has its colon" : "is no hexadecimal digit");
    point_at(line, place);
    return status;
}

static int explain_end(const struct input *input, dirgeflint_answer answer)
{
    struct slice text = input->text, line;
    struct lines after = { without_first(text, answer.place), 0 };
    char follows[SHOWN];
    if (next_line(&after, &line))
        return refused(input->name, line_number(text, answer.place), answer, "%s follows the end record: remove all after its line",
                       line.length == 0 ? "an empty line" : shown(line, follows));
    size_t last = text.length == 0 ? 0 : text.length - 1;
    return refused(input->name, line_number(text, last), answer, "the end record is missing, so the text may be cut: its last line has to be :00000001FF");
}

/* Whether the address holds a row's half, and of which row of which cell. */
static bool find_row(size_t address, size_t *cell, size_t *row)
{
    *cell = address % HALF / CELL_STRIDE;
    *row = address % CELL_STRIDE;
    return *cell < DIRGEFLINT_CELLS && *row < DIRGEFLINT_CELL_ROWS;
}

const char *place_in_font(size_t address, char room[REASON])
{
    size_t cell, row;
    if (find_row(address, &cell, &row))
        snprintf(room, REASON, "cell %zu row %zu", cell, row);
    else
        snprintf(room, REASON, "no row's");
    return room;
}

static void explain_byte(size_t address, unsigned byte, char room[REASON])
{
    size_t cell, row;
    if (find_row(address, &cell, &row))
        snprintf(room, REASON, "cell %zu row %zu: the byte at address %04X is %02X: a row's high half has its upper four bits set, so F%X", cell, row,
                 (unsigned)address, byte, byte % 16);
    else if (cell < DIRGEFLINT_CELLS)
        snprintf(room, REASON, "cell %zu spare byte %zu of %d: the byte at address %04X is %02X: it holds no row and has to be FF", cell,
                 row - DIRGEFLINT_CELL_ROWS + 1, (int)SPARE, (unsigned)address, byte);
    else
        snprintf(room, REASON, "past the last cell: the byte at address %04X is %02X: it holds no row and has to be FF", (unsigned)address, byte);
}

static int explain_image(const struct input *input, dirgeflint_answer answer, const uint8_t *image)
{
    size_t givers[DIRGEFLINT_IMAGE_BYTES];
    find_givers(input->text, givers);
    size_t line = answer.place < DIRGEFLINT_IMAGE_BYTES ? givers[answer.place] : 0;
    if (line == 0)
        return refused(input->name, 0, answer, "%s", dirgeflint_reason(answer.number));
    char reason[REASON];
    explain_byte(answer.place, image[answer.place], reason);
    return refused(input->name, line, answer, "record %zu: %s", line, reason);
}

int explain_refusal(const struct input *input, dirgeflint_answer answer, const uint8_t *image)
{
    if (answer.number == DIRGEFLINT_TEXT_TOO_LONG)
        return refused(input->name, 0, answer, "the text has more than %d bytes: leave out what is no record, or write longer records", (int)DIRGEFLINT_MOST_TEXT);
    if (answer.number == DIRGEFLINT_BAD_END && answer.place <= input->text.length)
        return explain_end(input, answer);
    if (answer.number == DIRGEFLINT_NO_FONT)
        return explain_image(input, answer, image);
    char found[REASON] = "";
    const char *start = explain_start(input->text);
    bool inside = answer.place < input->text.length;
    if (start == NULL && inside && answer.number == DIRGEFLINT_BAD_CHARACTER)
        return explain_character(input, answer);
    if (inside)
        explain_record(input->text, answer, found);
    const char *reason = start != NULL ? start : found[0] != '\0' ? found : dirgeflint_reason(answer.number);
    size_t line = line_number(input->text, answer.place);
    return refused(input->name, line, answer, "record %zu: %s", line, reason);
}

size_t first_not_given(struct slice text)
{
    size_t givers[DIRGEFLINT_IMAGE_BYTES], address = 0;
    find_givers(text, givers);
    while (address < DIRGEFLINT_IMAGE_BYTES && givers[address] != 0)
        address++;
    return address;
}
