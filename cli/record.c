#include "record.h"

#include <string.h>

#include "lines.h"
#include "number.h"

/* Reads the digits that follow the colon, two for each byte. */
static enum shape read_digits(struct slice line, struct record *record)
{
    for (size_t i = 1; i < line.length; i++) {
        int digit = digit_value(line.start[i]);
        if (digit < 0)
            return BAD_CHARACTER;
        size_t place = (i - 1) / 2;
        if (place < MOST_RECORD)
            record->bytes[place] = (uint8_t)(record->bytes[place] << 4 | digit);
    }
    record->count = (line.length - 1) / 2;
    if (line.length % 2 == 0)
        return ODD_DIGITS;
    return record->count == (size_t)record->bytes[0] + AROUND_DATA ? WHOLE : WRONG_COUNT;
}

struct record read_record(struct slice line)
{
    struct record record;
    memset(&record, 0, sizeof record);
    if (line.length == 0)
        record.shape = EMPTY;
    else if (line.start[0] != ':')
        record.shape = BAD_CHARACTER;
    else
        record.shape = read_digits(line, &record);
    return record;
}

unsigned record_address(const struct record *record)
{
    return (unsigned)record->bytes[1] << 8 | record->bytes[2];
}

unsigned record_type(const struct record *record)
{
    return record->bytes[3];
}

uint8_t right_checksum(const struct record *record)
{
    unsigned sum = 0;
    for (size_t i = 0; i + 1 < record->count; i++)
        sum += record->bytes[i];
    return (uint8_t)(0u - sum);
}

static void note_data(const struct record *record, size_t line, size_t givers[DIRGEFLINT_IMAGE_BYTES])
{
    size_t address = record_address(record), end = address + record->bytes[0];
    for (; address < end && address < DIRGEFLINT_IMAGE_BYTES; address++)
        if (givers[address] == 0)
            givers[address] = line;
}

void find_givers(struct slice text, size_t givers[DIRGEFLINT_IMAGE_BYTES])
{
    struct lines lines = { text, 0 };
    struct slice line;
    memset(givers, 0, DIRGEFLINT_IMAGE_BYTES * sizeof givers[0]);
    while (next_line(&lines, &line)) {
        struct record record = read_record(line);
        if (record.shape != WHOLE || record_type(&record) != 0)
            return;
        note_data(&record, lines.number, givers);
    }
}
