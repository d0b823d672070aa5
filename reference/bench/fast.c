/*
 * Baselines for the measurements: the library's calls written for speed, in C, with the same checks. They have the
 * library's names with `fast` for `dirgeflint`; `reference/compare --baseline` puts them beside the model. Plain C, no
 * instruction of any one processor, but loops that a compiler can turn into vectors, and words of eight bytes where that
 * is quicker; those count on little-endian memory. Included by the files that need them, after the header.
 */
#include <string.h>

#define FAST_INLINE static inline __attribute__((always_inline))
#define FAST_APART static __attribute__((noinline))

static dirgeflint_answer fast_pulse_level(uint32_t channel, uint8_t byte, uint32_t t)
{
    uint32_t mask = 127u >> (channel >> 2 & 1);
    dirgeflint_answer answer = { 0, 0, 0 };
    if (channel > 7 || t > mask)
        answer.number = 15;
    else
        answer.value = t < (byte & mask);
    return answer;
}

static dirgeflint_answer fast_answer(uint32_t number, uint32_t place, uint32_t value)
{
    dirgeflint_answer answer;
    answer.number = number;
    answer.place = place;
    answer.value = value;
    return answer;
}

/*
 * The running record as a word and the count of high clocks. The word has the position in bits 0 to 15, then held,
 * completed and in force, 16 bits each, the coarse half below the fine one.
 */
static const uint64_t fast_kept = 0x7F7F7F7F7F7F3FFFu;

static uint64_t fast_load(const dirgeflint_dac *dac)
{
    uint64_t all;
    memcpy(&all, dac, sizeof all);
    return all & fast_kept;
}

static void fast_store(dirgeflint_dac *dac, uint64_t all, uint32_t high)
{
    memcpy(dac, &all, sizeof all);
    dac->high = high & 16383;
}

static void fast_dac_reset(dirgeflint_dac *dac)
{
    fast_store(dac, 0, 0);
}

static void fast_dac_write_low(dirgeflint_dac *dac, uint8_t byte)
{
    fast_store(dac, (fast_load(dac) & ~(uint64_t)0xFF000000) | (uint64_t)(byte & 127) << 24, dac->high);
}

static void fast_dac_write_high(dirgeflint_dac *dac, uint8_t byte)
{
    uint64_t all = (fast_load(dac) & ~(uint64_t)0xFF0000) | (uint64_t)(byte & 127) << 16;
    fast_store(dac, (all & ~(uint64_t)0xFFFF00000000) | (all << 16 & (uint64_t)0xFFFF00000000), dac->high);
}

FAST_INLINE uint32_t fast_least(uint32_t a, uint32_t b)
{
    return a < b ? a : b;
}

#ifdef HARDER
#include "harder.c"
#else
/* One more for a sub-period that the fine half picks: its lowest set bit, turned round, is the fine bit that serves it. */
static uint32_t fast_high(uint64_t all, uint32_t sub)
{
    uint32_t coarse = (uint32_t)(all >> 48 & 127), fine = (uint32_t)(all >> 56);
    return coarse + (fine * (sub & -sub) >> 6 & 1);
}

static dirgeflint_answer fast_dac_play(dirgeflint_dac *dac, uint32_t clocks, uint8_t *levels, size_t levels_length)
{
    if (clocks > 16384 || clocks > levels_length)
        return fast_answer(14, 0, 0);
    uint32_t high = dac->high;
    if (clocks == 0)
        return fast_answer(0, 0, high & 16383);
    uint64_t all = fast_load(dac);
    uint32_t position = all & 16383;
    while (clocks != 0) {
        if (position == 0) {
            all = (all & 0x0000FFFFFFFFFFFFu) | all << 16 >> 48 << 48;
            high = 0;
        }
        uint32_t clock = position & 127;
        /* Bit 7 of a count from here down is the level: it is set as long as the clock is below the number of high ones. */
        if (clock == 0)
            for (; clocks >= 128 && position < 16384; clocks -= 128, position += 128, levels += 128) {
                uint32_t now = fast_high(all, position >> 7);
                uint8_t count = (uint8_t)(127 + now);
                for (int i = 0; i < 128; i++)
                    levels[i] = count-- >> 7;
                high += now;
            }
        if (position < 16384) {
            uint32_t run = fast_least(clocks, 128 - clock), now = fast_high(all, position >> 7);
            uint8_t count = (uint8_t)(127 + now - clock);
            for (uint32_t i = 0; i < run; i++)
                levels[i] = count-- >> 7;
            high += fast_least(now, clock + run) - fast_least(now, clock);
            levels += run;
            clocks -= run;
            position += run;
        }
        position &= 16383;
    }
    fast_store(dac, (all & ~(uint64_t)0xFFFF) | position, high);
    return fast_answer(0, 0, high & 16383);
}
#endif

static void fast_port_reset(dirgeflint_port *port)
{
    memset(port, 0, sizeof *port);
}

static void fast_cut(dirgeflint_port *port)
{
    port->address &= 63;
    port->attribute &= 15;
    port->character &= 63;
    for (int i = 0; i < 64; i++)
        port->words[i] &= 1023;
}

static void fast_port_write_address(dirgeflint_port *port, uint8_t byte)
{
    fast_cut(port);
    port->address = byte & 63;
}

static void fast_port_write_attribute(dirgeflint_port *port, uint8_t byte)
{
    fast_cut(port);
    port->attribute = byte & 15;
}

static void fast_port_write_character(dirgeflint_port *port, uint8_t byte)
{
    fast_cut(port);
    port->character = byte & 63;
    port->words[port->address] = (uint16_t)(port->character << 4 | port->attribute);
    port->address = (port->address + 1) & 63;
}

/* Every bit that is set in one of the numbers, over four of them at once. */
static uint16_t fast_all(const uint16_t *numbers, size_t quarter)
{
    const uint16_t *b = numbers + quarter, *c = b + quarter, *d = c + quarter;
    uint16_t all = 0;
    for (size_t i = 0; i < quarter; i++)
        all |= (uint16_t)((numbers[i] | b[i]) | (c[i] | d[i]));
    return all;
}

/* What speaks against a font, if not 0. */
static uint32_t fast_font_number(const uint16_t *font, size_t font_length)
{
    if (font_length != 1116)
        return 4;
    return fast_all(font, 279) > 4095 ? 18 : 0;
}

/* A refusal of a painter or the writer. Which row is too large is looked for only here, when one is known to be. */
FAST_APART dirgeflint_answer fast_refusal(uint32_t number, const uint16_t *font)
{
    uint32_t place = 0;
    if (number == 18)
        while (font[place] <= 4095)
            place++;
    return fast_answer(number, place, 0);
}

static uint32_t fast_paint_number(const uint16_t *words, size_t words_length, const uint16_t *font, size_t font_length,
                                  const dirgeflint_settings *s, uint32_t line, uint32_t width, size_t dots_length)
{
    if ((s->mode | s->ratio | s->frequency) > 3 || s->colour > 7 || (s->h | s->v) > 63)
        return 1;
    if (s->ratio == 3)
        return 2;
    if (words_length != 64 || fast_all(words, 16) > 1023)
        return 3;
    uint32_t number = fast_font_number(font, font_length);
    if (number != 0)
        return number;
    if (line > 1023 || width > 1024)
        return 5;
    return dots_length < width ? 6 : 0;
}

/* Eight dots of a row. Each byte of `columns` has one bit, that of the dot's column; `change` is lit and unlit, by exor. */
static uint64_t fast_dots(uint32_t bits, uint64_t columns, uint8_t unlit, uint8_t change)
{
    static const uint64_t ones = 0x0101010101010101u;
    uint64_t lit = ((bits * ones & columns) + 127 * ones) >> 7 & ones;
    return unlit * ones ^ lit * change;
}

static void fast_put_8(uint8_t *to, uint64_t dots)
{
    memcpy(to, &dots, 8);
}

static void fast_put_4(uint8_t *to, uint64_t dots)
{
    uint32_t half = (uint32_t)dots;
    memcpy(to, &half, 4);
}

/* A cell's row: eight dots at a time of its 12, 24, 36 or 48. */
static void fast_cell(uint8_t *to, uint32_t size, uint32_t row, uint8_t lit, uint8_t unlit)
{
    uint8_t change = lit ^ unlit;
    uint32_t left = row >> 4, right = row & 15;
    switch (size) {
    case 1:
        fast_put_8(to, fast_dots(left, 0x0102040810204080u, unlit, change));
        fast_put_4(to + 8, fast_dots(right, 0x01020408u, unlit, change));
        break;
    case 2:
        fast_put_8(to, fast_dots(left, 0x1010202040408080u, unlit, change));
        fast_put_8(to + 8, fast_dots(left, 0x0101020204040808u, unlit, change));
        fast_put_8(to + 16, fast_dots(right, 0x0101020204040808u, unlit, change));
        break;
    case 3:
        fast_put_8(to, fast_dots(left, 0x2020404040808080u, unlit, change));
        fast_put_8(to + 8, fast_dots(left, 0x0408080810101020u, unlit, change));
        fast_put_8(to + 16, fast_dots(left, 0x0101010202020404u, unlit, change));
        fast_put_8(to + 24, fast_dots(right, 0x0202040404080808u, unlit, change));
        fast_put_4(to + 32, fast_dots(right, 0x01010102u, unlit, change));
        break;
    default:
        fast_put_8(to, fast_dots(left, 0x4040404080808080u, unlit, change));
        fast_put_8(to + 8, fast_dots(left, 0x1010101020202020u, unlit, change));
        fast_put_8(to + 16, fast_dots(left, 0x0404040408080808u, unlit, change));
        fast_put_8(to + 24, fast_dots(left, 0x0101010102020202u, unlit, change));
        fast_put_8(to + 32, fast_dots(right, 0x0404040408080808u, unlit, change));
        fast_put_8(to + 40, fast_dots(right, 0x0101010102020202u, unlit, change));
    }
}

/* Eight dots of a row in mode 1: black where `any` has a bit, and the colour over it where `bits` has one too. */
static uint64_t fast_shaded_dots(uint32_t bits, uint32_t any, uint64_t columns, uint8_t colour)
{
    static const uint64_t ones = 0x0101010101010101u;
    uint64_t lit = ((bits * ones & columns) + 127 * ones) >> 7 & ones;
    uint64_t black = ((any * ones & columns) + 127 * ones) >> 4 & 8 * ones;
    return black | lit * colour;
}

/* A cell's row in mode 1, with the columns that a shadow falls on. */
static void fast_shaded_cell(uint8_t *to, uint32_t size, uint32_t row, uint32_t shadow, uint8_t colour)
{
    uint32_t any = row | shadow, left = row >> 4, right = row & 15, any_left = any >> 4, any_right = any & 15;
    switch (size) {
    case 1:
        fast_put_8(to, fast_shaded_dots(left, any_left, 0x0102040810204080u, colour));
        fast_put_4(to + 8, fast_shaded_dots(right, any_right, 0x01020408u, colour));
        break;
    case 2:
        fast_put_8(to, fast_shaded_dots(left, any_left, 0x1010202040408080u, colour));
        fast_put_8(to + 8, fast_shaded_dots(left, any_left, 0x0101020204040808u, colour));
        fast_put_8(to + 16, fast_shaded_dots(right, any_right, 0x0101020204040808u, colour));
        break;
    case 3:
        fast_put_8(to, fast_shaded_dots(left, any_left, 0x2020404040808080u, colour));
        fast_put_8(to + 8, fast_shaded_dots(left, any_left, 0x0408080810101020u, colour));
        fast_put_8(to + 16, fast_shaded_dots(left, any_left, 0x0101010202020404u, colour));
        fast_put_8(to + 24, fast_shaded_dots(right, any_right, 0x0202040404080808u, colour));
        fast_put_4(to + 32, fast_shaded_dots(right, any_right, 0x01010102u, colour));
        break;
    default:
        fast_put_8(to, fast_shaded_dots(left, any_left, 0x4040404080808080u, colour));
        fast_put_8(to + 8, fast_shaded_dots(left, any_left, 0x1010101020202020u, colour));
        fast_put_8(to + 16, fast_shaded_dots(left, any_left, 0x0404040408080808u, colour));
        fast_put_8(to + 24, fast_shaded_dots(left, any_left, 0x0101010102020202u, colour));
        fast_put_8(to + 32, fast_shaded_dots(right, any_right, 0x0404040408080808u, colour));
        fast_put_8(to + 40, fast_shaded_dots(right, any_right, 0x0101010102020202u, colour));
    }
}

/* The row that a line cuts: its first word, 64 if there is none, and what holds there. */
typedef struct fast_row {
    uint32_t word, top, size;
    uint8_t background;
} fast_row;

static fast_row fast_find(const uint16_t *words, const dirgeflint_settings *s, uint32_t line)
{
    fast_row row = { 0, 4 * s->v, 1, (uint8_t)(8 + s->colour) };
    if (line < row.top)
        row.word = 64;
    while (row.word < 64 && line >= row.top + 18 * row.size) {
        uint32_t word = words[row.word++];
        if (word < 62 << 4)
            continue;
        if (word < 63 << 4) {
            row.top += 18 * row.size + 4 * (word & 3);
            row.size = (word >> 2 & 3) + 1;
            if (line < row.top)
                row.word = 64;
        } else if (word & 1)
            row.word = 64;
        else
            row.background = (uint8_t)(8 + (word >> 1 & 7));
    }
    return row;
}

/* What is painted of the row that a line cuts: its words, by the font from the cut row on. */
typedef struct fast_cells {
    const uint16_t *words, *end, *font;
    uint8_t *dots;
    uint32_t left, width;
    bool hidden, boxed;
    uint8_t background;
} fast_cells;

/* Paints cells of a size that the compiler knows. Gives the dot after them. */
FAST_INLINE uint32_t fast_plain_row(const fast_cells c, uint32_t size)
{
    uint8_t background = c.background, mask = c.boxed ? 255 : 0;
    uint32_t left = c.left;
    for (const uint16_t *word = c.words; word < c.end && left < c.width; word++) {
        uint32_t code = *word >> 4, attributes = *word & 15, bits = 0;
        if (code == 62)
            break;
        if (code == 63) {
            if (attributes & 1)
                break;
            background = (uint8_t)(8 + (attributes >> 1));
        } else if (!(c.hidden && (attributes & 1)))
            bits = c.font[18 * code];
        uint8_t lit = (uint8_t)(8 + (attributes >> 1)), unlit = background & mask;
        if (left + 12 * size <= c.width)
            fast_cell(c.dots + left, size, bits, lit, unlit);
        else {
            uint8_t whole[48];
            fast_cell(whole, size, bits, lit, unlit);
            memcpy(c.dots + left, whole, c.width - left);
        }
        left += 12 * size;
    }
    return left;
}

/* The same in mode 1 below the first font row: the row above throws its shadow one column to the right. */
FAST_INLINE uint32_t fast_shaded_row(const fast_cells c, uint32_t size)
{
    uint32_t left = c.left, thrown = 0; /* by the cell before: its last column falls on the next cell's first */
    for (const uint16_t *word = c.words; word < c.end && left < c.width; word++) {
        uint32_t code = *word >> 4, attributes = *word & 15, bits = 0, above = 0;
        if (code == 62 || (code == 63 && (attributes & 1)))
            break;
        if (code < 62 && !(c.hidden && (attributes & 1))) {
            const uint16_t *cut = c.font + 18 * code;
            bits = cut[0];
            above = cut[-1];
        }
        thrown = thrown << 12 | above;
        uint32_t shadow = thrown >> 1 & 4095;
        uint8_t colour = (uint8_t)(attributes >> 1);
        if (left + 12 * size <= c.width)
            fast_shaded_cell(c.dots + left, size, bits, shadow, colour);
        else {
            uint8_t whole[48];
            fast_shaded_cell(whole, size, bits, shadow, colour);
            memcpy(c.dots + left, whole, c.width - left);
        }
        left += 12 * size;
    }
    for (uint32_t i = 0; (thrown & 1) && i < size && left < c.width; i++)
        c.dots[left++] = 8;
    return left;
}

/* Each size has a loop of its own, and each kind of row a function, so that there are registers enough. */
FAST_APART uint32_t fast_plain_cells(const fast_cells *c, uint32_t size)
{
    switch (size) {
    case 1:
        return fast_plain_row(*c, 1);
    case 2:
        return fast_plain_row(*c, 2);
    case 3:
        return fast_plain_row(*c, 3);
    default:
        return fast_plain_row(*c, 4);
    }
}

FAST_APART uint32_t fast_shaded_cells(const fast_cells *c, uint32_t size)
{
    switch (size) {
    case 1:
        return fast_shaded_row(*c, 1);
    case 2:
        return fast_shaded_row(*c, 2);
    case 3:
        return fast_shaded_row(*c, 3);
    default:
        return fast_shaded_row(*c, 4);
    }
}

static dirgeflint_answer fast_paint(const uint16_t *words, size_t words_length, const uint16_t *font,
                                    size_t font_length, dirgeflint_settings s, uint32_t frame, uint32_t line,
                                    uint32_t width, uint8_t *dots, size_t dots_length)
{
    uint32_t number = fast_paint_number(words, words_length, font, font_length, &s, line, width, dots_length);
    if (number != 0)
        return fast_refusal(number, font);
    if (!s.on) {
        memset(dots, 0, width);
        return fast_answer(0, 0, 0);
    }
    uint8_t outside = s.mode == 3 ? (uint8_t)(8 + s.colour) : 0;
    uint32_t quarter = 4u << s.frequency;
    bool hidden = (frame & (4 * quarter - 1)) >= (3 - s.ratio) * quarter;
    fast_row row = fast_find(words, &s, line);
    uint32_t start = 4 * s.h, left = start;
    if (row.word < 64) {
        uint32_t cut = (line - row.top) / row.size;
        bool shaded = s.mode == 1 && cut > 0, boxed = s.mode >= 2;
        fast_cells cells = { words + row.word, words + 64, font + cut, dots, start, width, hidden, boxed, row.background };
        left = shaded ? fast_shaded_cells(&cells, row.size) : fast_plain_cells(&cells, row.size);
    }
    /* No dot is laid twice: outside is filled where no cell is. */
    if (left == start)
        memset(dots, outside, width);
    else {
        memset(dots, outside, start);
        if (left < width)
            memset(dots + left, outside, width - left);
    }
    return fast_answer(0, 0, 0);
}

/* What no digit has: a value of 128, so that a whole record can be judged by one or. */
static uint8_t fast_digit(uint8_t c)
{
    uint8_t decimal = (uint8_t)(c - '0'), letter = (uint8_t)((c | 32) - 'a');
    return decimal < 10 ? decimal : letter < 6 ? (uint8_t)(letter + 10) : 128;
}

/* What was found in some bytes of a record: every bit of its digits, and the bytes' sum. */
typedef struct fast_found {
    uint8_t bits, sum;
} fast_found;

static fast_found fast_decode(const uint8_t *restrict text, uint8_t *restrict bytes, size_t count)
{
    fast_found found = { 0, 0 };
    for (size_t i = 0; i < count; i++) {
        uint8_t high = fast_digit(text[2 * i]), low = fast_digit(text[2 * i + 1]);
        found.bits |= high | low;
        bytes[i] = (uint8_t)(high << 4 | low);
        found.sum = (uint8_t)(found.sum + bytes[i]);
    }
    return found;
}

/* The image as far as it is read, and which of its bytes are given. */
typedef struct fast_draft {
    uint8_t image[8192], given[8192];
} fast_draft;

/* Whether none of the bytes was given before. */
static bool fast_give(fast_draft *restrict draft, size_t address, const uint8_t *restrict bytes, size_t count)
{
    uint8_t before = 0;
    for (size_t i = 0; i < count; i++)
        before |= draft->given[address + i];
    memcpy(draft->image + address, bytes, count);
    memset(draft->given + address, 1, count);
    return before == 0;
}

/*
 * The refusal of a line that is no record: good bytes are passed over from its start on, and what stands behind them is
 * the line's end or a bad character. This is asked only once the quick tests have failed.
 */
FAST_APART dirgeflint_answer fast_no_record(const uint8_t *text, size_t text_length, size_t start)
{
    size_t at = start + (text[start] == ':');
    while (at > start && at < text_length && fast_digit(text[at]) < 16)
        at++;
    if (at == text_length || text[at] == '\n' || (text[at] == '\r' && at + 1 < text_length && text[at + 1] == '\n'))
        return fast_answer(20, (uint32_t)start, 0);
    return fast_answer(19, (uint32_t)at, 0);
}

static dirgeflint_answer fast_hex_read(const uint8_t *text, size_t text_length, uint8_t *image, size_t image_length)
{
    static fast_draft draft;
    uint8_t head[4], data[256];
    uint32_t count = 0;
    size_t at = 0;
    if (image_length < 8192)
        return fast_answer(6, 0, 0);
    if (text_length > 65535)
        return fast_answer(7, 0, 0);
    memset(draft.image, 0xFF, sizeof draft.image);
    memset(draft.given, 0, sizeof draft.given);
    while (at < text_length) {
        const uint8_t *line = text + at;
        size_t left = text_length - at;
        uint32_t place = (uint32_t)at;
        if (left < 11 || line[0] != ':')
            return fast_no_record(text, text_length, at);
        fast_found found = fast_decode(line + 1, head, 4);
        size_t length = head[0], end = 11 + 2 * length, next = end;
        if ((found.bits & 128) || left < end)
            return fast_no_record(text, text_length, at);
        fast_found more = fast_decode(line + 9, data, length);
        uint8_t high = fast_digit(line[end - 2]), low = fast_digit(line[end - 1]);
        uint8_t bad = more.bits | high | low, sum = (uint8_t)(found.sum + more.sum + (high << 4 | low));
        if (left > end) {
            if (line[end] == '\n')
                next = end + 1;
            else if (line[end] == '\r' && left > end + 1 && line[end + 1] == '\n')
                next = end + 2;
            else
                bad = 128;
        }
        if (bad & 128)
            return fast_no_record(text, text_length, at);
        if (sum != 0)
            return fast_answer(8, place, 0);
        size_t address = (size_t)(head[1] << 8 | head[2]);
        at += next;
        if (head[3] == 1 && length == 0 && address == 0) {
            if (at < text_length)
                return fast_answer(12, (uint32_t)at, 0);
            memcpy(image, draft.image, sizeof draft.image);
            return fast_answer(0, 0, count);
        }
        if (head[3] != 0)
            return fast_answer(9, place, 0);
        if (address + length > 8192)
            return fast_answer(10, place, 0);
        if (!fast_give(&draft, address, data, length))
            return fast_answer(11, place, 0);
        count += (uint32_t)length;
    }
    return fast_answer(12, (uint32_t)text_length, 0);
}

static uint8_t *fast_spell(uint8_t *restrict text, const uint8_t *restrict bytes, size_t count)
{
    for (size_t i = 0; i < count; i++) {
        uint8_t high = bytes[i] >> 4, low = bytes[i] & 15;
        text[2 * i] = (uint8_t)(high + (high < 10 ? '0' : 'A' - 10));
        text[2 * i + 1] = (uint8_t)(low + (low < 10 ? '0' : 'A' - 10));
    }
    return text + 2 * count;
}

static void fast_image(const uint16_t *restrict font, uint8_t *restrict image)
{
    memset(image, 0xFF, 8192);
    for (size_t cell = 0; cell < 62; cell++)
        for (size_t row = 0; row < 18; row++) {
            image[32 * cell + row] = (uint8_t)font[18 * cell + row];
            image[4096 + 32 * cell + row] = (uint8_t)(font[18 * cell + row] >> 8 | 0xF0);
        }
}

static dirgeflint_answer fast_hex_write(const uint16_t *font, size_t font_length, uint8_t *text, size_t text_length)
{
    uint8_t image[8192];
    uint32_t number = fast_font_number(font, font_length);
    if (number != 0)
        return fast_refusal(number, font);
    if (text_length < 22540)
        return fast_answer(6, 0, 0);
    fast_image(font, image);
    for (uint32_t address = 0; address < 8192; address += 16) {
        uint8_t head[4] = { 16, (uint8_t)(address >> 8), (uint8_t)address, 0 };
        uint8_t sum = (uint8_t)(head[0] + head[1] + head[2]);
        for (uint32_t i = 0; i < 16; i++)
            sum = (uint8_t)(sum + image[address + i]);
        sum = (uint8_t)-sum;
        *text++ = ':';
        text = fast_spell(text, head, 4);
        text = fast_spell(text, image + address, 16);
        text = fast_spell(text, &sum, 1);
        *text++ = '\n';
    }
    memcpy(text, ":00000001FF\n", 12);
    return fast_answer(0, 0, 0);
}

static uint8_t fast_due(size_t address)
{
    size_t cell = address % 4096 / 32, row = address % 32;
    return cell >= 62 || row >= 18 ? 0xFF : address < 4096 ? 0 : 0xF0;
}

/* The bits that every byte has, of so many strides of 32; those of `free` count as had in a cell's rows. */
static uint8_t fast_held(const uint8_t *image, size_t strides, uint8_t free)
{
    uint8_t held = 0xFF;
    for (size_t stride = 0; stride < strides; stride++)
        for (size_t i = 0; i < 32; i++)
            held &= image[32 * stride + i] | (i < 18 ? free : 0);
    return held;
}

static void fast_turn(const uint8_t *restrict image, uint16_t *restrict font)
{
    for (size_t cell = 0; cell < 62; cell++)
        for (size_t row = 0; row < 18; row++)
            font[18 * cell + row] = (uint16_t)((image[4096 + 32 * cell + row] & 15) << 8 | image[32 * cell + row]);
}

static dirgeflint_answer fast_image_to_font(const uint8_t *image, size_t image_length, uint16_t *font,
                                            size_t font_length)
{
    if (image_length != 8192 || font_length != 1116)
        return fast_answer(13, 0, 0);
    uint8_t held = fast_held(image, 62, 0xFF) & fast_held(image + 1984, 66, 0) & fast_held(image + 4096, 62, 0x0F) &
                   fast_held(image + 4096 + 1984, 66, 0);
    if (held != 0xFF)
        for (uint32_t i = 0; i < 8192; i++)
            if (~image[i] & fast_due(i))
                return fast_answer(13, i, 0);
    fast_turn(image, font);
    return fast_answer(0, 0, 0);
}

/* A glyph's rows: four words of four, and one of the last two. */
typedef struct fast_glyph {
    uint64_t words[5];
} fast_glyph;

static fast_glyph fast_take(const uint16_t *rows)
{
    fast_glyph glyph;
    uint32_t last;
    memcpy(glyph.words, rows, 32);
    memcpy(&last, rows + 16, 4);
    glyph.words[4] = last;
    return glyph;
}

/* One word after the other: nearly always all five agree, and five jumps that are foreseen cost less than one for all. */
static bool fast_agree(fast_glyph glyph, const uint16_t *rows)
{
    fast_glyph other = fast_take(rows);
    return glyph.words[0] == other.words[0] && glyph.words[1] == other.words[1] && glyph.words[2] == other.words[2] &&
           glyph.words[3] == other.words[3] && glyph.words[4] == other.words[4];
}

static bool fast_too_wide(fast_glyph glyph)
{
    uint64_t all = glyph.words[0] | glyph.words[1] | glyph.words[2] | glyph.words[3] | glyph.words[4];
    return (all & 0xF000F000F000F000u) != 0;
}

static bool fast_any_too_wide(const uint16_t *rows, size_t glyphs)
{
    for (size_t i = 0; i < glyphs; i++)
        if (fast_too_wide(fast_take(rows + 18 * i)))
            return true;
    return false;
}

/* Where the search for a glyph begins. Each word has a factor of its own, so that rows that repeat do not cancel out. */
static size_t fast_slot(fast_glyph glyph)
{
    uint64_t even = glyph.words[0] + 8 * glyph.words[2];
    uint64_t odd = glyph.words[1] + 8 * glyph.words[3] + 2 * glyph.words[4];
    return (size_t)((even + 5 * odd) * 0x9E3779B97F4A7C15u >> 56);
}

/*
 * A table of 256 slots finds the pattern: for each, the row where the pattern's first glyph starts, and its cell. An empty
 * slot has row 0 and cell 0, those of the first glyph, so it answers for that one, which is never stored, and for no other.
 * So most glyphs are looked up by one compare, and only where it fails is an empty slot told from a full one. A row's range
 * is tested where a pattern is new, as every other glyph agrees with one that was tested.
 *
 * Tried as well: patterns kept aside, chains of patterns, and a pass over all rows for their range, which take up to a
 * tenth more here and a tenth less there; a look at the glyph before, a tenth less if all are equal and a quarter more if
 * not; all slots found first, a quarter more; memcmp of 36 bytes, twice as long; the hashes of all patterns compared in
 * vectors, four times; every pattern compared in turn, by words up to 14 times, by memcmp 45 times.
 */
static dirgeflint_answer fast_pack(const uint16_t *glyphs, size_t glyphs_length, uint16_t *font, size_t font_length,
                                   uint8_t *cells, size_t cells_length)
{
    uint16_t starts[256] = { 0 }, firsts[62];
    uint8_t cell[256] = { 0 }, found[256];
    const uint16_t *rows = glyphs;
    size_t count = glyphs_length / 18, used = 0;
    if (glyphs_length % 18 != 0 || count > 256 || (count > 0 && fast_too_wide(fast_take(rows))))
        return fast_answer(16, 0, 0);
    if (count > 0) {
        firsts[used++] = 0;
        found[0] = 0;
    }
    for (size_t i = 1; i < count; i++) {
        rows += 18;
        fast_glyph glyph = fast_take(rows);
        size_t slot = fast_slot(glyph);
        while (!fast_agree(glyph, glyphs + starts[slot])) {
            if (starts[slot] == 0) {
                if (fast_too_wide(glyph))
                    return fast_answer(16, 0, 0);
                if (used == 62)
                    return fast_answer(fast_any_too_wide(rows, count - i) ? 16 : 17, 0, 0);
                starts[slot] = firsts[used] = (uint16_t)(18 * i);
                cell[slot] = (uint8_t)used++;
                break;
            }
            slot = (slot + 37) & 255;
        }
        found[i] = cell[slot];
    }
    if (font_length < 1116 || cells_length < count)
        return fast_answer(6, 0, 0);
    memcpy(cells, found, count);
    for (size_t i = 0; i < used; i++)
        memcpy(font + 18 * i, glyphs + firsts[i], 36);
    memset(font + 18 * used, 0, 36 * (62 - used));
    return fast_answer(0, 0, (uint32_t)used);
}
