/*
 * The bridge: serves the library's C face over standard input and output, so that the independent program can call the
 * archive that hosts link from any processor, through the kit's emulator where that is needed.
 *
 * A request is a byte that names the call, then its arguments in the order of the header: a number in as many bytes as
 * it has, low byte first; a record field by field; a slice as a 32-bit count of elements and the elements. The reply is
 * a byte of health, then the answer if the call has one, the record if one was lent, and the elements of
 * each slice lent for writing. Health 0: nothing outside the memory lent was written, and what was lent for reading is
 * as it was. Replies are held back until the request '.', which has no reply of its own, so that many calls can be
 * under way.
 */
#include "dirgeflint.h"
#include <stdio.h>
#include <stdlib.h>
#include <string.h>

/* With what status the bridge ends, if not with 0 at the end of its input. */
enum {
    CUT_SHORT = 2,   /* the input ended inside a request */
    UNHEARD = 3,     /* a reply could not be written */
    NO_MEMORY = 4,   /* there is no memory to lend */
    TOO_LONG = 5,    /* a slice is longer than LIMIT bytes */
    UNKNOWN_CALL = 6 /* no call has this letter */
};

static void take(void *to, size_t count)
{
    if (count != 0 && fread(to, 1, count, stdin) != count)
        exit(CUT_SHORT);
}

static void give(const void *from, size_t count)
{
    if (count != 0 && fwrite(from, 1, count, stdout) != count)
        exit(UNHEARD);
}

static void give_health(bool well)
{
    uint8_t byte = well ? 0 : 1;
    give(&byte, 1);
}

static uint32_t take_number(void)
{
    uint32_t value;
    take(&value, sizeof value);
    return value;
}

static void give_answer(dirgeflint_answer answer)
{
    give(&answer.number, sizeof answer.number);
    give(&answer.place, sizeof answer.place);
    give(&answer.value, sizeof answer.value);
}

static uint8_t take_byte(void)
{
    uint8_t value;
    take(&value, sizeof value);
    return value;
}

enum { MARGIN = 16, LIMIT = 1 << 18, MARK = 0xC3 };

/* Memory to lend, between two margins that are not lent. */
typedef struct area {
    uint8_t *whole;
    size_t size;
    uint8_t *before; /* what was there before the call */
} area;

static void *start(const area *a)
{
    return a->whole + MARGIN;
}

static void make(area *a, size_t size)
{
    if (a->whole == NULL) {
        a->whole = malloc(MARGIN + LIMIT + MARGIN);
        a->before = malloc(LIMIT);
        if (a->whole == NULL || a->before == NULL)
            exit(NO_MEMORY);
    }
    if (size > LIMIT)
        exit(TOO_LONG);
    a->size = size;
    memset(a->whole, MARK, MARGIN);
    memset(a->whole + MARGIN + size, MARK, MARGIN);
}

static bool margins_stand(const area *a)
{
    for (size_t i = 0; i < MARGIN; i++)
        if (a->whole[i] != MARK || a->whole[MARGIN + a->size + i] != MARK)
            return false;
    return true;
}

/* A slice lent for writing: returns its number of elements. */
static size_t take_room(area *a, size_t element)
{
    size_t count = take_number();
    make(a, count * element);
    take(start(a), a->size);
    return count;
}

/* A slice lent for reading: returns its number of elements. */
static size_t take_slice(area *a, size_t element)
{
    size_t count = take_room(a, element);
    memcpy(a->before, start(a), a->size);
    return count;
}

static bool stands(const area *a)
{
    return margins_stand(a) && memcmp(a->before, start(a), a->size) == 0;
}

static void pulse_level(void)
{
    uint32_t channel = take_number();
    uint8_t written = take_byte();
    uint32_t t = take_number();
    dirgeflint_answer answer = dirgeflint_pulse_level(channel, written, t);
    give_health(true);
    give_answer(answer);
}

static area record, levels;

static dirgeflint_dac *take_dac(void)
{
    dirgeflint_dac *dac;
    make(&record, sizeof *dac);
    dac = start(&record);
    take(&dac->position, sizeof dac->position);
    dac->held.coarse = take_byte();
    dac->held.fine = take_byte();
    dac->completed.coarse = take_byte();
    dac->completed.fine = take_byte();
    dac->in_force.coarse = take_byte();
    dac->in_force.fine = take_byte();
    take(&dac->high, sizeof dac->high);
    return dac;
}

static void give_dac(const dirgeflint_dac *dac)
{
    uint8_t halves[6] = { dac->held.coarse, dac->held.fine, dac->completed.coarse, dac->completed.fine,
                          dac->in_force.coarse, dac->in_force.fine };
    give(&dac->position, sizeof dac->position);
    give(halves, sizeof halves);
    give(&dac->high, sizeof dac->high);
}

static void dac_reset(void)
{
    dirgeflint_dac *dac = take_dac();
    dirgeflint_dac_reset(dac);
    give_health(margins_stand(&record));
    give_dac(dac);
}

static void dac_write(void (*write)(dirgeflint_dac *, uint8_t))
{
    dirgeflint_dac *dac = take_dac();
    write(dac, take_byte());
    give_health(margins_stand(&record));
    give_dac(dac);
}

static void dac_play(void)
{
    dirgeflint_dac *dac = take_dac();
    uint32_t clocks = take_number();
    size_t length = take_room(&levels, 1);
    dirgeflint_answer answer = dirgeflint_dac_play(dac, clocks, start(&levels), length);
    give_health(margins_stand(&record) && margins_stand(&levels));
    give_answer(answer);
    give_dac(dac);
    give(start(&levels), levels.size);
}

static dirgeflint_port *take_port(void)
{
    dirgeflint_port *port;
    make(&record, sizeof *port);
    port = start(&record);
    port->address = take_byte();
    port->attribute = take_byte();
    port->character = take_byte();
    take(port->words, sizeof port->words);
    return port;
}

static void give_port(const dirgeflint_port *port)
{
    uint8_t registers[3] = { port->address, port->attribute, port->character };
    give(registers, sizeof registers);
    give(port->words, sizeof port->words);
}

static void port_reset(void)
{
    dirgeflint_port *port = take_port();
    dirgeflint_port_reset(port);
    give_health(margins_stand(&record));
    give_port(port);
}

static void port_write(void (*write)(dirgeflint_port *, uint8_t))
{
    dirgeflint_port *port = take_port();
    write(port, take_byte());
    give_health(margins_stand(&record));
    give_port(port);
}

static area words, rows, dots;

static void paint(void)
{
    size_t words_length = take_slice(&words, 2);
    size_t rows_length = take_slice(&rows, 2);
    dirgeflint_settings settings;
    settings.on = take_number() != 0;
    settings.mode = take_number();
    settings.colour = take_number();
    settings.h = take_number();
    settings.v = take_number();
    settings.ratio = take_number();
    settings.frequency = take_number();
    uint32_t frame = take_number();
    uint32_t line = take_number();
    uint32_t width = take_number();
    size_t dots_length = take_room(&dots, 1);
    dirgeflint_answer answer = dirgeflint_paint(start(&words), words_length, start(&rows), rows_length, settings, frame,
                                                line, width, start(&dots), dots_length);
    give_health(stands(&words) && stands(&rows) && margins_stand(&dots));
    give_answer(answer);
    give(start(&dots), dots.size);
}

static area given, wanted;

static void hex_read(void)
{
    size_t text_length = take_slice(&given, 1);
    size_t image_length = take_room(&wanted, 1);
    dirgeflint_answer answer = dirgeflint_hex_read(start(&given), text_length, start(&wanted), image_length);
    give_health(stands(&given) && margins_stand(&wanted));
    give_answer(answer);
    give(start(&wanted), wanted.size);
}

static void hex_write(void)
{
    size_t font_length = take_slice(&given, 2);
    size_t text_length = take_room(&wanted, 1);
    dirgeflint_answer answer = dirgeflint_hex_write(start(&given), font_length, start(&wanted), text_length);
    give_health(stands(&given) && margins_stand(&wanted));
    give_answer(answer);
    give(start(&wanted), wanted.size);
}

static void image_to_font(void)
{
    size_t image_length = take_slice(&given, 1);
    size_t font_length = take_room(&wanted, 2);
    dirgeflint_answer answer = dirgeflint_image_to_font(start(&given), image_length, start(&wanted), font_length);
    give_health(stands(&given) && margins_stand(&wanted));
    give_answer(answer);
    give(start(&wanted), wanted.size);
}

static area places;

static void pack(void)
{
    size_t glyphs_length = take_slice(&given, 2);
    size_t font_length = take_room(&wanted, 2);
    size_t cells_length = take_room(&places, 1);
    dirgeflint_answer answer = dirgeflint_pack(start(&given), glyphs_length, start(&wanted), font_length,
                                               start(&places), cells_length);
    give_health(stands(&given) && margins_stand(&wanted) && margins_stand(&places));
    give_answer(answer);
    give(start(&wanted), wanted.size);
    give(start(&places), places.size);
}

int main(void)
{
    setvbuf(stdin, NULL, _IOFBF, 1 << 16);
    setvbuf(stdout, NULL, _IOFBF, 1 << 16);
    for (int call; (call = getchar()) != EOF;) {
        switch (call) {
        case '.': fflush(stdout); break;
        case 'p': pulse_level(); break;
        case 'r': dac_reset(); break;
        case 'l': dac_write(dirgeflint_dac_write_low); break;
        case 'h': dac_write(dirgeflint_dac_write_high); break;
        case 'y': dac_play(); break;
        case 'z': port_reset(); break;
        case 'a': port_write(dirgeflint_port_write_address); break;
        case 't': port_write(dirgeflint_port_write_attribute); break;
        case 'c': port_write(dirgeflint_port_write_character); break;
        case 'P': paint(); break;
        case 'R': hex_read(); break;
        case 'W': hex_write(); break;
        case 'I': image_to_font(); break;
        case 'G': pack(); break;
        default: exit(UNKNOWN_CALL);
        }
    }
    return 0;
}
