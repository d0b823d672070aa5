/*
 * stack: how much stack each call of the library takes at most, in bytes, over inputs chosen to go deep.
 *
 * The memory below the caller's frame is marked, the call is made from that frame, and the lowest mark that is gone
 * tells how deep it went.
 */
#include "dirgeflint.h"
#include <stdio.h>
#include <stdlib.h>
#include <string.h>

enum { DEPTH = 1 << 18 };

/* Two marks, because a call may happen to leave a byte that equals one of them. */
static const unsigned char marks[2] = { 0xA5, 0x5A };

/* gcc warns of an array that is never read, as in mark, and of one that is never written, as in depth. */
#if defined __GNUC__ && !defined __clang__
#pragma GCC diagnostic push
#pragma GCC diagnostic ignored "-Wunused-but-set-variable"
#pragma GCC diagnostic ignored "-Wuninitialized"
#pragma GCC diagnostic ignored "-Wmaybe-uninitialized"
#endif
__attribute__((noinline)) static void mark(unsigned char byte)
{
    volatile unsigned char room[DEPTH];
    for (size_t i = 0; i < DEPTH; i++)
        room[i] = byte;
}

/*
 * Reads an array that it never writes, on purpose: called from the same frame as mark and as large, it has its array
 * where mark had its own, so what it finds there is what mark and then the call left. C promises nothing of the kind;
 * volatile makes the compiler do the writing and the reading as they stand, and if the two arrays ever lay elsewhere no
 * mark would be found, which measure takes for a failure.
 */
__attribute__((noinline)) static size_t depth(unsigned char byte)
{
    volatile unsigned char room[DEPTH];
    size_t i = 0;
    while (i < DEPTH && room[i] == byte)
        i++;
    return DEPTH - i;
}
#if defined __GNUC__ && !defined __clang__
#pragma GCC diagnostic pop
#endif

/* Both see the same memory only if nothing comes between them, so a call goes through a pointer, with no arguments. */
static size_t deepest;

__attribute__((noinline)) static void measure(void (*call)(void))
{
    for (size_t i = 0; i < 2; i++) {
        mark(marks[i]);
        call();
        size_t deep = depth(marks[i]);
        if (deep == DEPTH) {
            fputs("stack: a call went deeper than the marks, or the marks are not where they should be\n", stderr);
            exit(1);
        }
        if (deep > deepest)
            deepest = deep;
    }
}

static size_t nothing;

static void report(const char *name)
{
    printf("%-34s %6lu\n", name, (unsigned long)(deepest - nothing));
    deepest = 0;
}

static void none(void)
{
}

static volatile uint32_t channel, t;
static void pulse_level(void)
{
    dirgeflint_pulse_level(channel, 0xff, t);
}

static dirgeflint_dac dac;
static uint8_t levels[16384];
static uint32_t clocks;
static void dac_reset(void)
{
    dirgeflint_dac_reset(&dac);
}
static void dac_write_low(void)
{
    dirgeflint_dac_write_low(&dac, 0xff);
}
static void dac_write_high(void)
{
    dirgeflint_dac_write_high(&dac, 0xff);
}
static void dac_play(void)
{
    dirgeflint_dac_play(&dac, clocks, levels, sizeof levels);
}

static dirgeflint_port port;
static void port_reset(void)
{
    dirgeflint_port_reset(&port);
}
static void port_write_address(void)
{
    dirgeflint_port_write_address(&port, 0xff);
}
static void port_write_attribute(void)
{
    dirgeflint_port_write_attribute(&port, 0xff);
}
static void port_write_character(void)
{
    dirgeflint_port_write_character(&port, 0xff);
}

static uint16_t font[1116];

static uint16_t words[64];
static uint8_t dots[1024];
static dirgeflint_settings settings = { 1, 3, 1, 0, 0, 0, 0 };
static uint32_t line;
static void paint(void)
{
    dirgeflint_paint(words, 64, font, 1116, settings, 12, line, 1024, dots, sizeof dots);
}

/* Screens of one kind of word, and mixtures: words a, b, a, b, .. */
static void screens(void)
{
    static const uint16_t kinds[] = { 14, 15, 1008, 992, 995, 996, 1004, 1007, 1009 };
    enum { KINDS = sizeof kinds / sizeof kinds[0] };
    for (size_t a = 0; a < KINDS; a++)
        for (size_t b = 0; b < KINDS; b++) {
            for (size_t i = 0; i < 64; i++)
                words[i] = kinds[i % 2 == 0 ? a : b];
            for (line = 0; line < 1024; line += 17)
                measure(paint);
        }
}

static uint8_t text[65536], image[8192];
static size_t text_length;
static void hex_read(void)
{
    dirgeflint_hex_read(text, text_length, image, sizeof image);
}
static void hex_write(void)
{
    dirgeflint_hex_write(font, 1116, text, sizeof text);
}
static void image_to_font(void)
{
    dirgeflint_image_to_font(image, sizeof image, font, 1116);
}

/* Refused in the last line of a font's text, and in one line as long as a text can be: its shape, and its last character. */
static void bad_texts(void)
{
    text[22539] = ':';
    measure(hex_read);
    text_length = 22538;
    measure(hex_read);
    text_length = 65535;
    memset(text, '0', text_length);
    text[0] = ':';
    measure(hex_read);
    text[65534] = '\r';
    measure(hex_read);
}

/* A font that is refused for its last row. */
static void bad_row(void (*call)(void))
{
    font[1115] = 4096;
    measure(call);
    font[1115] = 0;
}

static uint16_t glyphs[257 * 18];
static size_t glyphs_length;
static uint8_t cells[256];
static void pack(void)
{
    dirgeflint_pack(glyphs, glyphs_length, font, 1116, cells, sizeof cells);
}

/* 0 to 256 glyphs of so many patterns, and 256 with a row above 4095 at their end. */
static void packs(uint16_t patterns)
{
    for (glyphs_length = 0; glyphs_length < sizeof glyphs / sizeof glyphs[0]; glyphs_length += 18) {
        glyphs[glyphs_length + 17] = (uint16_t)(glyphs_length / 18 % patterns);
        measure(pack);
    }
    glyphs_length = 256 * 18;
    glyphs[glyphs_length - 1] = 4096;
    measure(pack);
}

int main(void)
{
    measure(none);
    nothing = deepest;
    deepest = 0;
    for (channel = 0; channel < 9; channel++)
        for (t = 0; t < 130; t++)
            measure(pulse_level);
    report("dirgeflint_pulse_level");
    measure(dac_write_low);
    report("dirgeflint_dac_write_low");
    measure(dac_write_high);
    report("dirgeflint_dac_write_high");
    for (uint32_t position = 0; position < 16384; position += 619)
        for (clocks = 1; clocks <= 16384; clocks *= 7) {
            dac.position = (uint16_t)position;
            measure(dac_play);
        }
    for (clocks = 16384; clocks > 16380; clocks--)
        measure(dac_play);
    report("dirgeflint_dac_play");
    measure(dac_reset);
    report("dirgeflint_dac_reset");
    measure(port_reset);
    report("dirgeflint_port_reset");
    measure(port_write_address);
    report("dirgeflint_port_write_address");
    measure(port_write_attribute);
    report("dirgeflint_port_write_attribute");
    measure(port_write_character);
    report("dirgeflint_port_write_character");
    screens();
    line = 1023;
    bad_row(paint);
    report("dirgeflint_paint");
    bad_row(hex_write);
    measure(hex_write);
    report("dirgeflint_hex_write");
    text_length = 22540;
    measure(hex_read);
    bad_texts();
    report("dirgeflint_hex_read");
    measure(image_to_font);
    report("dirgeflint_image_to_font");
    packs(1);
    packs(62);
    packs(256);
    report("dirgeflint_pack");
    return 0;
}
