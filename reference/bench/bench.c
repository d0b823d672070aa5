/*
 * bench [--growth] [PART ..]: measures the library against the baselines of fast.c, and where a call lays bytes also
 * against a memset of as many. Compiled with SINCE it measures it against an earlier library instead, whose calls are
 * linked under names with since_ before them.
 *
 * The sides run in turn in one process, so that whatever else the machine does falls on all alike, and are called
 * through pointers, so that none is inlined. The times are processor time, so that a machine that has other work as well
 * disturbs less. A row has the part, the shape, and the nanoseconds of library, baseline (or earlier library) and memset
 * (- for a side that lacks a call of the shape), each the median of the rounds, with tabs between. With --growth a row has
 * what grows, its size, and the library's nanoseconds for one call. `reference/measure` starts this several times.
 */
#define _POSIX_C_SOURCE 199309L
#include "dirgeflint.h"
#ifndef SINCE
#include "fast.c"
#endif
#include <stdio.h>
#include <stdlib.h>
#include <string.h>
#include <time.h>

enum { ROUNDS = 11, PERIOD = 16384, SIDE = 1024, TEXT = 22540 };

/* How long one side of one round should take at least, in nanoseconds. */
static const double ROUND = 2e6;

/* The calls that are measured, by their names without dirgeflint_. */
#define CALLS(each) \
    each(pulse_level) \
    each(dac_reset) each(dac_write_low) each(dac_write_high) each(dac_play) \
    each(port_reset) each(port_write_address) each(port_write_attribute) each(port_write_character) \
    each(paint) \
    each(hex_read) each(hex_write) each(image_to_font) \
    each(pack)

#define MEMBER(name) __typeof__(dirgeflint_##name) *name;
typedef struct face {
    CALLS(MEMBER)
} face;

#define AT_HAND(name) dirgeflint_##name,

#ifdef SINCE

/* Null where the earlier library has no such call. */
#define DECLARED(name) extern __typeof__(dirgeflint_##name) since_dirgeflint_##name __attribute__((weak));
CALLS(DECLARED)

#define EARLIER(name) since_dirgeflint_##name,
enum { LIBRARY, OTHER, SIDES };
static face sides[SIDES] = { { CALLS(AT_HAND) }, { CALLS(EARLIER) } };

#else

/* Calls that lay as many bytes as those of the library, and do nothing else; a text and an image stay, as they are read. */
static const dirgeflint_answer accepted = { 0, 0, 0 };
static uint8_t laid[TEXT];
static uint8_t *volatile room = laid;

static dirgeflint_answer laid_play(dirgeflint_dac *record, uint32_t clocks, uint8_t *levels, size_t length)
{
    (void)record, (void)length;
    memset(levels, 1, clocks);
    return accepted;
}

static dirgeflint_answer laid_paint(const uint16_t *words, size_t words_length, const uint16_t *font,
                                    size_t font_length, dirgeflint_settings settings, uint32_t at, uint32_t line,
                                    uint32_t width, uint8_t *dots, size_t length)
{
    (void)words, (void)words_length, (void)font, (void)font_length, (void)settings, (void)at, (void)line, (void)length;
    memset(dots, 8, width);
    return accepted;
}

static dirgeflint_answer laid_read(const uint8_t *from, size_t from_length, uint8_t *to, size_t to_length)
{
    (void)from, (void)from_length, (void)to;
    memset(room, 0xFF, to_length);
    return accepted;
}

static dirgeflint_answer laid_write(const uint16_t *font, size_t font_length, uint8_t *to, size_t to_length)
{
    (void)font, (void)font_length, (void)to;
    memset(room, '0', to_length);
    return accepted;
}

static dirgeflint_answer laid_font(const uint8_t *from, size_t from_length, uint16_t *to, size_t to_length)
{
    (void)from, (void)from_length;
    memset(to, 0, to_length * sizeof *to);
    return accepted;
}

static dirgeflint_answer laid_pack(const uint16_t *glyphs, size_t glyphs_length, uint16_t *font, size_t font_length,
                                   uint8_t *cells, size_t cells_length)
{
    (void)glyphs, (void)font, (void)font_length, (void)cells, (void)cells_length;
    memset(room, 0, 1116 * sizeof *font + glyphs_length / 18);
    return accepted;
}

#define BASELINE(name) fast_##name,
enum { LIBRARY, OTHER, LAID, SIDES };
static face sides[SIDES] = {
    { CALLS(AT_HAND) },
    { CALLS(BASELINE) },
    { .dac_play = laid_play, .paint = laid_paint,
      .hex_read = laid_read, .hex_write = laid_write, .image_to_font = laid_font, .pack = laid_pack },
};

#endif

/* Volatile, so that the compiler cannot see through the calls. */
static face *volatile side = sides;

/* What a shape leaves behind, so that no work can be left out. */
static volatile uint32_t seen;

typedef struct shape {
    const char *part;
    const char *name;
    void (*work)(const face *, int);
    int size;
    const char *calls; /* those that it makes; a side that lacks one of them does not run it */
} shape;

static void pulse(const face *f, int size)
{
    uint32_t high = 0;
    (void)size;
    for (uint32_t channel = 0; channel < 8; channel++)
        for (uint32_t t = 0; t < (channel < 4 ? 128u : 64u); t++)
            high += f->pulse_level(channel, 77, t).value;
    seen = high;
}

/* A period in calls of `size` clocks. */
static void dac(const face *f, int size)
{
    static uint8_t levels[PERIOD];
    static dirgeflint_dac record = { 0, { 37, 91 }, { 37, 91 }, { 37, 91 }, 0 };
    for (int left = PERIOD; left > 0; left -= size) {
        int now = left < size ? left : size;
        f->dac_play(&record, (uint32_t)now, levels, (size_t)now);
    }
    seen = levels[0];
}

/* A reset and `size` pairs. */
static void dac_writes(const face *f, int size)
{
    dirgeflint_dac record;
    f->dac_reset(&record);
    for (int i = 0; i < size; i++) {
        f->dac_write_low(&record, (uint8_t)i);
        f->dac_write_high(&record, (uint8_t)(i >> 3));
    }
    seen = record.completed.fine;
}

static void port(const face *f, int size)
{
    static dirgeflint_port all;
    (void)size;
    f->port_reset(&all);
    f->port_write_address(&all, 64);
    for (uint8_t i = 0; i < 64; i++) {
        f->port_write_attribute(&all, i);
        f->port_write_character(&all, i);
    }
    seen = all.words[63];
}

static const uint16_t *some_font(void)
{
    static uint16_t font[1116];
    if (font[1] == 0) /* it is made once, and not while a call is timed */
        for (uint32_t i = 0; i < 1116; i++)
            font[i] = (uint16_t)(i * 2654 % 4096);
    return font;
}

/* A painter's shape has a mode and a size in one number. */
#define IN_MODE(mode, size) (8 * (mode) + (size))

static uint32_t mode_of(int shape)
{
    return (uint32_t)shape / 8;
}

static int size_of(int shape)
{
    return shape % 8;
}

/* A frame of 1,024 lines of as many dots. */
static void frame(const face *f, uint32_t mode, const uint16_t *words)
{
    static uint8_t dots[SIDE];
    dirgeflint_settings settings = { true, mode, 1, 2, 2, 1, 0 };
    const uint16_t *font = some_font();
    for (uint32_t line = 0; line < SIDE; line++)
        f->paint(words, 64, font, 1116, settings, 5, line, SIDE, dots, SIDE);
    seen = dots[9];
}

/* A few words in each of three rows of the size. */
static void sparse(const face *f, int shape)
{
    uint16_t words[64] = { 0 };
    int size = size_of(shape), n = 0;
    words[n++] = (uint16_t)(988 + 4 * size);
    for (int row = 0; row < 3; row++) {
        words[n++] = (uint16_t)(1008 + 2 * row);
        for (int column = 0; column < 4; column++)
            words[n++] = (uint16_t)(16 * (10 * row + column) + 14);
        words[n++] = (uint16_t)(990 + 4 * size);
    }
    words[n] = 1009;
    frame(f, mode_of(shape), words);
}

/* Every word used, in rows as long as fit at the size. */
static void full(const face *f, int shape)
{
    uint16_t words[64];
    int size = size_of(shape), row = SIDE / (12 * size) + 1;
    for (int i = 0; i < 64; i++)
        words[i] = (uint16_t)(i % row == 0 ? 988 + 4 * size : 16 * (i % 62) + 10);
    frame(f, mode_of(shape), words);
}

/* As many lines, all through one row that fills the line at the size. */
static void cut(const face *f, int shape)
{
    static uint8_t dots[SIDE];
    dirgeflint_settings settings = { true, mode_of(shape), 1, 0, 0, 1, 0 };
    uint32_t size = (uint32_t)size_of(shape);
    uint16_t words[64];
    const uint16_t *font = some_font();
    words[0] = dirgeflint_return(size, 0);
    for (int i = 1; i < 64; i++)
        words[i] = dirgeflint_character((uint32_t)i % 62, 5, false);
    for (uint32_t line = 0; line < SIDE; line++)
        f->paint(words, 64, font, 1116, settings, 5, 18 + line % (18 * size), SIDE, dots, SIDE);
    seen = dots[9];
}

static uint8_t text[TEXT];
static uint8_t image[8192];

static void hex_write(const face *f, int size)
{
    (void)size;
    f->hex_write(some_font(), 1116, text, sizeof text);
    seen = text[50];
}

static void hex_read(const face *f, int size)
{
    (void)size;
    seen = f->hex_read(text, sizeof text, image, sizeof image).value;
}

static void image_to_font(const face *f, int size)
{
    static uint16_t font[1116];
    (void)size;
    f->image_to_font(image, sizeof image, font, 1116);
    seen = font[7];
}

static uint32_t by_chance(uint32_t below)
{
    static uint32_t state = 1;
    state = state * 1664525 + 1013904223;
    return (state >> 16) % below;
}

/*
 * So many glyphs: each pattern once, then any of them. Patterns that are alike differ in their last row only. They are made
 * if others were asked for before, and so not while a call is timed.
 */
static const uint16_t *drawn(int glyphs, int patterns, bool alike)
{
    enum { ROWS = DIRGEFLINT_CELL_ROWS };
    static uint16_t rows[DIRGEFLINT_MOST_GLYPHS * ROWS];
    static int made_glyphs, made_patterns;
    static bool made_alike;
    if (made_glyphs == glyphs && made_patterns == patterns && made_alike == alike)
        return rows;
    for (int i = 0; i < glyphs; i++) {
        uint16_t *glyph = rows + i * ROWS;
        if (i >= patterns)
            memcpy(glyph, rows + by_chance((uint32_t)patterns) * ROWS, ROWS * sizeof *rows);
        else if (alike && i > 0) {
            memcpy(glyph, rows, ROWS * sizeof *rows);
            glyph[ROWS - 1] ^= (uint16_t)i;
        } else
            for (int row = 0; row < ROWS; row++)
                glyph[row] = (uint16_t)by_chance(DIRGEFLINT_MOST_ROW + 1);
    }
    made_glyphs = glyphs;
    made_patterns = patterns;
    made_alike = alike;
    return rows;
}

static void packed(const face *f, int glyphs, int patterns, bool alike)
{
    static uint16_t font[1116];
    static uint8_t cells[DIRGEFLINT_MOST_GLYPHS];
    const uint16_t *rows = drawn(glyphs, patterns, alike);
    seen = f->pack(rows, (size_t)glyphs * DIRGEFLINT_CELL_ROWS, font, 1116, cells, DIRGEFLINT_MOST_GLYPHS).value;
}

/* As many glyphs as fit a call, of `size` patterns. */
static void pack(const face *f, int size)
{
    packed(f, DIRGEFLINT_MOST_GLYPHS, size, false);
}

static void pack_last_row(const face *f, int size)
{
    packed(f, DIRGEFLINT_MOST_GLYPHS, size, true);
}

/* `size` glyphs, all different as far as there are cells for them. */
static void pack_glyphs(const face *f, int size)
{
    packed(f, size, size < DIRGEFLINT_CELLS ? size : DIRGEFLINT_CELLS, false);
}

/* The painter's shapes in every size and mode, those that differ in the mode alone side by side. */
#define IN_ALL_MODES(name, work, size) \
    { "paint", name ", size " #size ", mode 0", work, IN_MODE(0, size), "paint" }, \
    { "paint", name ", size " #size ", mode 1", work, IN_MODE(1, size), "paint" }, \
    { "paint", name ", size " #size ", mode 2", work, IN_MODE(2, size), "paint" }, \
    { "paint", name ", size " #size ", mode 3", work, IN_MODE(3, size), "paint" },
#define PAINTED(name, work) \
    IN_ALL_MODES(name, work, 1) IN_ALL_MODES(name, work, 2) IN_ALL_MODES(name, work, 3) IN_ALL_MODES(name, work, 4)

static const shape shapes[] = {
    { "pulse", "768 calls: each channel's period", pulse, 0, "pulse_level" },
    { "dac", "a period in one call", dac, PERIOD, "dac_play" },
    { "dac", "a period in calls of 512 clocks", dac, 512, "dac_play" },
    { "dac", "a period in calls of 256 clocks", dac, 256, "dac_play" },
    { "dac", "a period in calls of 128 clocks", dac, 128, "dac_play" },
    { "dac", "a period in calls of 100 clocks", dac, 100, "dac_play" },
    { "dac", "a period in calls of 15 clocks", dac, 15, "dac_play" },
    { "dac", "a period in calls of 7 clocks", dac, 7, "dac_play" },
    { "dac", "a period in calls of 1 clock", dac, 1, "dac_play" },
    { "dac", "a reset and 500 pairs written", dac_writes, 500, "dac_reset dac_write_low dac_write_high" },
    { "port", "130 calls: the whole RAM written", port, 0,
      "port_reset port_write_address port_write_attribute port_write_character" },
    PAINTED("a sparse frame", sparse)
    PAINTED("a full frame", full)
    PAINTED("lines through cells", cut)
    { "hex", "a font's text written", hex_write, 0, "hex_write" },
    { "hex", "a font's text read", hex_read, 0, "hex_read" },
    { "hex", "image to font", image_to_font, 0, "image_to_font" },
    { "pack", "256 glyphs of 62 patterns", pack, DIRGEFLINT_CELLS, "pack" },
    { "pack", "256 glyphs of 62 last rows, else equal", pack_last_row, DIRGEFLINT_CELLS, "pack" },
    { "pack", "256 equal glyphs", pack, 1, "pack" },
    { "pack", "62 different glyphs", pack_glyphs, DIRGEFLINT_CELLS, "pack" },
    { "pack", "one glyph", pack_glyphs, 1, "pack" },
    { NULL, NULL, NULL, 0, NULL },
};

/* One play of `size` clocks, from wherever the last one ended. */
static void one_play(const face *f, int size)
{
    static uint8_t levels[PERIOD];
    static dirgeflint_dac record = { 0, { 37, 91 }, { 37, 91 }, { 37, 91 }, 0 };
    f->dac_play(&record, (uint32_t)size, levels, sizeof levels);
    seen = levels[0];
}

/* One line through a row of `cells` cells of size 1, then an end. */
static void one_line(const face *f, uint32_t width, int cells)
{
    static uint8_t dots[SIDE];
    dirgeflint_settings settings = { true, 3, 1, 0, 0, 1, 0 };
    uint16_t words[64];
    const uint16_t *font = some_font();
    for (int i = 0; i < 64; i++)
        words[i] = i < cells ? dirgeflint_character((uint32_t)i % 62, 5, false) : dirgeflint_end();
    f->paint(words, 64, font, 1116, settings, 5, 9, width, dots, SIDE);
    seen = dots[9];
}

static void one_width(const face *f, int size)
{
    one_line(f, (uint32_t)size, 64);
}

static void one_row(const face *f, int size)
{
    one_line(f, SIDE, size);
}

/* Reads `size` data records of a font's text, and the end record. */
static void one_read(const face *f, int size)
{
    static uint8_t some[TEXT];
    static int made;
    size_t length = 44 * (size_t)size;
    if (made != size + 1) {
        memcpy(some, text, length);
        memcpy(some + length, text + TEXT - 12, 12);
        made = size + 1;
    }
    seen = f->hex_read(some, length + 12, image, sizeof image).value;
}

static const shape growth[] = {
    { "dac", "play, by clocks", one_play, 1, "dac_play" },
    { "dac", "play, by clocks", one_play, 7, "dac_play" },
    { "dac", "play, by clocks", one_play, 128, "dac_play" },
    { "dac", "play, by clocks", one_play, 1024, "dac_play" },
    { "dac", "play, by clocks", one_play, 16384, "dac_play" },
    { "paint", "paint 64 cells, by dots", one_width, 0, "paint" },
    { "paint", "paint 64 cells, by dots", one_width, 64, "paint" },
    { "paint", "paint 64 cells, by dots", one_width, 256, "paint" },
    { "paint", "paint 64 cells, by dots", one_width, 1024, "paint" },
    { "paint", "paint 1,024 dots, by cells", one_row, 0, "paint" },
    { "paint", "paint 1,024 dots, by cells", one_row, 16, "paint" },
    { "paint", "paint 1,024 dots, by cells", one_row, 64, "paint" },
    { "hex", "read, by data records", one_read, 0, "hex_read" },
    { "hex", "read, by data records", one_read, 32, "hex_read" },
    { "hex", "read, by data records", one_read, 128, "hex_read" },
    { "hex", "read, by data records", one_read, 512, "hex_read" },
    { "pack", "pack 62 patterns, by glyphs", pack_glyphs, 62, "pack" },
    { "pack", "pack 62 patterns, by glyphs", pack_glyphs, 128, "pack" },
    { "pack", "pack 62 patterns, by glyphs", pack_glyphs, 192, "pack" },
    { "pack", "pack 62 patterns, by glyphs", pack_glyphs, 256, "pack" },
    { "pack", "pack 256 glyphs, by patterns", pack, 1, "pack" },
    { "pack", "pack 256 glyphs, by patterns", pack, 16, "pack" },
    { "pack", "pack 256 glyphs, by patterns", pack, 32, "pack" },
    { "pack", "pack 256 glyphs, by patterns", pack, 62, "pack" },
    { NULL, NULL, NULL, 0, NULL },
};

/* The side that is checked before it is timed, and the number of its latest refusal. */
static const face *checked;
static uint32_t refused;

static dirgeflint_answer noted(dirgeflint_answer answer)
{
    if (answer.number != 0)
        refused = answer.number;
    return answer;
}

static dirgeflint_answer checked_pulse_level(uint32_t channel, uint8_t byte, uint32_t t)
{
    return noted(checked->pulse_level(channel, byte, t));
}

static dirgeflint_answer checked_dac_play(dirgeflint_dac *record, uint32_t clocks, uint8_t *levels, size_t length)
{
    return noted(checked->dac_play(record, clocks, levels, length));
}

static dirgeflint_answer checked_paint(const uint16_t *words, size_t words_length, const uint16_t *font,
                                       size_t font_length, dirgeflint_settings settings, uint32_t at, uint32_t line,
                                       uint32_t width, uint8_t *dots, size_t length)
{
    return noted(checked->paint(words, words_length, font, font_length, settings, at, line, width, dots, length));
}

static dirgeflint_answer checked_hex_read(const uint8_t *from, size_t from_length, uint8_t *to, size_t to_length)
{
    return noted(checked->hex_read(from, from_length, to, to_length));
}

static dirgeflint_answer checked_hex_write(const uint16_t *font, size_t font_length, uint8_t *to, size_t to_length)
{
    return noted(checked->hex_write(font, font_length, to, to_length));
}

static dirgeflint_answer checked_image_to_font(const uint8_t *from, size_t from_length, uint16_t *to, size_t to_length)
{
    return noted(checked->image_to_font(from, from_length, to, to_length));
}

static dirgeflint_answer checked_pack(const uint16_t *glyphs, size_t glyphs_length, uint16_t *font, size_t font_length,
                                      uint8_t *cells, size_t cells_length)
{
    return noted(checked->pack(glyphs, glyphs_length, font, font_length, cells, cells_length));
}

/* Runs the shape once, not timed, through calls that note a refusal; a refused call would be timed for no work. */
static void check(const shape *s, const face *f)
{
    face through = *f;
    through.pulse_level = checked_pulse_level;
    through.dac_play = checked_dac_play;
    through.paint = checked_paint;
    through.hex_read = checked_hex_read;
    through.hex_write = checked_hex_write;
    through.image_to_font = checked_image_to_font;
    through.pack = checked_pack;
    checked = f;
    refused = 0;
    s->work(&through, s->size);
    if (refused != 0) {
        fprintf(stderr, "bench: %s, %s: the %s refuses with %u\n", s->part, s->name,
                f == &side[LIBRARY] ? "library" : "other side", (unsigned)refused);
        exit(1);
    }
}

/* Nanoseconds for one run of the shape. */
static double timed(const shape *s, const face *f, long repeats)
{
    struct timespec from, to;
    clock_gettime(CLOCK_PROCESS_CPUTIME_ID, &from);
    for (long i = 0; i < repeats; i++)
        s->work(f, s->size);
    clock_gettime(CLOCK_PROCESS_CPUTIME_ID, &to);
    return ((double)(to.tv_sec - from.tv_sec) * 1e9 + (double)(to.tv_nsec - from.tv_nsec)) / (double)repeats;
}

static long repeats_for(const shape *s, const face *f)
{
    long repeats = 1;
    while (timed(s, f, repeats) * (double)repeats < ROUND && repeats < 1L << 24)
        repeats *= 2;
    return repeats;
}

static int by_size(const void *a, const void *b)
{
    double x = *(const double *)a, y = *(const double *)b;
    return (x > y) - (x < y);
}

static bool has(const face *f, const char *calls)
{
#define LACKING(name) || (f->name == NULL && strstr(calls, #name) != NULL)
    return !(false CALLS(LACKING));
}

/* The median times of the first sides of the shape, over rounds in which they take turns; -1 for one that lacks a call. */
static void race(const shape *s, int count, double medians[SIDES])
{
    double times[SIDES][ROUNDS];
    long repeats[SIDES];
    for (int i = 0; i < SIDES; i++) {
        medians[i] = -1;
        repeats[i] = 0;
        if (i < count && has(&side[i], s->calls)) {
            check(s, &side[i]);
            repeats[i] = repeats_for(s, &side[i]);
        }
    }
    for (int round = 0; round < ROUNDS; round++)
        for (int i = 0; i < SIDES; i++)
            if (repeats[i] > 0)
                times[i][round] = timed(s, &side[i], repeats[i]);
    for (int i = 0; i < SIDES; i++)
        if (repeats[i] > 0) {
            qsort(times[i], ROUNDS, sizeof times[i][0], by_size);
            medians[i] = times[i][ROUNDS / 2];
        }
}

static bool wanted(const char *part, int count, char **parts)
{
    bool named = count == 0;
    for (int i = 0; i < count; i++)
        named = named || strcmp(part, parts[i]) == 0;
    return named;
}

int main(int count, char **words)
{
    bool grow = count > 1 && strcmp(words[1], "--growth") == 0;
    char **parts = words + (grow ? 2 : 1);
    count -= grow ? 2 : 1;
    for (int i = 0; i < count; i++) {
        const shape *s = shapes;
        while (s->part != NULL && strcmp(s->part, parts[i]) != 0)
            s++;
        if (s->part == NULL) {
            fprintf(stderr, "bench: \"%s\" is no part of the library\n", parts[i]);
            return 2;
        }
    }
    /* So that reading has a text and an image even if the shapes before it are not run. */
    hex_write(&side[LIBRARY], 0);
    hex_read(&side[LIBRARY], 0);
    for (const shape *s = grow ? growth : shapes; s->part != NULL; s++) {
        double medians[SIDES];
        if (!wanted(s->part, count, parts))
            continue;
        race(s, grow ? OTHER : SIDES, medians);
        if (grow)
            printf("%s\t%d", s->name, s->size);
        else
            printf("%s\t%s", s->part, s->name);
        for (int i = 0; i < (grow ? OTHER : SIDES); i++)
            if (medians[i] < 0)
                printf("\t-");
            else
                printf("\t%.1f", medians[i]);
        puts("");
    }
    return 0;
}
