/*
 * Dirgeflint: what the PCA84C646 shows on the screen and puts out as pulses.
 *
 * For C99 or C++11, or later. All that a host needs stands in this file; docs/GUIDE.md goes through a screen, a font, more glyphs than
 * cells and a tuning step from nothing. The pages that are named here are the repository's; they are installed below share/doc/dirgeflint
 * too.
 *
 * Every function takes every input and always returns. None allocates and none keeps state of its own, so all may be called from any
 * thread as long as no two calls share memory that one of them writes.
 *
 * Pointers are the host's part: each must be valid and aligned for its type, and point to memory that does not overlap anything else
 * lent to the same call; where the length is 0 it may be anything but null. A bool must hold 0 or 1. A number of 32 bits is all that a
 * call sees: a host with a larger one must test it first, as C cuts it without a word.
 *
 * The remarks that begin with "On a set" tell where a real chip may show or tune otherwise than this library says. The library goes by
 * its customer's rules, and the data sheets do not always agree with them or with each other: docs/SOURCES.md has every such point.
 *
 * Link with -ldirgeflint (README.md says how the library is made and installed).
 */
#ifndef DIRGEFLINT_H
#define DIRGEFLINT_H

#include <stdbool.h>
#include <stddef.h>
#include <stdint.h>

/*
 * The minor number goes up with every delivery, also with one in which nothing changes for a host; the major one when declarations or
 * layouts change, so that every host has to be compiled again, and the minor one is then 0 again. CHANGELOG.md tells what changed.
 */
#define DIRGEFLINT_VERSION_MAJOR 2
#define DIRGEFLINT_VERSION_MINOR 0
#define DIRGEFLINT_VERSION "2.0"

#ifdef __cplusplus
extern "C" {
#endif

/* Sizes and limits. */
enum {
    DIRGEFLINT_WORDS = 64,          /* words of the display RAM */
    DIRGEFLINT_MOST_WORD = 1023,    /* a word has 10 bits */
    DIRGEFLINT_CELLS = 62,          /* cells of a font */
    DIRGEFLINT_CELL_ROWS = 18,      /* rows of a cell, the top one first */
    DIRGEFLINT_CELL_DOTS = 12,      /* dots of a row, the leftmost in bit 11 */
    DIRGEFLINT_FONT_ROWS = 1116,    /* rows of a font: row l of cell c is at 18c + l */
    DIRGEFLINT_MOST_ROW = 4095,     /* a row has 12 bits */
    DIRGEFLINT_MOST_GLYPHS = 256,   /* drawn glyphs that one call packs */
    DIRGEFLINT_MOST_LINE = 1023,    /* the last scan line that is painted */
    DIRGEFLINT_MOST_WIDTH = 1024,   /* dots of the widest line */
    DIRGEFLINT_IMAGE_BYTES = 8192,  /* bytes of a character image */
    DIRGEFLINT_TEXT_BYTES = 22540,  /* bytes of the text that dirgeflint_hex_write gives */
    DIRGEFLINT_MOST_TEXT = 65535,   /* bytes of the longest text that dirgeflint_hex_read looks at */
    DIRGEFLINT_CHANNELS = 8,        /* small pulse outputs */
    DIRGEFLINT_SUB_PERIOD = 128,    /* clocks of a sub-period of the DAC */
    DIRGEFLINT_SUB_PERIODS = 128,   /* sub-periods of a period */
    DIRGEFLINT_PERIOD = 16384       /* clocks of a period, and of the longest play */
};

/* The numbers of refusals. Each function lists its own, in the order in which they are tested, which is not that of the numbers. */
enum {
    DIRGEFLINT_ACCEPTED = 0,
    DIRGEFLINT_BAD_SETTING = 1,        /* paint: mode, colour, h, v or frequency out of range, or ratio above 3 */
    DIRGEFLINT_RESERVED_RATIO = 2,     /* paint: blink ratio 3 */
    DIRGEFLINT_BAD_WORDS = 3,          /* paint: not 64 words, or a word above 1023 */
    DIRGEFLINT_FONT_LENGTH = 4,        /* paint, write: not 1,116 rows */
    DIRGEFLINT_BAD_LINE = 5,           /* paint: line above 1023, or width above 1024 */
    DIRGEFLINT_NO_ROOM = 6,            /* paint, write, read, pack: the output is too short */
    DIRGEFLINT_TEXT_TOO_LONG = 7,      /* read: text above 65,535 bytes */
    DIRGEFLINT_BAD_SUM = 8,            /* read: a record's bytes do not sum to 0 */
    DIRGEFLINT_BAD_TYPE = 9,           /* read: a record type other than 00 and 01, or a bad end record */
    DIRGEFLINT_PAST_IMAGE = 10,        /* read: a record that goes past address 8,192 */
    DIRGEFLINT_GIVEN_TWICE = 11,       /* read: a byte that an earlier record gives already */
    DIRGEFLINT_BAD_END = 12,           /* read: no end record, or bytes after its line */
    DIRGEFLINT_NO_FONT = 13,           /* image to font: wrong lengths, or the image is no font's */
    DIRGEFLINT_TOO_MANY_CLOCKS = 14,   /* play: above 16,384 clocks, or above the room lent */
    DIRGEFLINT_BAD_CLOCK = 15,         /* pulse level: channel above 7, or clock outside its period */
    DIRGEFLINT_BAD_GLYPHS = 16,        /* pack: rows that are no whole glyphs, above 256 glyphs, or a row above 4095 */
    DIRGEFLINT_TOO_MANY_PATTERNS = 17, /* pack: more different glyphs than the 62 cells of a font */
    DIRGEFLINT_BAD_ROW = 18,           /* paint, write: a row above 4095 */
    DIRGEFLINT_BAD_CHARACTER = 19,     /* read: a line's first character that is no colon, or a later one that is no digit */
    DIRGEFLINT_NO_RECORD = 20          /* read: a line of a colon and digits only, or an empty one, that is no record */
};

/* The reason for a number, in words, for a message; never null. */
static inline const char *dirgeflint_reason(uint32_t number)
{
    switch (number) {
    case DIRGEFLINT_ACCEPTED: return "accepted";
    case DIRGEFLINT_BAD_SETTING: return "a setting is out of its range (mode 0 to 3, colour 0 to 7, h and v 0 to 63, ratio 0 to 3 with 3 reserved, frequency 0 to 3)";
    case DIRGEFLINT_RESERVED_RATIO: return "blink ratio 3 is reserved: use 0, 1 or 2";
    case DIRGEFLINT_BAD_WORDS: return "there must be 64 words, each at most 1023";
    case DIRGEFLINT_FONT_LENGTH: return "there must be 1,116 font rows, 18 for each of the 62 cells";
    case DIRGEFLINT_BAD_LINE: return "the line is above 1023 or the width above 1024";
    case DIRGEFLINT_NO_ROOM: return "the room for the output is too short";
    case DIRGEFLINT_TEXT_TOO_LONG: return "the text is longer than 65,535 bytes";
    case DIRGEFLINT_BAD_SUM: return "the checksum is wrong: the record's bytes do not sum to 0";
    case DIRGEFLINT_BAD_TYPE: return "the record type is neither 00 nor 01, or an end record has data or an address";
    case DIRGEFLINT_PAST_IMAGE: return "the record goes past the image's 8,192 bytes";
    case DIRGEFLINT_GIVEN_TWICE: return "an earlier record gives a byte of this one already";
    case DIRGEFLINT_BAD_END: return "the end record is missing, or something follows its line";
    case DIRGEFLINT_NO_FONT: return "the image is no font's: a bit is clear where a font's image has it set, or a length is wrong";
    case DIRGEFLINT_TOO_MANY_CLOCKS: return "more clocks than 16,384, or than the room holds";
    case DIRGEFLINT_BAD_CLOCK: return "the channel is above 7, or the clock is outside the channel's period";
    case DIRGEFLINT_BAD_GLYPHS: return "there must be 18 rows for each glyph, at most 256 glyphs, and no row above 4095";
    case DIRGEFLINT_TOO_MANY_PATTERNS: return "there are more than 62 different glyphs, and a font has 62 cells";
    case DIRGEFLINT_BAD_ROW: return "the row is above 4095, and a font's rows have 12 bits";
    case DIRGEFLINT_BAD_CHARACTER: return "this character is neither the colon that a record begins with nor a hexadecimal digit after it";
    case DIRGEFLINT_NO_RECORD: return "this line is no record: a colon, then two digits for each byte, as many bytes as the length asks for";
    default: return "no such number";
    }
}

/*
 * What a call that can refuse answers.
 *
 * number  DIRGEFLINT_ACCEPTED (0) if the call was accepted; else the number of the refusal, listed beside each function.
 *         Where several apply, the one listed first is given.
 * place   where the fault is, as listed; 0 if nothing is listed, and 0 if the call was accepted.
 * value   what an accepted call gives; 0 if nothing is listed, and 0 if the call was refused.
 *
 * A refused call changes nothing that was lent to it.
 */
typedef struct dirgeflint_answer {
    uint32_t number;
    uint32_t place;
    uint32_t value;
} dirgeflint_answer;

/*
 * ---- The eight small pulse outputs ----
 *
 * The level of a channel at clock t of its period, after byte was written to the channel.
 *
 * Channels 0 to 3 keep the byte's low 7 bits and have a period of 128 clocks; channels 4 to 7 keep its low 6 bits and have 64. The
 * output is high for as many clocks from the period's start as the number kept says, and low for the rest.
 *
 * value   1 for high, 0 for low.
 * Refuses 15: a channel above 7, or a t that is not below the channel's period.
 *
 * On a set the output may be inverted, and where in the period the high clocks lie is not printed (S32, S35).
 */
dirgeflint_answer dirgeflint_pulse_level(uint32_t channel, uint8_t byte, uint32_t t);

/*
 * ---- The 14-bit tuning DAC ----
 *
 * A period is 128 sub-periods of 128 clocks. A pair, a coarse and a fine half of 7 bits each, is high for T = 128 coarse + fine of the
 * period's 16,384 clocks. Each sub-period begins with its high clocks and is low for the rest; there are coarse of them, or coarse + 1 in
 * the sub-periods that the fine half picks:
 *
 *   fine bit    6      5            4             3           2          1        0
 *   value      64     32           16             8           4          2        1
 *   adds to    odd    2, 6, 10 ..  4, 12, 20 ..   8, 24 ..    16, 48 ..  32, 96   64       (of sub-periods 0 to 127; 0 never gets one)
 *
 * The rule behind it: bit 6 - z, where it is 1, adds to the sub-periods other than 0 whose number ends in exactly z zero bits. 96 is
 * 1100000 in binary and ends in five, and 6 - 5 is 1: its clock is that of bit 1.
 *
 * Writing takes two calls, the low (fine) half first: a low write is held, and a high write completes a pair with the fine half then
 * held. The pair completed last comes into force as the first clock of a period is played, and stays for that whole period: nothing
 * written meanwhile alters it. So to tune: write_low(fine), write_high(coarse), play.
 *
 * The host has one running record and lends it to each call; start with dirgeflint_dac_reset. Any record is taken: its halves are used
 * modulo 128, its position and its count of high clocks modulo 16,384, and every call but a refused play and a play of 0 clocks leaves
 * such kept values.
 *
 * The record counts the high clocks, so that no host has to add up levels: high is how many there were from the last first clock of a
 * period on, that clock included, in however many plays. Within a period it is the sum of the bytes that were played of it so far, and after
 * the last clock it is T of the pair in force. Writes leave it, and so it stays until the next period's first clock is played, which
 * starts it anew. A play that goes past the end of a period leaves the count of the period in which it ends; to have that of the period
 * before, play to its end first, which is DIRGEFLINT_PERIOD - position clocks. In a record that the host made up the count goes on from
 * the number that stands there, modulo 16,384, and until the next first clock it need not be a sum of bytes that were played.
 *
 * On a set, before you tune: by the PCA84C646's own sheet the low write completes the pair, not the high one (S36 to S38); the same two
 * halves are high for 16,383 - T clocks, so that a preset loaded unchanged is mirrored (S41 to S43); a new pair takes effect inside the
 * period (S39); and of a sub-period's clocks the coarse ones are the last and the added one is the first (S44, S45).
 */
typedef struct dirgeflint_pair {
    uint8_t coarse; /* high half */
    uint8_t fine;   /* low half */
} dirgeflint_pair;

typedef struct dirgeflint_dac {
    uint16_t position;         /* clocks played of the period under way */
    dirgeflint_pair held;      /* what the high and the low register keep */
    dirgeflint_pair completed; /* the latest completed pair */
    dirgeflint_pair in_force;  /* the pair that is being played */
    uint16_t high;             /* count: high clocks from the last first clock of a period on; not of the high register */
} dirgeflint_dac;

/*
 * Makes the record what it is after reset: 0 everywhere, so that no clock was high, and none will be until a pair is written.
 *
 * On a set the halves are 0 after reset as well, but by the sheet that is the widest output, 16,383 clocks of 16,384: enabled before the
 * first write, the tuning voltage is at the top (S63).
 */
void dirgeflint_dac_reset(dirgeflint_dac *dac);

/* Writes the low register: its 7 low bits are held as the fine half, until a high write takes them into a pair. */
void dirgeflint_dac_write_low(dirgeflint_dac *dac, uint8_t byte);

/* Writes the high register: its 7 low bits, with the fine half held now, complete a pair. */
void dirgeflint_dac_write_high(dirgeflint_dac *dac, uint8_t byte);

/*
 * Plays so many clocks: the first bytes of levels become their levels, a byte each, 1 if high and 0 if low, and the position moves on, from
 * 16,383 to 0. The clock at position 0 makes high its own level, and every other clock adds its level to it. What levels holds past them
 * stays. With 0 clocks nothing changes.
 *
 * value   high after the play, 0 to 16,383. It is what the record has then; but a play of 0 clocks, which leaves a record that was made up
 *         as it is, gives its count modulo 16,384: 6 if high is 16,390.
 * Refuses 14: clocks above 16,384, or above levels_length. The record is then left as it was, made up or not, and value is no count but 0.
 */
dirgeflint_answer dirgeflint_dac_play(dirgeflint_dac *dac, uint32_t clocks, uint8_t *levels, size_t levels_length);

/*
 * ---- The words of a screen ----
 *
 * A screen is 64 words of 10 bits. Bits 9 to 4 are the code, bits 3 to 0 depend on the kind:
 *
 *   code        kind        bit 3    bit 2    bit 1    bit 0
 *   0 to 61     character   red      green    blue     blink         shows that cell of the font, in this colour
 *   62          return      size - 1 (2 bits) spacing / 4 (2 bits)   ends the row; size and spacing are for the next one
 *   63          space       red      green    blue     0             an empty cell; sets the background from here on
 *   63          end         -        -        -        1             ends the screen; has no cell
 *
 * Words are read from word 0 up to the first end, or through word 63. The first row has size 1. In a row of size s (1 to 4) each cell is
 * 12s dots wide and 18s lines high. A return has no cell: the next row begins 0, 4, 8 or 12 lines (its spacing) below the row that it
 * ends, at the same left edge. A row without a cell is as high as any other. A space sets the background for its own cell and all later
 * ones, in later rows too, until the next space; before the first space the background is the settings' colour.
 */
enum {
    DIRGEFLINT_BLACK = 0,
    DIRGEFLINT_BLUE = 1,
    DIRGEFLINT_GREEN = 2,
    DIRGEFLINT_CYAN = 3,
    DIRGEFLINT_RED = 4,
    DIRGEFLINT_MAGENTA = 5,
    DIRGEFLINT_YELLOW = 6,
    DIRGEFLINT_WHITE = 7
};

/*
 * Words by their parts. Each part is cut to its bits, and nothing is refused: a code counts modulo 64 (62 is then a return, 63 a space), a
 * colour modulo 8, size - 1 modulo 4, and a spacing is rounded down to a multiple of 4 and counts modulo 16.
 */
static inline uint16_t dirgeflint_character(uint32_t cell, uint32_t colour, bool blink)
{
    return (uint16_t)((cell & 63u) << 4 | (colour & 7u) << 1 | (blink ? 1u : 0u));
}

static inline uint16_t dirgeflint_space(uint32_t background)
{
    return (uint16_t)(63u << 4 | (background & 7u) << 1);
}

static inline uint16_t dirgeflint_return(uint32_t size, uint32_t spacing)
{
    return (uint16_t)(62u << 4 | ((size - 1u) & 3u) << 2 | (spacing / 4u & 3u));
}

static inline uint16_t dirgeflint_end(void)
{
    return (uint16_t)(63u << 4 | 1u);
}

/*
 * The write port of the display: three registers and the 64 words of the display RAM. The host has one port and lends it to each call; start
 * with dirgeflint_port_reset. Any port is taken: every call uses and leaves the kept bits only, 6 of the address, 4 of the attribute, 6 of
 * the character register and 10 of each word. A host may also fill 64 words itself and never use the port.
 *
 * On a set the attribute after reset may be 15 and not 0 (S60), and what the words hold after reset is not printed (S61): write both.
 */
typedef struct dirgeflint_port {
    uint8_t address;
    uint8_t attribute;
    uint8_t character;
    uint16_t words[DIRGEFLINT_WORDS];
} dirgeflint_port;

/* Makes the port what it is after reset: 0 everywhere, which is 64 black characters of cell 0. */
void dirgeflint_port_reset(dirgeflint_port *port);

/* Writes the address register: where the next word goes. */
void dirgeflint_port_write_address(dirgeflint_port *port, uint8_t byte);

/* Writes the attribute register: bits 3 to 0 of the words that are written after it. */
void dirgeflint_port_write_attribute(dirgeflint_port *port, uint8_t byte);

/* Writes the character register: stores a word, this code and the attribute, at the address, and moves the address on by one, from 63 to 0. */
void dirgeflint_port_write_character(dirgeflint_port *port, uint8_t byte);

/*
 * ---- Painting ----
 *
 * The picture is painted line by line. The first cell starts at dot 4h and line 4v. A dot is a byte: 0 for video (the television picture
 * shows), else 8 plus a colour. What it is depends on the mode:
 *
 *   mode    lit dot of a character    unlit dot, or a space's cell    outside every cell
 *   0       the character's colour    video                           video
 *   1       the character's colour    black in a shadow, else video   black in a shadow, else video
 *   2       the character's colour    the background                  video
 *   3       the character's colour    the background                  the settings' colour
 *
 * Outside is all that no cell covers: left of dot 4h, above line 4v, between and beside rows, below the end.
 *
 * The shadow of mode 1 is as by a light at the upper left. Each lit dot of a character throws one, as large as itself, one dot of the font to
 * the right and one below: s dots and s lines away in a row of size s. A dot in it that no character lights is black, 8, whatever colours
 * spaces have. The shadow runs on into the next cell of the row, be it a character, blinked out or not, or a space; and past the row's last cell,
 * however the row ends, where it is s dots wide at most. It never falls below the bottom line of its own cell: so the lowest of a cell's 18
 * rows throws none, and nothing falls on the row of cells below. Spaces throw no shadow, nor do characters that are dark by blinking.
 *
 * Blinking goes in runs of D frames, counted from frame 0, and a character that blinks shows its lit dots in the first part of each run:
 * three quarters, a half or a quarter of it for ratio 0, 1, 2. In the rest it has no lit dot and no shadow, and keeps its background. D is
 * 16, 32, 64 or 128 for frequency 0 to 3.
 *
 * On a set: rows start five dots further right (S6); in mode 1 only sizes 2 and 4 have a shadow, whose depth may be another (S22), its colour
 * is that of the latest space, blue before the first (S23), and what of it falls on a steady character stays while its own one is dark (S31);
 * in mode 3 unlit dots have the one colour of register 37, whatever spaces say (S21); boxes before the first space are blue (S20); the
 * PCE84C886 enlarges heights only (S10), and its shadow is below the characters only (S22); each field of an interlaced picture counts as a
 * frame (S28).
 */
enum {
    DIRGEFLINT_VIDEO = 0,   /* a dot that shows the television picture */
    DIRGEFLINT_COLOURED = 8 /* plus a colour: any other dot; with black, 8, it is a shadow of mode 1 as well */
};

typedef struct dirgeflint_settings {
    bool on;            /* off: every dot is video, in every mode */
    uint32_t mode;      /* 0 to 3 */
    uint32_t colour;    /* 0 to 7: the background before the first space, and mode 3's outside */
    uint32_t h;         /* 0 to 63: rows start at dot 4h; on a set give 10 or more (S7) */
    uint32_t v;         /* 0 to 63: the first row starts at line 4v */
    uint32_t ratio;     /* 0 to 2; 3 is reserved */
    uint32_t frequency; /* 0 to 3 */
} dirgeflint_settings;

/*
 * Paints the first width dots of a scan line to the first bytes of dots. Later bytes stay; cells are cut at the width.
 *
 * words   the 64 words, each at most 1023
 * font    the 62 cells of 18 rows: row l of cell c is font[18 * c + l], at most 4095, its leftmost dot in bit 11
 * frame   any number
 * line    0 to 1023
 * width   0 to 1024
 *
 * Refuses 1: a mode, colour, h, v or frequency out of its range, or a ratio above 3
 *         2: ratio 3
 *         3: words_length not 64, or a word above 1023
 *         4: font_length not 1,116
 *        18: a row above 4095 (place: the index in font of the first such row, which is row place % 18 of cell place / 18)
 *         5: line above 1023, or width above 1024
 *         6: dots_length below width
 */
dirgeflint_answer dirgeflint_paint(const uint16_t *words, size_t words_length, const uint16_t *font, size_t font_length,
                                   dirgeflint_settings settings, uint32_t frame, uint32_t line, uint32_t width, uint8_t *dots,
                                   size_t dots_length);

/*
 * ---- The character image and its text ----
 *
 * A font is 1,116 rows as for dirgeflint_paint. Its image has 8,192 bytes, of which two hold row l of cell c: the one at 32c + l has the
 * row's low 8 bits, the one at 4096 + 32c + l its high 4, below four set bits. Bytes that hold no row are FF.
 *
 * The text is Intel's hexadecimal object format, record types 00 (data) and 01 (end) only. objcopy's texts are taken as they are
 * (-I binary -O ihex). srec_cat writes other record types unless told not to, and those are refused with 9: give it
 * -o FONT.hex -intel --address-length=2 -disable=exec_start_address.
 *
 * On a set, before you burn: the chip stores 19 rows a cell, the first of them hidden (S51), a P87C766 has a stride of 19 bytes and not
 * 32 (S52), and the mask files of a PCA84C646 are packed otherwise (S53): this image has to be packed anew for them.
 */

/*
 * Reads a text: the image that its records spell goes to the first 8,192 bytes of image. Later bytes stay. Digits of either case; lines
 * end in LF or CR LF, and the last may lack its end; records in any order.
 *
 * A byte that no record gives is FF, which is lit dots where it holds a row. So an end record alone is an accepted text, of a font with every
 * dot lit: look at the value to know whether the text has all of a font.
 *
 * value   how many bytes the records give: 8,192 (DIRGEFLINT_IMAGE_BYTES) for a whole image.
 * Refuses 6: image_length below 8,192
 *         7: text_length above 65,535
 *        19: a bad character, which is told below (place: that character's own)
 *        20: a line without a bad character that is no record all the same: it is empty, or a colon alone, or has an odd number of digits,
 *            or has fewer or more bytes than its length asks for (place: where the line starts)
 *         8: a record whose bytes do not sum to 0
 *         9: another type, or a type 01 with a length or an address that is not 0
 *        10: address plus length above 8,192
 *        11: a byte that an earlier record gives already
 *        12: no end record (place: text_length), or bytes after its line (place: the first of them)
 * 19, 20 and 8 to 11 go by the first line with a fault, whatever faults later ones have; the place of 8 to 11, as of 20, is where that line
 * starts. Places are in bytes from the text's start. Lines after the end record's are looked at for 12 only.
 *
 * A bad character is the first byte of a line if it is no colon; or else the line's first byte after the colon that is no digit (0 to 9, A to
 * F, a to f). The LF or CR LF that ends the line is none. A CR that no LF follows is one, at the text's end as well; and so are blanks, tabs,
 * a second colon, and bytes of 0 or above 127. To tell a person where it is: its line is one more than the LFs before place, and its column
 * one more than the bytes between the last of these and place.
 */
dirgeflint_answer dirgeflint_hex_read(const uint8_t *text, size_t text_length, uint8_t *image, size_t image_length);

/*
 * Writes a font: the text of its image goes to the first 22,540 bytes of text, 512 records that hold 16 bytes each, from address 0 up, and the end
 * record, in upper case, each line ended by LF. Later bytes stay. Reading the text and turning its image gives the font again.
 *
 * Refuses 4: font_length not 1,116
 *        18: a row above 4095 (place: the index in font of the first such row, which is row place % 18 of cell place / 18)
 *         6: text_length below 22,540
 */
dirgeflint_answer dirgeflint_hex_write(const uint16_t *font, size_t font_length, uint8_t *text, size_t text_length);

/*
 * Turns an image into the font whose image it is.
 *
 * Refuses 13: image_length not 8,192 or font_length not 1,116 (place 0); or a bit that is not set where an image has FF or set upper bits
 *             (place: the lowest such address, which is never below 18)
 */
dirgeflint_answer dirgeflint_image_to_font(const uint8_t *image, size_t image_length, uint16_t *font, size_t font_length);

/*
 * ---- Packing drawn glyphs into a font ----
 *
 * Makes a font of drawn glyphs, of which there may be more than the font has cells as long as enough of them are alike: glyphs that agree
 * in all 216 dots share a cell, and glyphs that differ in a dot never do. The first 1,116 rows of font become the font, and the first bytes
 * of cells the cell of each glyph, 0 to 61. What both hold past that stays.
 *
 * Cells are numbered in the order in which their glyphs first appear, from 0, and those that are left over are empty (18 rows of 0). An
 * empty glyph takes a cell like any other. No font shows the same glyphs with fewer cells. A screen whose characters are the cells of
 * glyphs, painted with this font, shows the glyphs as they were drawn.
 *
 * The font may be packed into a larger room, but dirgeflint_paint and dirgeflint_hex_write want its own 1,116 rows: give them 1,116
 * (DIRGEFLINT_FONT_ROWS) as font_length, and not the room's length.
 *
 * glyphs         the rows of the glyphs, 18 each: row l of glyph g is glyphs[18 * g + l], at most 4095, its leftmost dot in bit 11
 * glyphs_length  how many rows there are, which is 18 times the number of glyphs; 0 is taken
 *
 * value   how many cells the glyphs take: 0 without glyphs, at most 62.
 * Refuses 16: glyphs_length not a multiple of 18, more than 256 glyphs, or a row above 4095
 *         17: more than 62 different glyphs
 *          6: font_length below 1,116, or cells_length below the number of glyphs
 *
 * On a set a cell has one row more, which is hidden, and in mode 1 throws its shadow on the first row that shows (S51): glyphs that would
 * differ only there share a cell.
 */
dirgeflint_answer dirgeflint_pack(const uint16_t *glyphs, size_t glyphs_length, uint16_t *font, size_t font_length, uint8_t *cells,
                                  size_t cells_length);

#ifdef __cplusplus
}
#endif

#endif
