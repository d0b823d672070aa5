#include <stdio.h>
#include <string.h>

#include "commands.h"
#include "number.h"
#include "options.h"
#include "say.h"
#include "slice.h"

#define STATUS(one, two) "\nExit status: 0 done; 1 " one ";\n2 wrong usage, or " two ".\n"
#define WHERE "see NOTES in dirgeflint(1), or GUIDE.md"
#define CANNOT_READ "a file cannot be read"
#define CANNOT_WRITE "a file cannot be read or written"

static const char on_all[] =
    "usage: dirgeflint COMMAND [OPTION ..] [FILE ..]\n"
    "       dirgeflint help COMMAND\n"
    "       dirgeflint --version\n"
    "\n"
    "What the PCA84C646 shows on the screen and puts out as pulses.\n"
    "\n"
    "  check   tells whether Intel hex texts hold a font, and if not, why\n"
    "  font    makes a font's text of a drawing\n"
    "  pack    makes a font's text of drawn glyphs, one cell for all that are alike\n"
    "  show    makes a drawing of a font's text\n"
    "  paint   paints a screen, as a picture or as characters\n"
    "  play    plays the tuning DAC: a line for each period, and a wave\n"
    "  pulse   draws a period of a small pulse output\n"
    "  help    this, or more about a command: dirgeflint help paint\n"
    "\n"
    "Options may stand before or after files, as --name VALUE or --name=VALUE, each\n"
    "once; -- ends them. The file - is standard input, and -o - standard output; -o\n"
    "may not name an input. A number is decimal, or hexadecimal after 0x.\n" STATUS("refused, or bad input", CANNOT_WRITE);

static const char on_check[] =
    "usage: dirgeflint check [--whole] TEXT.hex ..\n"
    "\n"
    "Tells for each text whether it holds a font: 'FILE: cells 62 bytes N' on\n"
    "standard output, N being the bytes that its records give; or, on standard error,\n"
    "the line at fault, the reason and the library's number. If a character is at\n"
    "fault, its line follows, with a mark under it:\n"
    "\n"
    "  bad.hex:2: record 2: column 7: 'O' is no hexadecimal digit (refused 19 at 50)\n"
    "      :10001O000000FFFFFFFFFFFFFFFFFFFFFFFFFFFFEE\n"
    "            ^\n"
    "\n"
    "  --whole     a text that does not give all 8192 bytes is bad; without this it\n"
    "              is warned of, as such bytes count as FF, which is lit dots\n"
    "\n"
    "A text is Intel hex with record types 00 and 01, of 65,535 bytes at most:\n"
    "\n"
    "  :100000000000F0F80C0C0C0C0C0C0C0C0C0CF8F0A8\n"
    "  :00000001FF\n"
    "\n"
    "Byte 32c + l has the low 8 bits of row l of cell c, byte 4096 + 32c + l its high\n"
    "4 bits below four set ones. All other bytes are FF.\n" STATUS("a text was refused or is not whole", CANNOT_READ);

static const char on_font[] =
    "usage: dirgeflint font [--whole] DRAWING.txt [-o FONT.hex]\n"
    "\n"
    "Makes the text of a font, in Intel hex, of a drawing. Without -o it goes to\n"
    "standard output.\n"
    "\n"
    "  --whole     a drawing that leaves cells out is bad; else it is warned of\n"
    "\n"
    "A drawing has for each cell a heading, 'cell' and a number from 0 to 61, with a\n"
    "name after it or none; then 18 rows of 12 dots, # lit and . unlit:\n"
    "\n"
    "  ; the digit 1\n"
    "  cell 01 ONE\n"
    "  ............\n"
    "  .....##.....\n"
    "  ....###.....\n"
    "  (15 rows more)\n"
    "\n"
    "Cells come in any order, each once at most; one that is not drawn is empty, and\n"
    "a warning tells so. Empty lines, lines that begin with ;, and blanks at a row's\n"
    "end are passed over.\n"
    "\n"
    "A real chip may store a font otherwise: " WHERE ".\n" STATUS("the drawing is bad", CANNOT_WRITE);

static const char on_pack[] =
    "usage: dirgeflint pack DRAWINGS.txt [-o FONT.hex] [--table TABLE.txt]\n"
    "\n"
    "Makes the text of a font of drawn glyphs, up to 256 of them: glyphs that are the\n"
    "same in every dot share a cell, and at most 62 may be different. Without -o the\n"
    "text goes to standard output.\n"
    "\n"
    "  --table T   the table goes to this file, and not to standard output, or to\n"
    "              standard error if the text goes to standard output\n"
    "\n"
    "The drawings have for each glyph a heading, 'glyph' and a name, with a comment\n"
    "after it, which begins with ; or #, or none; then 18 rows of 12 dots, # lit and\n"
    ". unlit:\n"
    "\n"
    "  glyph A\n"
    "  ............\n"
    "  .....##.....\n"
    "  (16 rows more)\n"
    "\n"
    "A name is a word in UTF-8 of 64 bytes at most, without ; and #, that does not\n"
    "begin with a digit: A, \303\204, volume-bar-3, digit-7. Each stands once.\n"
    "\n"
    "The table tells the cell of each glyph; dirgeflint paint --table takes it:\n"
    "\n"
    "  font 5A0C93F1\n"
    "  cell 00 A\n"
    "  cell 00 big-a ; as A\n"
    "  cell 01 volume-bar-3\n"
    "\n"
    "The line 'font' is what paint knows the font by. Empty lines, and lines that\n"
    "begin with ;, are passed over in drawings and tables.\n" STATUS("the drawings are bad or were refused", CANNOT_WRITE);

static const char on_show[] =
    "usage: dirgeflint show FONT.hex [CELL ..] [-o DRAWING.txt]\n"
    "\n"
    "Draws the cells of a font's text: those named, numbers from 0 to 61, in the\n"
    "order named, or all. Without -o the drawing goes to standard output.\n"
    "\n"
    "A text is what dirgeflint check accepts. A drawing is what dirgeflint font\n"
    "takes, so a font can be drawn, changed with any editor and made again:\n"
    "\n"
    "  dirgeflint show old.hex -o font.txt\n"
    "  dirgeflint font font.txt -o new.hex\n" STATUS("the text was refused", CANNOT_WRITE);

static const char on_paint[] =
    "usage: dirgeflint paint SCREEN --font FONT.hex [OPTION ..] [-o PICTURE.ppm]\n"
    "\n"
    "Paints a screen: to -o as a picture (PPM), or without -o to standard output, a\n"
    "character a dot: space video, . black, a shadow too, : blue, + green, = cyan,\n"
    "* red, % magenta, @ yellow, # white. In a picture video is grey.\n"
    "\n"
    "  --font F    the font's text, as dirgeflint font or pack makes it\n"
    "  --table T   the table that dirgeflint pack made with it, for names of glyphs\n"
    "  --mode M    0 characters only, 1 with a black shadow at their lower right,\n"
    "              2 in boxes (default), 3 on a full screen\n"
    "  --colour C  the background before the first space, and outside in mode 3:\n"
    "              " COLOURS "\n"
    "              in this order (default: black)\n"
    "  --h H       0 to 63: rows start at dot 4H (default: 0)\n"
    "  --v V       0 to 63: the first row starts at line 4V (default: 0)\n"
    "  --ratio R   0, 1 or 2: blinking shows 3/4, 1/2 or 1/4 of the time (default: 0)\n"
    "  --frequency F   0 to 3: a blink takes 16, 32, 64 or 128 frames (default: 0)\n"
    "  --frame N   which frame, any number (default: 0)\n"
    "  --off       the display is off\n"
    "  --width W   1 to 1024 dots (default: as far as cells and shadows reach)\n"
    "  --lines L   1 to 1024 lines (default: as far as the cells reach)\n"
    "  --text      characters to -o too, and no picture\n"
    "\n"
    "A screen has a word a line, 64 at most; ; and # start a comment:\n"
    "\n"
    "  space blue                 ; an empty cell; background from here on\n"
    "  character 13 white         ; cell 13\n"
    "  character 18 yellow blink\n"
    "  character big-a white      ; the glyph of this name, by the table\n"
    "  return 2 4                 ; a new row: size 1 to 4, spacing 0, 4, 8 or 12\n"
    "  0x0DE                      ; a word as it is, 0 to 1023\n"
    "  end\n"
    "\n"
    "A real chip may show it otherwise: " WHERE ".\n" STATUS("an option or the text was refused, or a file is bad", CANNOT_WRITE);

static const char on_play[] =
    "usage: dirgeflint play EVENTS [-o WAVE.vcd]\n"
    "\n"
    "Plays the 14-bit tuning DAC from reset, and prints a line for each period: the\n"
    "pair in force, T = 128 coarse + fine, and how many of its clocks were high, as\n"
    "the DAC's running record counts them: T, if it was played to its end.\n"
    "\n"
    "  -o WAVE.vcd   level, coarse and fine clock by clock, for a wave viewer; with\n"
    "                -o - the lines go to standard error\n"
    "\n"
    "Events are a line each; ; and # start a comment:\n"
    "\n"
    "  low 3          ; writes the low register, 0 to 255: the fine half is held\n"
    "  high 1         ; writes the high register, 0 to 255: completes the pair\n"
    "  play 16384     ; plays 0 to 16384 clocks\n"
    "  reset\n"
    "\n"
    "This prints: period 1: coarse 1 fine 3 T 131 high 131\n"
    "\n"
    "A real chip may tune otherwise: " WHERE ".\n" STATUS("a play was refused, or a line is bad", CANNOT_WRITE);

static const char on_pulse[] =
    "usage: dirgeflint pulse CHANNEL BYTE\n"
    "\n"
    "Draws a period of a small pulse output after a byte was written to it, # high\n"
    "and . low, and counts its high clocks.\n"
    "\n"
    "  CHANNEL   0 to 7: 0 to 3 have 7 bits and 128 clocks, 4 to 7 6 bits and 64\n"
    "  BYTE      0 to 255\n"
    "\n"
    "  $ dirgeflint pulse 4 0xC2\n"
    "  channel 4 byte 194: high for 2 of 64 clocks\n"
    "  ##..............................................................\n" STATUS("the channel was refused", "the output cannot be written");

static const struct topic {
    const char *command;
    const char *text;
} topics[] = {
    { "check", on_check }, { "font", on_font }, { "pack", on_pack },   { "show", on_show },
    { "paint", on_paint }, { "play", on_play }, { "pulse", on_pulse }, { "help", on_all },
};

int help_on(const char *command)
{
    char room[SHOWN];
    for (size_t i = 0; i < sizeof topics / sizeof topics[0]; i++)
        if (strcmp(topics[i].command, command) == 0) {
            fputs(topics[i].text, stdout);
            return DONE;
        }
    return wrong_usage(NULL, "there is no command %s", shown(slice_of(command), room));
}

int help_command(int count, char **words)
{
    struct option options[] = { { NULL, false, NULL } };
    struct usage usage = { "help", "nothing, or a COMMAND", 0, 1, options };
    int status;
    if (!read_options(&usage, &count, words, &status))
        return status;
    return help_on(count == 0 ? "help" : words[0]);
}
