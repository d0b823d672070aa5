/*
 * upper: a number narrower than a register leaves the register's upper bits to the caller, and a compiler may put
 * anything there. Each call that takes such numbers is made twice, with those bits clear and with all of them set, and
 * must do the same.
 *
 * The second call goes by a type that is not the function's own, which C does not define; on x86-64 and aarch64 it fills
 * the registers, and the words of the stack, as is wanted here. The pointers are volatile so that no compiler sees it.
 */
#include "dirgeflint.h"
#include <stdio.h>
#include <stdlib.h>
#include <string.h>

static const uint64_t BYTE = 0xFFFFFFFFFFFFFF00u, NUMBER = 0xFFFFFFFF00000000u;

static void (*volatile level)(void) = (void (*)(void))dirgeflint_pulse_level;
static void (*volatile dac_writes[2])(void) = { (void (*)(void))dirgeflint_dac_write_low,
                                                (void (*)(void))dirgeflint_dac_write_high };
static void (*volatile play)(void) = (void (*)(void))dirgeflint_dac_play;
static void (*volatile port_writes[3])(void) = { (void (*)(void))dirgeflint_port_write_address,
                                                 (void (*)(void))dirgeflint_port_write_attribute,
                                                 (void (*)(void))dirgeflint_port_write_character };
static void (*volatile paint)(void) = (void (*)(void))dirgeflint_paint;

typedef dirgeflint_answer (*wide_level)(uint64_t, uint64_t, uint64_t);
typedef void (*narrow_dac_write)(dirgeflint_dac *, uint8_t);
typedef void (*wide_dac_write)(dirgeflint_dac *, uint64_t);
typedef dirgeflint_answer (*wide_play)(dirgeflint_dac *, uint64_t, uint8_t *, size_t);
typedef void (*narrow_port_write)(dirgeflint_port *, uint8_t);
typedef void (*wide_port_write)(dirgeflint_port *, uint64_t);
typedef dirgeflint_answer (*wide_paint)(const uint16_t *, size_t, const uint16_t *, size_t, dirgeflint_settings,
                                        uint64_t, uint64_t, uint64_t, uint8_t *, size_t);

static unsigned long calls;

static void same(const char *name, const void *narrow, const void *wide, size_t size)
{
    calls++;
    if (memcmp(narrow, wide, size) != 0) {
        printf("upper: %s looks at bits that are not its caller's to give\n", name);
        exit(1);
    }
}

int main(void)
{
    static uint8_t levels[2][DIRGEFLINT_PERIOD], dots[2][DIRGEFLINT_MOST_WIDTH];
    static uint16_t words[DIRGEFLINT_WORDS], font[DIRGEFLINT_FONT_ROWS];
    dirgeflint_answer answers[2];
    dirgeflint_dac dac[2];
    dirgeflint_port port[2];
    memset(dac, 0, sizeof dac);
    memset(port, 0, sizeof port);
    for (uint32_t byte = 0; byte < 256; byte++) {
        for (uint32_t channel = 0; channel < 10; channel++) {
            answers[0] = dirgeflint_pulse_level(channel, (uint8_t)byte, byte / 2);
            answers[1] = ((wide_level)level)(NUMBER | channel, BYTE | byte, NUMBER | byte / 2);
            same("dirgeflint_pulse_level", &answers[0], &answers[1], sizeof answers[0]);
        }
        for (int i = 0; i < 2; i++) {
            ((narrow_dac_write)dac_writes[i])(&dac[0], (uint8_t)byte);
            ((wide_dac_write)dac_writes[i])(&dac[1], BYTE | byte);
            same("a write of the DAC", &dac[0], &dac[1], sizeof dac[0]);
        }
        for (int i = 0; i < 3; i++) {
            ((narrow_port_write)port_writes[i])(&port[0], (uint8_t)byte);
            ((wide_port_write)port_writes[i])(&port[1], BYTE | byte);
            same("a write of the port", port[0].words, port[1].words, sizeof port[0].words);
            same("a write of the port", &port[0], &port[1], 3);
        }
        answers[0] = dirgeflint_dac_play(&dac[0], 65 * byte, levels[0], sizeof levels[0]);
        answers[1] = ((wide_play)play)(&dac[1], NUMBER | 65 * byte, levels[1], sizeof levels[1]);
        same("dirgeflint_dac_play", &answers[0], &answers[1], sizeof answers[0]);
        same("dirgeflint_dac_play", &dac[0], &dac[1], sizeof dac[0]);
        same("dirgeflint_dac_play", levels[0], levels[1], sizeof levels[0]);
    }
    for (uint32_t i = 0; i < DIRGEFLINT_WORDS; i++)
        words[i] = dirgeflint_character(i, i, i % 3 == 0);
    for (uint32_t i = 0; i < DIRGEFLINT_FONT_ROWS; i++)
        font[i] = (uint16_t)(i * 2654 % 4096);
    for (uint32_t line = 0; line <= DIRGEFLINT_MOST_LINE + 1; line++) {
        dirgeflint_settings settings = { true, line % 4, 1, 2, 2, 1, 0 };
        answers[0] = dirgeflint_paint(words, DIRGEFLINT_WORDS, font, DIRGEFLINT_FONT_ROWS, settings, line, line, line,
                                      dots[0], sizeof dots[0]);
        answers[1] = ((wide_paint)paint)(words, DIRGEFLINT_WORDS, font, DIRGEFLINT_FONT_ROWS, settings, NUMBER | line,
                                         NUMBER | line, NUMBER | line, dots[1], sizeof dots[1]);
        same("dirgeflint_paint", &answers[0], &answers[1], sizeof answers[0]);
        same("dirgeflint_paint", dots[0], dots[1], sizeof dots[0]);
    }
    printf("compare upper bits: %lu comparisons, no difference\n", calls);
    return 0;
}
