#include "names.h"

#include <limits.h>
#include <stdint.h>
#include <stdio.h>
#include <string.h>

#include "say.h"

#define NO_LETTER UINT32_MAX

/* The next letter of UTF-8, which is taken off; NO_LETTER if it is none, or written with more bytes than it needs. */
static uint32_t next_letter(struct slice *rest)
{
    static const struct {
        unsigned char mark, mask;
        uint32_t least;
    } forms[] = { { 0x00, 0x80, 0 }, { 0xC0, 0xE0, 0x80 }, { 0xE0, 0xF0, 0x800 }, { 0xF0, 0xF8, 0x10000 } };
    unsigned char first = (unsigned char)rest->start[0];
    for (size_t more = 0; more < sizeof forms / sizeof forms[0] && more < rest->length; more++) {
        if ((first & forms[more].mask) != forms[more].mark)
            continue;
        uint32_t letter = first & ~(unsigned)forms[more].mask & 0xFFu;
        for (size_t i = 1; i <= more; i++) {
            unsigned char byte = (unsigned char)rest->start[i];
            if ((byte & 0xC0) != 0x80)
                return NO_LETTER;
            letter = letter << 6 | (byte & 0x3Fu);
        }
        *rest = without_first(*rest, more + 1);
        bool is_half = letter >= 0xD800 && letter <= 0xDFFF; /* of a pair in UTF-16, which UTF-8 does not have */
        return letter < forms[more].least || letter > 0x10FFFF || is_half ? NO_LETTER : letter;
    }
    return NO_LETTER;
}

/* Blanks, what a terminal obeys, and what nobody sees. */
static bool is_seen(uint32_t letter)
{
    static const struct {
        uint32_t first, last;
    } unseen[] = {
        { 0, 0x20 }, { 0x7F, 0xA0 }, { 0xAD, 0xAD }, { 0x2000, 0x200F }, { 0x2028, 0x202F }, { 0x205F, 0x206F }, { 0x3000, 0x3000 }, { 0xFEFF, 0xFEFF },
    };
    for (size_t i = 0; i < sizeof unseen / sizeof unseen[0]; i++)
        if (letter >= unseen[i].first && letter <= unseen[i].last)
            return false;
    return true;
}

static bool is_in(struct slice word, char byte)
{
    return memchr(word.start, byte, word.length) != NULL;
}

/* The rule that the word breaks, or NULL if it can be a name. */
static const char *broken_rule(struct slice word)
{
    if (word.length == 0)
        return "a heading has one word for it, such as glyph A or glyph volume-bar";
    if (word.start[0] >= '0' && word.start[0] <= '9')
        return "it begins with a digit, as a cell's number does; write such as digit-7";
    if (word.length > MOST_NAME)
        return "it has more than 64 bytes";
    for (struct slice rest = word; rest.length > 0;) {
        uint32_t letter = next_letter(&rest);
        if (letter == NO_LETTER)
            return "it is not UTF-8; save the file in UTF-8";
        if (!is_seen(letter))
            return "it has a character that does not show; take that out";
    }
    if (is_in(word, ';') || is_in(word, '#'))
        return "; and # begin a comment in a screen; write such as semicolon or sharp";
    return NULL;
}

int judge_name(const char *file, size_t line, struct slice word)
{
    char room[SHOWN];
    const char *rule = broken_rule(word);
    return rule == NULL ? DONE : bad_input(file, line, "%s is no name: %s", shown(word, room), rule);
}

size_t find_name(const struct names *names, struct slice word)
{
    size_t i = 0;
    while (i < names->count && !slice_is(word, names->all[i].text))
        i++;
    return i;
}

void add_name(struct names *names, struct slice word, size_t line)
{
    if (names->count == MOST_NAMES || word.length > MOST_NAME)
        return;
    struct name *name = &names->all[names->count++];
    memcpy(name->text, word.start, word.length);
    name->text[word.length] = '\0';
    name->line = line;
}

/* The letters of what can be a name; gives how many. */
static size_t letters_of(struct slice name, uint32_t letters[MOST_NAME])
{
    size_t count = 0;
    while (name.length > 0 && count < MOST_NAME)
        letters[count++] = next_letter(&name);
    return count;
}

/* How far two letters are apart: 0, 1 for a capital and its small letter, which most alphabets have 32 apart, or 2. */
static unsigned letters_apart(uint32_t one, uint32_t other)
{
    uint32_t apart = one < other ? other - one : one - other;
    return apart == 0 ? 0 : apart == 32 ? 1 : 2;
}

static unsigned least(unsigned a, unsigned b)
{
    return a < b ? a : b;
}

/* How far two words are apart: the least sum of letters changed, as above, and of letters put in or left out, 2 each. */
static unsigned words_apart(const uint32_t *one, size_t one_length, const uint32_t *other, size_t other_length)
{
    unsigned row[MOST_NAME + 1];
    for (size_t j = 0; j <= other_length; j++)
        row[j] = 2 * (unsigned)j;
    for (size_t i = 0; i < one_length; i++) {
        unsigned corner = row[0];
        row[0] += 2;
        for (size_t j = 0; j < other_length; j++) {
            unsigned changed = corner + letters_apart(one[i], other[j]);
            corner = row[j + 1];
            row[j + 1] = least(changed, 2 + least(row[j], row[j + 1]));
        }
    }
    return row[other_length];
}

/* Where more than half of the letters would have to change the other name is no help. */
size_t find_near(const struct names *names, struct slice word)
{
    uint32_t letters[MOST_NAME], others[MOST_NAME];
    size_t length = letters_of(word, letters), nearest = names->count;
    unsigned best = UINT_MAX;
    for (size_t i = 0; i < names->count; i++) {
        size_t other_length = letters_of(slice_of(names->all[i].text), others);
        unsigned apart = words_apart(letters, length, others, other_length);
        if (apart < best && apart <= (length > other_length ? length : other_length)) {
            best = apart;
            nearest = i;
        }
    }
    return nearest;
}

uint32_t single_letter(struct slice name)
{
    uint32_t letter = broken_rule(name) == NULL ? next_letter(&name) : 0;
    return letter > 0x7F && name.length == 0 ? letter : 0;
}

const char *shown_name(struct slice name, char room[SHOWN])
{
    if (broken_rule(name) != NULL)
        return shown(name, room);
    uint32_t letter = single_letter(name);
    int used = snprintf(room, SHOWN, "'%.*s'", (int)name.length, name.start);
    if (letter != 0)
        snprintf(room + used, SHOWN - (size_t)used, " (U+%04lX)", (unsigned long)letter);
    return room;
}
