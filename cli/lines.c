#include "lines.h"

#include <string.h>

static bool is_blank(char byte)
{
    return byte == ' ' || byte == '\t';
}

bool next_line(struct lines *lines, struct slice *line)
{
    struct slice rest = lines->rest;
    if (rest.length == 0)
        return false;
    const char *end = memchr(rest.start, '\n', rest.length);
    line->start = rest.start;
    line->length = end == NULL ? rest.length : (size_t)(end - rest.start);
    lines->rest = without_first(rest, end == NULL ? rest.length : line->length + 1);
    if (end != NULL && line->length > 0 && end[-1] == '\r')
        line->length--;
    lines->number++;
    return true;
}

struct slice line_at(struct slice text, size_t place)
{
    size_t start = place;
    while (start > 0 && text.start[start - 1] != '\n')
        start--;
    struct lines lines = { without_first(text, start), 0 };
    struct slice line = { lines.rest.start, 0 };
    next_line(&lines, &line);
    return line;
}

size_t line_number(struct slice text, size_t place)
{
    size_t number = 1;
    for (size_t i = 0; i < place && i < text.length; i++)
        if (text.start[i] == '\n')
            number++;
    return number;
}

struct slice without_blanks_after(struct slice line)
{
    while (line.length > 0 && is_blank(line.start[line.length - 1]))
        line.length--;
    return line;
}

struct slice next_word(struct slice *rest)
{
    while (rest->length > 0 && is_blank(rest->start[0]))
        *rest = without_first(*rest, 1);
    struct slice word = { rest->start, 0 };
    while (word.length < rest->length && !is_blank(word.start[word.length]))
        word.length++;
    *rest = without_first(*rest, word.length);
    return word;
}

static struct slice without_comment(struct slice line)
{
    for (size_t i = 0; i < line.length; i++)
        if (line.start[i] == ';' || line.start[i] == '#')
            line.length = i;
    return line;
}

bool next_statement(struct lines *lines, struct statement *statement)
{
    struct slice line;
    while (next_line(lines, &line)) {
        statement->line = lines->number;
        statement->count = 0;
        struct slice rest = without_comment(line);
        for (struct slice word = next_word(&rest); word.length > 0; word = next_word(&rest))
            if (statement->count++ < MOST_WORDS)
                statement->words[statement->count - 1] = word;
        if (statement->count > 0)
            return true;
    }
    return false;
}
