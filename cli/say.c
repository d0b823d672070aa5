#include "say.h"

#include <errno.h>
#include <stdarg.h>
#include <string.h>

void write_name(FILE *stream, const char *file)
{
    enum { DELETE = 127 };
    for (; *file != '\0'; file++) {
        unsigned char byte = (unsigned char)*file;
        if (byte < ' ' || byte == DELETE)
            fprintf(stream, "\\x%02X", (unsigned)byte);
        else
            fputc(byte, stream);
    }
}

/* What stands on standard output already comes first where both go to one place. */
static void begin(const char *file, size_t line)
{
    int kept = errno;
    fflush(stdout);
    write_name(stderr, file);
    fputc(':', stderr);
    if (line > 0)
        fprintf(stderr, "%zu:", line);
    fputc(' ', stderr);
    errno = kept;
}

static int end_usage(const char *command)
{
    fprintf(stderr, "; try: " PROGRAM " help%s%s\n", command == NULL ? "" : " ", command == NULL ? "" : command);
    return TROUBLE;
}

int wrong_usage(const char *command, const char *format, ...)
{
    va_list rest;
    va_start(rest, format);
    begin(PROGRAM, 0);
    vfprintf(stderr, format, rest);
    va_end(rest);
    return end_usage(command);
}

int wrong_output(const char *command, const char *option, const char *file)
{
    begin(PROGRAM, 0);
    fprintf(stderr, "%s ", option);
    write_name(stderr, file);
    fputs(" is also an input: name another file", stderr);
    return end_usage(command);
}

int bad_input(const char *file, size_t line, const char *format, ...)
{
    va_list rest;
    va_start(rest, format);
    begin(file, line);
    vfprintf(stderr, format, rest);
    fputc('\n', stderr);
    va_end(rest);
    return BAD;
}

int refused(const char *file, size_t line, dirgeflint_answer answer, const char *format, ...)
{
    va_list rest;
    va_start(rest, format);
    begin(file, line);
    vfprintf(stderr, format, rest);
    fprintf(stderr, " (refused %lu at %lu)\n", (unsigned long)answer.number, (unsigned long)answer.place);
    va_end(rest);
    return BAD;
}

int file_trouble(const char *file, const char *what)
{
    begin(file, 0);
    fprintf(stderr, "cannot be %s: %s\n", what, strerror(errno));
    return TROUBLE;
}

void warn(const char *file, const char *format, ...)
{
    va_list rest;
    va_start(rest, format);
    begin(file, 0);
    fputs("warning: ", stderr);
    vfprintf(stderr, format, rest);
    fputc('\n', stderr);
    va_end(rest);
}
