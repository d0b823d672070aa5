#include <limits.h>
#include <stdio.h>

#include "commands.h"
#include "fonttext.h"
#include "input.h"
#include "options.h"
#include "say.h"

static int check_file(const char *path, bool whole)
{
    struct font font;
    int status = load_font(path, whole, &font);
    if (status != DONE)
        return status;
    write_name(stdout, input_name(path));
    printf(": cells %d bytes %lu\n", (int)DIRGEFLINT_CELLS, (unsigned long)font.given);
    return DONE;
}

static int count_standard(int count, char **words)
{
    int standard = 0;
    for (int i = 0; i < count; i++)
        standard += is_standard(words[i]);
    return standard;
}

int check_command(int count, char **words)
{
    struct option options[] = { { "--whole", false, NULL }, { NULL, false, NULL } };
    struct usage usage = { "check", "a TEXT.hex, or -", 1, INT_MAX, options };
    int status;
    if (!read_options(&usage, &count, words, &status))
        return status;
    if (count_standard(count, words) > 1)
        return wrong_usage("check", "standard input can be read once only");
    status = DONE;
    for (int i = 0; i < count; i++) {
        int of_file = check_file(words[i], options[0].value != NULL);
        if (of_file > status)
            status = of_file;
    }
    return status;
}
