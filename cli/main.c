#include <stdio.h>
#include <string.h>

#include "commands.h"
#include "output.h"
#include "say.h"
#include "slice.h"

static const struct command {
    const char *name;
    int (*run)(int count, char **words);
} commands[] = {
    { "check", check_command }, { "font", font_command }, { "pack", pack_command },   { "show", show_command }, { "paint", paint_command },
    { "play", play_command },   { "pulse", pulse_command }, { "help", help_command }, { "--help", help_command }, { "-h", help_command },
};

static int print_version(int count, char **words)
{
    char room[SHOWN];
    if (count > 0)
        return wrong_usage(NULL, "%s is one word too many", shown(slice_of(words[0]), room));
    puts(PROGRAM " " DIRGEFLINT_VERSION);
    return DONE;
}

static int run(int count, char **words)
{
    char room[SHOWN];
    if (count < 2)
        return wrong_usage(NULL, "a command has to follow: check, font, pack, show, paint, play, pulse or help");
    if (strcmp(words[1], "--version") == 0)
        return print_version(count - 2, words + 2);
    for (size_t i = 0; i < sizeof commands / sizeof commands[0]; i++)
        if (strcmp(words[1], commands[i].name) == 0)
            return commands[i].run(count - 2, words + 2);
    return wrong_usage(NULL, "there is no command %s", shown(slice_of(words[1]), room));
}

int main(int count, char **words)
{
    prepare_output();
    return finish_output(run(count, words));
}
