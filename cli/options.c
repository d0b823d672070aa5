#include "options.h"

#include <string.h>

#include "commands.h"
#include "input.h"
#include "number.h"
#include "say.h"

static struct option *find_option(struct option *options, struct slice name)
{
    for (; options->name != NULL; options++)
        if (slice_is(name, options->name))
            return options;
    return NULL;
}

/* The option's name, up to a = that a value follows, as it may after two dashes. */
static struct slice name_part(const char *word)
{
    struct slice name = slice_of(word);
    const char *equals = strncmp(word, "--", 2) == 0 ? strchr(word, '=') : NULL;
    if (equals != NULL)
        name.length = (size_t)(equals - word);
    return name;
}

/* A value that begins with a dash is the next option, the value being forgotten; - alone is a file. */
static bool is_value(const char *word)
{
    return word != NULL && (word[0] != '-' || is_standard(word));
}

/* What is no option may have been meant as a number, which has no sign. */
static void no_option(const struct usage *usage, struct slice name)
{
    char room[SHOWN];
    if (name.length > 1 && digit_value(name.start[1]) >= 0 && digit_value(name.start[1]) < 10)
        wrong_usage(usage->command, "%s is no option, and a number has no sign: %s needs %s", shown(name, room), usage->command, usage->needs);
    else
        wrong_usage(usage->command, "there is no option %s", shown(name, room));
}

/* Takes the option in word, and its value, from next if it is not in the word. Gives how many words it took; 0 if they are wrong. */
static int take_option(const struct usage *usage, const char *word, const char *next)
{
    struct slice name = name_part(word);
    struct option *option = find_option(usage->options, name);
    const char *joined = word[name.length] == '=' ? word + name.length + 1 : NULL;
    int taken = joined == NULL && option != NULL && option->takes_value ? 2 : 1;
    const char *value = taken == 2 ? next : joined != NULL ? joined : word;
    if (option == NULL)
        no_option(usage, name);
    else if (option->value != NULL)
        wrong_usage(usage->command, "%s is given twice", option->name);
    else if (!option->takes_value && joined != NULL)
        wrong_usage(usage->command, "%s takes no value", option->name);
    else if (taken == 2 && !is_value(next))
        wrong_usage(usage->command, "%s needs a value", option->name);
    else if (value[0] == '\0')
        wrong_usage(usage->command, "%s needs a value, and the one given is empty", option->name);
    else {
        option->value = value;
        return taken;
    }
    return 0;
}

static bool right_number(const struct usage *usage, int count, char **words)
{
    char room[SHOWN];
    if (count < usage->least)
        wrong_usage(usage->command, "%s needs %s", usage->command, usage->needs);
    else if (count > usage->most)
        wrong_usage(usage->command, "%s is one word too many", shown(slice_of(words[usage->most]), room));
    else
        return true;
    return false;
}

bool read_options(const struct usage *usage, int *count, char **words, int *status)
{
    int kept = 0;
    bool options_end = false;
    *status = TROUBLE;
    for (int i = 0; i < *count;) {
        const char *word = words[i];
        if (options_end || word[0] != '-' || is_standard(word)) {
            words[kept++] = words[i++];
        } else if (strcmp(word, "--") == 0) {
            options_end = true;
            i++;
        } else if (strcmp(word, "--help") == 0 || strcmp(word, "-h") == 0) {
            *status = help_on(usage->command);
            return false;
        } else {
            int taken = take_option(usage, word, i + 1 < *count ? words[i + 1] : NULL);
            if (taken == 0)
                return false;
            i += taken;
        }
    }
    *count = kept;
    return right_number(usage, kept, words);
}
