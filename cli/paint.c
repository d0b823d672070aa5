#include <inttypes.h>
#include <stdlib.h>

#include "commands.h"
#include "fonttext.h"
#include "input.h"
#include "number.h"
#include "options.h"
#include "output.h"
#include "picture.h"
#include "reach.h"
#include "say.h"
#include "screen.h"

/* The options with numbers come first: of several that are refused the first is told. */
enum { MODE, COLOUR, H, V, RATIO, FREQUENCY, FRAME, WIDTH, LINES, NUMBERS, FONT = NUMBERS, TABLE, OFF, TEXT, OUTPUT, OPTIONS };

static const uint32_t usual[NUMBERS] = { [MODE] = 2 };

static const char *const ranges[NUMBERS] = {
    [MODE] = "modes are 0 to 3",
    [COLOUR] = ("colours are " COLOURS),
    [H] = "h is 0 to 63",
    [V] = "v is 0 to 63",
    [RATIO] = "ratios are 0 to 2, and 3 is reserved",
    [FREQUENCY] = "frequencies are 0 to 3",
    [FRAME] = "frames are 0 to 4294967295",
    [WIDTH] = "widths are 1 to 1024",
    [LINES] = "there are 1 to 1024 lines",
};

static dirgeflint_settings settings_of(const uint32_t numbers[NUMBERS], bool on)
{
    dirgeflint_settings settings = { on, numbers[MODE], numbers[COLOUR], numbers[H], numbers[V], numbers[RATIO], numbers[FREQUENCY] };
    return settings;
}

/* Numbers that the options do not give are the usual ones; a width and lines that are not given stay 0. */
static int read_numbers(const struct option options[OPTIONS], uint32_t numbers[NUMBERS])
{
    char room[SHOWN];
    for (int i = 0; i < NUMBERS; i++) {
        numbers[i] = usual[i];
        if (options[i].value == NULL)
            continue;
        struct slice value = slice_of(options[i].value);
        bool read = i == COLOUR ? read_colour(value, &numbers[i]) : read_number(value, &numbers[i]);
        if (!read || (numbers[i] == 0 && (i == WIDTH || i == LINES)))
            return wrong_usage("paint", "%s takes no %s: %s", options[i].name, shown(value, room), ranges[i]);
    }
    return DONE;
}

/* What the library says to these numbers, with words and a font of zeros, which it never refuses. */
static dirgeflint_answer try_numbers(const uint32_t numbers[NUMBERS])
{
    static const uint16_t words[DIRGEFLINT_WORDS], font[DIRGEFLINT_FONT_ROWS];
    uint8_t dots[DIRGEFLINT_MOST_WIDTH];
    uint32_t line = numbers[LINES] == 0 ? 0 : numbers[LINES] - 1;
    return dirgeflint_paint(words, DIRGEFLINT_WORDS, font, DIRGEFLINT_FONT_ROWS, settings_of(numbers, true), numbers[FRAME], line, numbers[WIDTH], dots,
                            sizeof dots);
}

/* Whether the library refuses so if the one option is as given and the others are usual: then that option is to blame. */
static bool is_to_blame(const uint32_t numbers[NUMBERS], int option, dirgeflint_answer answer)
{
    uint32_t alone[NUMBERS];
    for (int i = 0; i < NUMBERS; i++)
        alone[i] = i == option ? numbers[i] : usual[i];
    return try_numbers(alone).number == answer.number;
}

static int refused_picture(dirgeflint_answer answer)
{
    if (answer.number == DIRGEFLINT_FONT_LENGTH || answer.number == DIRGEFLINT_BAD_ROW)
        return refused_font(answer);
    return refused(PROGRAM, 0, answer, "the picture: %s", dirgeflint_reason(answer.number));
}

static int judge_numbers(const struct option options[OPTIONS], const uint32_t numbers[NUMBERS])
{
    dirgeflint_answer answer = try_numbers(numbers);
    if (answer.number == DIRGEFLINT_ACCEPTED)
        return DONE;
    for (int i = 0; i < NUMBERS; i++)
        if (options[i].value != NULL && is_to_blame(numbers, i, answer))
            return refused(PROGRAM, 0, answer, "%s %s: %s", options[i].name, options[i].value, ranges[i]);
    return refused_picture(answer);
}

static int write_picture(const struct picture *picture, const char *path, bool text)
{
    struct output output;
    if (!open_output(path, &output))
        return TROUBLE;
    if (text)
        write_characters(output.stream, picture);
    else
        write_ppm(output.stream, picture);
    return close_output(&output, DONE);
}

static int paint_scene(const struct scene *scene, struct picture *picture, const char *path, bool text)
{
    dirgeflint_answer answer = measure(scene, picture);
    picture->dots = malloc((size_t)picture->width * picture->lines);
    if (picture->dots == NULL)
        return file_trouble("the picture", "painted");
    if (answer.number == DIRGEFLINT_ACCEPTED)
        answer = paint_picture(scene, picture);
    int status = answer.number == DIRGEFLINT_ACCEPTED ? write_picture(picture, path, text) : refused_picture(answer);
    free(picture->dots);
    return status;
}

static int greater(int one, int other)
{
    return one > other ? one : other;
}

/* Reads all files, so that what is wrong with any is told at once; but without its table a screen's names say nothing. */
static int read_scene(const char *screen, const struct option options[OPTIONS], struct font *font, struct scene *scene)
{
    static struct table table;
    const char *table_path = options[TABLE].value;
    int status = load_font(options[FONT].value, false, font), of_table = table_path == NULL ? DONE : read_table(table_path, &table);
    if (table_path != NULL && status == DONE && of_table == DONE)
        status = judge_sum(&table, font->rows);
    if (of_table == DONE)
        status = greater(status, read_screen(screen, table_path == NULL ? NULL : &table, scene->words));
    scene->font = font->rows;
    return greater(status, of_table);
}

/* A width or lines that are not given cannot be as many as the cells ask for. */
static void warn_of_reach(const char *file, const struct scene *scene, const struct picture *picture)
{
    enum { MOST = DIRGEFLINT_MOST_WIDTH, MOST_LINES = DIRGEFLINT_MOST_LINE + 1 };
    struct reach reach = find_reach(scene->words, scene->settings.h, scene->settings.v);
    if ((picture->width == 0 && reach.dots > MOST) || (picture->lines == 0 && reach.lines > MOST_LINES))
        warn(file, "the cells reach %" PRIu64 " dots by %" PRIu64 " lines; at most %d by %d are painted", reach.dots, reach.lines, (int)MOST, (int)MOST_LINES);
}

/* The output may be none of the files that are read, and standard input only one of them. */
static int judge_files(const char *screen, const struct option options[OPTIONS])
{
    const char *inputs[] = { screen, options[FONT].value, options[TABLE].value };
    int status = DONE, standard = 0;
    for (size_t i = 0; i < sizeof inputs / sizeof inputs[0] && inputs[i] != NULL; i++)
        standard += is_standard(inputs[i]);
    if (standard > 1)
        return wrong_usage("paint", "standard input can be only one of screen, font and table");
    for (size_t i = 0; i < sizeof inputs / sizeof inputs[0] && inputs[i] != NULL && status == DONE; i++)
        status = judge_output("paint", &options[OUTPUT], inputs[i]);
    return status;
}

/* What can be seen to be wrong before any file is read. */
static int judge_usage(const char *screen, const struct option options[OPTIONS], uint32_t numbers[NUMBERS])
{
    if (options[FONT].value == NULL)
        return wrong_usage("paint", "paint needs --font FONT.hex");
    int status = read_numbers(options, numbers);
    if (status == DONE)
        status = judge_files(screen, options);
    return status == DONE ? judge_numbers(options, numbers) : status;
}

int paint_command(int count, char **words)
{
    struct option options[OPTIONS + 1] = {
        [MODE] = { "--mode", true, NULL }, [COLOUR] = { "--colour", true, NULL }, [H] = { "--h", true, NULL },
        [V] = { "--v", true, NULL }, [RATIO] = { "--ratio", true, NULL }, [FREQUENCY] = { "--frequency", true, NULL },
        [FRAME] = { "--frame", true, NULL }, [WIDTH] = { "--width", true, NULL }, [LINES] = { "--lines", true, NULL },
        [FONT] = { "--font", true, NULL }, [TABLE] = { "--table", true, NULL }, [OFF] = { "--off", false, NULL },
        [TEXT] = { "--text", false, NULL }, [OUTPUT] = { "-o", true, NULL },
    };
    struct usage usage = { "paint", "a SCREEN, or -", 1, 1, options };
    uint32_t numbers[NUMBERS];
    int status;
    if (!read_options(&usage, &count, words, &status))
        return status;
    status = judge_usage(words[0], options, numbers);
    if (status != DONE)
        return status;
    struct font font;
    struct scene scene = { .settings = settings_of(numbers, options[OFF].value == NULL), .frame = numbers[FRAME] };
    struct picture picture = { numbers[WIDTH], numbers[LINES], NULL };
    status = read_scene(words[0], options, &font, &scene);
    if (status != DONE)
        return status;
    warn_of_reach(input_name(words[0]), &scene, &picture);
    const char *path = options[OUTPUT].value;
    return paint_scene(&scene, &picture, path, options[TEXT].value != NULL || path == NULL);
}
