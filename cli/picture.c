#include "picture.h"

static dirgeflint_answer paint_line(const struct scene *scene, uint32_t line, uint32_t width, uint8_t *dots)
{
    return dirgeflint_paint(scene->words, DIRGEFLINT_WORDS, scene->font, DIRGEFLINT_FONT_ROWS, scene->settings, scene->frame, line, width, dots, width);
}

/* The scene in another mode, with the display on and in a frame in which every character shows. */
static struct scene shown_in(const struct scene *scene, uint32_t mode)
{
    struct scene shown = *scene;
    shown.settings.on = true;
    shown.settings.mode = mode;
    shown.frame = 0;
    return shown;
}

/* Makes width and lines as large as it takes for all dots of the scene that are not video. */
static dirgeflint_answer include_dots(const struct scene *scene, uint32_t *width, uint32_t *lines)
{
    uint8_t dots[DIRGEFLINT_MOST_WIDTH];
    dirgeflint_answer answer = { DIRGEFLINT_ACCEPTED, 0, 0 };
    for (uint32_t line = 0; line <= DIRGEFLINT_MOST_LINE && answer.number == DIRGEFLINT_ACCEPTED; line++) {
        answer = paint_line(scene, line, DIRGEFLINT_MOST_WIDTH, dots);
        uint32_t reach = answer.number == DIRGEFLINT_ACCEPTED ? DIRGEFLINT_MOST_WIDTH : 0;
        while (reach > 0 && dots[reach - 1] == DIRGEFLINT_VIDEO)
            reach--;
        if (reach > *width)
            *width = reach;
        if (reach > 0 && line >= *lines)
            *lines = line + 1;
    }
    return answer;
}

/* In mode 2 a dot is video just where no cell covers it; in mode 1 a shadow may lie right of the cells. */
dirgeflint_answer measure(const struct scene *scene, struct picture *picture)
{
    enum { SHADOWS = 1, BOXES = 2 };
    uint32_t width = 1, lines = 1;
    struct scene shown = shown_in(scene, BOXES);
    dirgeflint_answer answer = include_dots(&shown, &width, &lines);
    if (answer.number == DIRGEFLINT_ACCEPTED && scene->settings.mode == SHADOWS) {
        shown = shown_in(scene, SHADOWS);
        answer = include_dots(&shown, &width, &lines);
    }
    if (picture->width == 0)
        picture->width = width;
    if (picture->lines == 0)
        picture->lines = lines;
    return answer;
}

dirgeflint_answer paint_picture(const struct scene *scene, const struct picture *picture)
{
    dirgeflint_answer answer = { DIRGEFLINT_ACCEPTED, 0, 0 };
    for (uint32_t line = 0; line < picture->lines && answer.number == DIRGEFLINT_ACCEPTED; line++)
        answer = paint_line(scene, line, picture->width, picture->dots + (size_t)line * picture->width);
    return answer;
}

static void write_rgb(FILE *stream, uint8_t dot)
{
    enum { GREY = 128, FULL = 255 };
    static const unsigned parts[] = { DIRGEFLINT_RED, DIRGEFLINT_GREEN, DIRGEFLINT_BLUE };
    for (size_t i = 0; i < sizeof parts / sizeof parts[0]; i++)
        fputc(dot == DIRGEFLINT_VIDEO ? GREY : dot & parts[i] ? FULL : 0, stream);
}

void write_ppm(FILE *stream, const struct picture *picture)
{
    size_t dots = (size_t)picture->width * picture->lines;
    fprintf(stream, "P6\n%lu %lu\n255\n", (unsigned long)picture->width, (unsigned long)picture->lines);
    for (size_t i = 0; i < dots; i++)
        write_rgb(stream, picture->dots[i]);
}

void write_characters(FILE *stream, const struct picture *picture)
{
    static const char of_colour[] = ".:+=*%@#";
    const uint8_t *dot = picture->dots;
    for (uint32_t line = 0; line < picture->lines; line++) {
        for (uint32_t i = 0; i < picture->width; i++, dot++)
            fputc(*dot == DIRGEFLINT_VIDEO ? ' ' : of_colour[*dot & DIRGEFLINT_WHITE], stream);
        fputc('\n', stream);
    }
}
