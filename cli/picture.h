/* A painted screen: its size, its dots and its files. */
#ifndef PICTURE_H
#define PICTURE_H

#include <stdio.h>

#include "dirgeflint.h"

/* All that the dots depend on. */
struct scene {
    uint16_t words[DIRGEFLINT_WORDS];
    const uint16_t *font;
    dirgeflint_settings settings;
    uint32_t frame;
};

struct picture {
    uint32_t width, lines;
    uint8_t *dots; /* line by line, to be freed */
};

/* Makes the width and the lines what the scene's cells reach, where they are 0; in mode 1 what their shadows reach, in whatever frame they show. */
dirgeflint_answer measure(const struct scene *scene, struct picture *picture);

/* Paints all lines to dots, which has the room. */
dirgeflint_answer paint_picture(const struct scene *scene, const struct picture *picture);

void write_ppm(FILE *stream, const struct picture *picture);
void write_characters(FILE *stream, const struct picture *picture);

#endif
