#include "reach.h"

enum { RETURN = 62, SPACE = 63, STEP = 4 }; /* codes, and what h, v and spacings count in */

/* Where the next cell goes. */
struct cursor {
    uint64_t dot, line, size;
};

static void include_cell(struct reach *reach, const struct cursor *at)
{
    uint64_t right = at->dot + DIRGEFLINT_CELL_DOTS * at->size, bottom = at->line + DIRGEFLINT_CELL_ROWS * at->size;
    if (right > reach->dots)
        reach->dots = right;
    if (bottom > reach->lines)
        reach->lines = bottom;
}

/* The row that ends is as high as its size says, with a cell or without; the return's own size is the next row's. */
static struct cursor next_row(struct cursor at, uint64_t left, unsigned word)
{
    struct cursor next = { left, at.line + DIRGEFLINT_CELL_ROWS * at.size + STEP * (word & 3), (word >> 2 & 3) + 1 };
    return next;
}

struct reach find_reach(const uint16_t words[DIRGEFLINT_WORDS], uint32_t h, uint32_t v)
{
    struct reach reach = { 0, 0 };
    uint64_t left = (uint64_t)STEP * h;
    struct cursor at = { left, (uint64_t)STEP * v, 1 };
    for (int i = 0; i < DIRGEFLINT_WORDS; i++) {
        unsigned word = words[i], code = word >> 4;
        if (code == SPACE && (word & 1) == 1)
            break;
        if (code == RETURN) {
            at = next_row(at, left, word);
        } else {
            include_cell(&reach, &at);
            at.dot += DIRGEFLINT_CELL_DOTS * at.size;
        }
    }
    return reach;
}
