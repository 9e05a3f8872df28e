/* Sheets of random tiles, from a seed: the same bits on every machine, since what is drawn is a whole number and a colour's component
 * is such a number divided by a power of two, which is exact. */
#include "drawn.h"

#include <string.h>

uint64_t drawn_next(uint64_t *state) {
    uint64_t z = *state += UINT64_C(0x9e3779b97f4a7c15);
    z = (z ^ z >> 30) * UINT64_C(0xbf58476d1ce4e5b9);
    z = (z ^ z >> 27) * UINT64_C(0x94d049bb133111eb);
    return z ^ z >> 31;
}

static uint32_t below(uint64_t *state, uint32_t most) { return (uint32_t)(drawn_next(state) % most); }

/* From `low` to `high` steps, as a float. */
static float between(uint64_t *state, int low, int high, int steps) {
    return (float)(low + (int)below(state, (uint32_t)(high - low + 1))) / (float)steps;
}

/* Of odd seeds the colours stand on a grid of 64 steps, where distances tie. */
static void add_colour(Sheet *sheet, uint64_t *state, uint32_t count, int steps) {
    size_t i = sheet->colours_of_tiles++;
    sheet->counts[i] = count;
    sheet->colours[3 * i] = between(state, 0, steps, steps);
    sheet->colours[3 * i + 1] = between(state, -steps / 4, steps / 4, steps);
    sheet->colours[3 * i + 2] = between(state, -steps / 4, steps / 4, steps);
}

/* Colours of a large tile: one, as many as it has pixels, or any number up to 80. */
static uint32_t colours_of_large(size_t tile, uint64_t *state) {
    switch (tile % 8) {
    case 2: return DUNKAFETO_LARGE_TILE;
    case 6: return 1;
    default: return 1 + below(state, 80);
    }
}

static uint32_t colours_of(const Sheet *sheet, size_t tile, uint64_t *state, uint64_t seed) {
    if (seed == 0)
        return 1;
    if (tile % 5 == 4)
        return 0;
    return sheet->size == DUNKAFETO_LARGE_TILE ? colours_of_large(tile, state) : 1 + below(state, 4);
}

/* Pixels of a colour, so that those of all together are not too many. */
static uint32_t count_of(const Sheet *sheet, size_t tile, uint32_t colours, uint64_t *state, uint64_t seed) {
    uint32_t size = (uint32_t)sheet->size;
    int full = seed == 0 || (size == DUNKAFETO_LARGE_TILE && tile % 8 == 6);
    return full ? size : 1 + below(state, size / colours);
}

static void add_tile(Sheet *sheet, size_t tile, uint64_t *state, uint64_t seed) {
    uint32_t colours = colours_of(sheet, tile, state, seed);
    int steps = seed % 2 == 1 ? 64 : 1 << 20;
    sheet->tiles[2 * tile] = (uint32_t)sheet->colours_of_tiles;
    sheet->tiles[2 * tile + 1] = colours;
    for (uint32_t i = 0; i < colours; i++)
        add_colour(sheet, state, count_of(sheet, tile, colours, state, seed), steps);
}

void drawn_sheet(Sheet *sheet, size_t size, size_t s, size_t c, size_t t, uint64_t seed) {
    static const float weights[4] = {2.15f, 1.0f, 0.125f, 16.0f};
    uint64_t state = seed;
    memset(sheet, 0, sizeof *sheet);
    sheet->size = size, sheet->s = s, sheet->c = c, sheet->t = t;
    sheet->weight = weights[seed / 2 % 4];
    for (size_t tile = 0; tile < t; tile++)
        add_tile(sheet, tile, &state, seed);
}
