/* The entry that a refusal names, in words: dunkafeto_index counts colours through whole tables, a person looks for a tile or a
 * subpalette and a place in it. Both count from 0. */
#include "entry.h"

#include <stdio.h>

static Entry of_palette(const char *which, size_t colour, const Sheet *sheet) {
    Entry entry;
    snprintf(entry.words, sizeof entry.words, "%s colour %zu (subpalette %zu, colour %zu)", which, colour, colour / sheet->c,
             colour % sheet->c);
    return entry;
}

/* Of a sheet that was refused the table reaches up to the tile with the bad colour; the lines after it are zeros. */
static Entry of_tiles(size_t colour, const Sheet *sheet) {
    Entry entry = {""};
    for (size_t tile = 0; tile < sheet->t; tile++) {
        size_t first = sheet->tiles[2 * tile], colours = sheet->tiles[2 * tile + 1];
        if (first <= colour && colour < first + colours)
            snprintf(entry.words, sizeof entry.words, "tile %zu, colour %zu", tile, colour - first);
    }
    return entry;
}

Entry entry_of(uint64_t answer, const Sheet *sheet, size_t palette) {
    size_t index = dunkafeto_index(answer), cells = sheet->s * sheet->c;
    Entry none = {""};
    switch (dunkafeto_number(answer)) {
    case DUNKAFETO_COMPONENTS: return index < palette ? of_palette("palette", index, sheet) : of_tiles(index - palette, sheet);
    case DUNKAFETO_WORKING_COLOURS: return index < cells ? of_palette("working", index, sheet) : of_palette("kept", index - cells, sheet);
    case DUNKAFETO_HANDED_COLOURS: return of_palette("handed-in", index, sheet);
    }
    return none;
}
