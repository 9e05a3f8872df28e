/* The fit sheet: tiles with their colours, and a palette. Edition 1 is for tiles of 64 pixels, edition 2 for tiles of 256. */
#ifndef SHEET_H
#define SHEET_H

#include <stddef.h>
#include <stdint.h>

#include "dunkafeto.h"

#define SHEET_MOST_BYTES 65536
/* A colour of a tile takes 102 bits in edition 1, 104 in edition 2. */
#define SHEET_MOST_TILE_COLOURS (SHEET_MOST_BYTES * 8 / 102)
#define MOST_CELLS (3 * DUNKAFETO_MOST_SUBPALETTES * DUNKAFETO_MOST_COLOURS)

typedef struct {
    size_t size, s, c, t; /* pixels of a tile, which say the edition; subpalettes, colours of each, tiles */
    float weight;
    size_t colours_of_tiles;
    float palette[MOST_CELLS];                   /* 3 * s * c are in use */
    uint32_t tiles[2 * DUNKAFETO_MOST_TILES];    /* per tile: first colour, number of colours */
    float colours[3 * SHEET_MOST_TILE_COLOURS];  /* per colour: l, a, b */
    uint32_t counts[SHEET_MOST_TILE_COLOURS];    /* pixels that have the colour */
} Sheet;

/* Reads a sheet of either edition: an answer as the library's, DUNKAFETO_DONE or the number of the first fault with its index, which for
 * DUNKAFETO_COMPONENTS counts the palette's colours and then the tiles'. Of a refused sheet there is what stands before the fault. */
uint64_t sheet_read(Sheet *sheet, const unsigned char *bytes, size_t len);

/* Writes a sheet that was read, with any palette, in the edition of its size, and gives its length; there is room for
 * SHEET_MOST_BYTES. */
size_t sheet_write(const Sheet *sheet, unsigned char *bytes);

#endif
