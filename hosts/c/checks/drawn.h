/* Sheets of random tiles, from a seed: the same bits on every machine. */
#ifndef DRAWN_H
#define DRAWN_H

#include "../sheet.h"

/* The public SplitMix64: the next output, and the state after it. */
uint64_t drawn_next(uint64_t *state);

/* Fills a sheet of tiles of a size, so many subpalettes, colours of each and tiles; its palette is black. Every fifth tile is empty. With
 * seed 0 each tile has one colour, for all its pixels; so has, of large tiles, one in eight, and another one in eight has a colour for
 * each pixel. A sheet has room for DRAWN_MOST_LARGE large tiles. */
void drawn_sheet(Sheet *sheet, size_t size, size_t s, size_t c, size_t t, uint64_t seed);

#define DRAWN_MOST_LARGE 40

#endif
