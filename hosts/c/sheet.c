/* The fit sheet: fields packed most significant bit first. A fault is found in the order of the fields. The editions differ in their
 * number, in the pixels of a tile, and in the widths of the fields that count up to these. */
#include "sheet.h"

#include <string.h>

#include "bytes.h"

#define OPENING 0x54464954u

typedef struct {
    uint32_t number;
    size_t size;             /* pixels of a tile */
    unsigned colours, count; /* bits of a tile's number of colours, and of a count less 1 */
} Edition;

static const Edition edition_1 = {1, DUNKAFETO_SMALL_TILE, 7, 6}, edition_2 = {2, DUNKAFETO_LARGE_TILE, 9, 8};

static const Edition *edition_for(size_t size) { return size == edition_2.size ? &edition_2 : &edition_1; }

/* By the four bits behind the opening. What has neither number there is read as edition 1, whose reading says what is wrong. */
static const Edition *edition_in(const unsigned char *bytes, size_t len) {
    return len > 4 && bytes[4] >> 4 == edition_2.number ? &edition_2 : &edition_1;
}

/* Where a reader or a writer of bits stands. A fault stays once there is one. */
typedef struct {
    const Edition *edition;
    const unsigned char *from;
    unsigned char *to;
    size_t bits, at;
    uint64_t fault; /* an answer */
} Bits;

static void refuse_at(Bits *b, uint32_t number, size_t index) {
    if (b->fault == DUNKAFETO_DONE)
        b->fault = (uint64_t)index << 8 | number;
}

static void refuse(Bits *b, uint32_t number) { refuse_at(b, number, 0); }

/* A field of up to 32 bits; 0 where it is cut short. */
static uint32_t take(Bits *b, unsigned width) {
    uint32_t value = 0;
    if (b->bits - b->at < width) {
        refuse(b, DUNKAFETO_SHEET_BYTES);
        return 0;
    }
    for (unsigned i = 0; i < width; i++, b->at++)
        value = value << 1 | (b->from[b->at / 8] >> (7 - b->at % 8) & 1u);
    return value;
}

static void give(Bits *b, uint32_t value, unsigned width) {
    for (unsigned i = width; i-- > 0; b->at++)
        if (value >> i & 1u)
            b->to[b->at / 8] |= (unsigned char)(1u << (7 - b->at % 8));
}

/* A component of the colour of an index is finite and of magnitude 2 at most; the comparison is false for NaN. */
static float take_component(Bits *b, size_t index) {
    float x = float_of(take(b, 32));
    if (!(x >= -DUNKAFETO_MOST_COMPONENT && x <= DUNKAFETO_MOST_COMPONENT))
        refuse_at(b, DUNKAFETO_COMPONENTS, index);
    return x;
}

/* So many colours, of indexes from `first` on. */
static void take_colours(Bits *b, float *to, size_t colours, size_t first) {
    for (size_t i = 0; i < 3 * colours && b->fault == DUNKAFETO_DONE; i++)
        to[i] = take_component(b, first + i / 3);
}

/* Opening, edition, sizes, weight. */
static void take_head(Bits *b, Sheet *sheet) {
    if (take(b, 32) != OPENING)
        refuse(b, DUNKAFETO_SHEET_HEAD);
    if (take(b, 4) != b->edition->number)
        refuse(b, DUNKAFETO_SHEET_HEAD);
    sheet->size = b->edition->size;
    sheet->s = take(b, 4) + 1;
    sheet->c = take(b, 4) + 1;
    sheet->t = take(b, 10) + 1;
    sheet->weight = float_of(take(b, 32));
    if (!(sheet->weight > 0 && sheet->weight <= DUNKAFETO_MOST_WEIGHT))
        refuse(b, DUNKAFETO_WEIGHT);
}

static void take_tile(Bits *b, Sheet *sheet, size_t tile) {
    uint32_t colours = take(b, b->edition->colours), sum = 0;
    if (colours > sheet->size)
        refuse(b, DUNKAFETO_TILES);
    sheet->tiles[2 * tile] = (uint32_t)sheet->colours_of_tiles;
    sheet->tiles[2 * tile + 1] = colours;
    for (uint32_t i = 0; i < colours && b->fault == DUNKAFETO_DONE; i++) {
        uint32_t count = take(b, b->edition->count) + 1;
        sum += count;
        if (sum > sheet->size)
            refuse(b, DUNKAFETO_COUNTS);
        if (b->fault != DUNKAFETO_DONE)
            return; /* so a count was read, and a sheet with that many bits has a place for it in ours */
        sheet->counts[sheet->colours_of_tiles] = count;
        take_colours(b, sheet->colours + 3 * sheet->colours_of_tiles, 1, sheet->s * sheet->c + sheet->colours_of_tiles);
        sheet->colours_of_tiles++;
    }
}

/* The bits to the byte's end are 0, and no byte follows. */
static void take_end(Bits *b) {
    unsigned spare = (unsigned)(-b->at % 8);
    if (take(b, spare) != 0 || b->at != b->bits)
        refuse(b, DUNKAFETO_SHEET_BYTES);
}

uint64_t sheet_read(Sheet *sheet, const unsigned char *bytes, size_t len) {
    Bits b = {edition_in(bytes, len), bytes, NULL, 8 * len, 0, DUNKAFETO_DONE};
    memset(sheet, 0, sizeof *sheet);
    if (len > SHEET_MOST_BYTES)
        return DUNKAFETO_SHEET_BYTES;
    take_head(&b, sheet);
    if (b.fault == DUNKAFETO_DONE)
        take_colours(&b, sheet->palette, sheet->s * sheet->c, 0);
    for (size_t i = 0; i < sheet->t && b.fault == DUNKAFETO_DONE; i++)
        take_tile(&b, sheet, i);
    if (b.fault == DUNKAFETO_DONE)
        take_end(&b);
    return b.fault;
}

static void give_colours(Bits *b, const float *from, size_t components) {
    for (size_t i = 0; i < components; i++)
        give(b, bits_of(from[i]), 32);
}

static void give_tile(Bits *b, const Sheet *sheet, size_t tile) {
    uint32_t first = sheet->tiles[2 * tile], colours = sheet->tiles[2 * tile + 1];
    give(b, colours, b->edition->colours);
    for (uint32_t i = first; i < first + colours; i++) {
        give(b, sheet->counts[i] - 1, b->edition->count);
        give_colours(b, sheet->colours + 3 * i, 3);
    }
}

size_t sheet_write(const Sheet *sheet, unsigned char *bytes) {
    Bits b = {edition_for(sheet->size), NULL, bytes, 0, 0, DUNKAFETO_DONE};
    memset(bytes, 0, SHEET_MOST_BYTES);
    give(&b, OPENING, 32);
    give(&b, b.edition->number, 4);
    give(&b, (uint32_t)sheet->s - 1, 4);
    give(&b, (uint32_t)sheet->c - 1, 4);
    give(&b, (uint32_t)sheet->t - 1, 10);
    give(&b, bits_of(sheet->weight), 32);
    give_colours(&b, sheet->palette, 3 * sheet->s * sheet->c);
    for (size_t i = 0; i < sheet->t; i++)
        give_tile(&b, sheet, i);
    return (b.at + 7) / 8;
}
