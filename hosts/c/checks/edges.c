/* The host's reader and writer of sheets at the edges of what a sheet of either edition may hold. Prints a line for each: 'passed NAME'
 * or 'failed NAME'. */
#include <inttypes.h>
#include <math.h>
#include <stdio.h>
#include <string.h>

#include "../sheet.h"

typedef void Edit(Sheet *sheet);

/* One subpalette of one colour; tile 0 with two colours, tile 1 empty. */
static void fill(Sheet *sheet, size_t size) {
    memset(sheet, 0, sizeof *sheet);
    sheet->size = size, sheet->s = sheet->c = 1, sheet->t = 2, sheet->weight = 1.0f, sheet->colours_of_tiles = 2;
    sheet->tiles[1] = sheet->tiles[2] = 2;
    sheet->counts[0] = sheet->counts[1] = 1;
}

static void nothing(Sheet *sheet) { (void)sheet; }
static void counts_of_size(Sheet *sheet) { sheet->counts[0] = (uint32_t)sheet->size - 1; }
static void counts_above_size(Sheet *sheet) { sheet->counts[0] = (uint32_t)sheet->size; }
static void counts_of_65(Sheet *sheet) { sheet->counts[0] = 64; }
static void component_2(Sheet *sheet) { sheet->colours[5] = -2.0f; }
static void component_above_2(Sheet *sheet) { sheet->colours[5] = -2.0000002f; }
static void component_nan(Sheet *sheet) { sheet->colours[0] = NAN; }
static void palette_above_2(Sheet *sheet) { sheet->palette[2] = 2.0000002f; }
static void palette_infinite(Sheet *sheet) { sheet->palette[0] = INFINITY; }
static void two_components(Sheet *sheet) { sheet->colours[2] = sheet->colours[3] = NAN; }
static void palette_and_tile(Sheet *sheet) { sheet->palette[2] = sheet->colours[0] = NAN; }
static void count_and_component(Sheet *sheet) { counts_above_size(sheet), sheet->colours[3] = NAN; }
static void component_and_count(Sheet *sheet) { sheet->colours[0] = NAN, counts_above_size(sheet); }
static void weight_16(Sheet *sheet) { sheet->weight = 16.0f; }
static void weight_above_16(Sheet *sheet) { sheet->weight = 16.000002f; }
static void weight_0(Sheet *sheet) { sheet->weight = 0.0f; }
static void weight_nan(Sheet *sheet) { sheet->weight = NAN; }
static void all_sizes(Sheet *sheet) { sheet->s = sheet->c = 16, sheet->t = 1024, sheet->tiles[3] = 0; }

/* A tile of so many colours, each once. */
static void tile_of(Sheet *sheet, uint32_t colours) {
    sheet->tiles[1] = sheet->tiles[2] = colours;
    sheet->colours_of_tiles = colours;
    for (uint32_t i = 0; i < colours; i++)
        sheet->counts[i] = 1;
}
static void tile_of_size(Sheet *sheet) { tile_of(sheet, (uint32_t)sheet->size); }
static void tile_above_size(Sheet *sheet) { tile_of(sheet, (uint32_t)sheet->size + 1); }
static void tile_of_all_bits(Sheet *sheet) { tile_of(sheet, 2 * (uint32_t)sheet->size - 1); }
static void tile_of_65(Sheet *sheet) { tile_of(sheet, 65); }

static const struct {
    const char *name;
    Edit *edit;
    uint32_t number;
    size_t index;
} edits[] = {
    {"in order", nothing, 0, 0},
    {"counts of a tile's size", counts_of_size, 0, 0},
    {"counts of one more", counts_above_size, 6, 0},
    {"component 2", component_2, 0, 0},
    {"component above 2", component_above_2, 7, 2},
    {"component NaN", component_nan, 7, 1},
    {"palette above 2", palette_above_2, 7, 0},
    {"palette infinite", palette_infinite, 7, 0},
    {"two components", two_components, 7, 1},
    {"palette and tile", palette_and_tile, 7, 0},
    {"a count, then a component", count_and_component, 6, 0},
    {"a component, then a count", component_and_count, 7, 1},
    {"weight 16", weight_16, 0, 0},
    {"weight above 16", weight_above_16, 4, 0},
    {"weight 0", weight_0, 4, 0},
    {"weight NaN", weight_nan, 4, 0},
    {"sizes 16, 16 and 1,024", all_sizes, 0, 0},
    {"as many colours in a tile as pixels", tile_of_size, 0, 0},
    {"one colour more", tile_above_size, 5, 0},
    {"a number of colours that is all ones", tile_of_all_bits, 5, 0},
};

static unsigned char bytes[SHEET_MOST_BYTES + 1];

static void report_at(const char *name, size_t size, uint64_t answer, uint32_t number, size_t index) {
    int good = dunkafeto_number(answer) == number && dunkafeto_index(answer) == index && dunkafeto_draws(answer) == 0;
    printf("%s sheet of tiles of %zu, %s: %" PRIu32 " at %zu\n", good ? "passed" : "failed", size, name, number, index);
}

/* What is accepted comes back whole; tiles past the second are empty and begin where that ends. */
static uint64_t back(const Sheet *sheet, size_t len) {
    static Sheet read;
    uint64_t answer = sheet_read(&read, bytes, len);
    for (size_t i = 2; i < sheet->t; i++)
        read.tiles[2 * i] = 0;
    return answer == DUNKAFETO_DONE && memcmp(sheet, &read, sizeof read) != 0 ? UINT64_MAX : answer;
}

static uint64_t edited(Edit *edit, size_t size) {
    static Sheet sheet;
    fill(&sheet, size);
    edit(&sheet);
    return back(&sheet, sheet_write(&sheet, bytes));
}

static void each_edit(size_t size) {
    for (size_t i = 0; i < sizeof edits / sizeof edits[0]; i++)
        report_at(edits[i].name, size, edited(edits[i].edit, size), edits[i].number, edits[i].index);
}

/* What large tiles have room for and small ones have not. */
static void large_alone(void) {
    report_at("65 colours", DUNKAFETO_SMALL_TILE, edited(tile_of_65, DUNKAFETO_SMALL_TILE), 5, 0);
    report_at("65 colours", DUNKAFETO_LARGE_TILE, edited(tile_of_65, DUNKAFETO_LARGE_TILE), 0, 0);
    report_at("counts of 65", DUNKAFETO_SMALL_TILE, edited(counts_of_65, DUNKAFETO_SMALL_TILE), 6, 0);
    report_at("counts of 65", DUNKAFETO_LARGE_TILE, edited(counts_of_65, DUNKAFETO_LARGE_TILE), 0, 0);
}

/* The first bytes of the sheet that was written. */
static void report(const char *name, size_t size, size_t len, uint32_t number) {
    static Sheet read;
    report_at(name, size, sheet_read(&read, bytes, len), number, 0);
}

/* The ends of a sheet, and its last bits: one is spare or more. */
static void each_end(size_t size) {
    static Sheet sheet;
    fill(&sheet, size);
    sheet.t = 3;
    size_t len = sheet_write(&sheet, bytes);
    memset(bytes + len, 0, sizeof bytes - len);
    report("a byte more", size, len + 1, 13);
    report("a byte less", size, len - 1, 13);
    report("no byte", size, 0, 13);
    report("the opening alone", size, 4, 13);
    report("opening and edition alone", size, 5, 13);
    report("65,537 bytes", size, sizeof bytes, 13);
    bytes[len - 1] |= 1;
    report("a spare bit set", size, len, 13);
    bytes[0] = 0;
    report("another opening", size, len, 12);
}

/* A sheet of which the edition alone is changed, to a number that there is not. */
static void each_edition(size_t size) {
    static Sheet sheet;
    fill(&sheet, size);
    size_t len = sheet_write(&sheet, bytes);
    for (unsigned number = 0; number < 16; number++) {
        char name[40];
        bytes[4] = (unsigned char)(number << 4 | (bytes[4] & 15));
        snprintf(name, sizeof name, "edition %u", number);
        if (number != 1 && number != 2)
            report(name, size, len, 12);
    }
}

/* The opening and the edition of what is written. */
static void writes_edition(size_t size, unsigned number) {
    static Sheet sheet;
    fill(&sheet, size);
    sheet_write(&sheet, bytes);
    int good = memcmp(bytes, "TFIT", 4) == 0 && bytes[4] >> 4 == number;
    printf("%s tiles of %zu written as edition %u\n", good ? "passed" : "failed", size, number);
}

int main(void) {
    static const size_t sizes[2] = {DUNKAFETO_SMALL_TILE, DUNKAFETO_LARGE_TILE};
    for (int i = 0; i < 2; i++) {
        each_edit(sizes[i]);
        each_end(sizes[i]);
        each_edition(sizes[i]);
        writes_edition(sizes[i], (unsigned)i + 1);
    }
    large_alone();
    return 0;
}
