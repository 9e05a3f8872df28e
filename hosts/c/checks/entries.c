/* The entry that a refusal names: found by the host's reader in sheets with one or two bad colours, and put into words for each number.
 * Prints a line for each: 'passed NAME' or 'failed NAME'. */
#include <inttypes.h>
#include <math.h>
#include <stdio.h>
#include <string.h>

#include "../entry.h"

enum { S = 2, C = 3, CELLS = S * C, T = 4, COLOURS = 6, NONE = -1 };

/* Tile 0 has two colours, tile 1 none, tile 2 one, tile 3 three. */
static void fill(Sheet *sheet, size_t size) {
    static const uint32_t tiles[2 * T] = {0, 2, 2, 0, 2, 1, 3, 3};
    memset(sheet, 0, sizeof *sheet);
    sheet->size = size, sheet->s = S, sheet->c = C, sheet->t = T, sheet->weight = 1.0f, sheet->colours_of_tiles = COLOURS;
    memcpy(sheet->tiles, tiles, sizeof tiles);
    for (int i = 0; i < COLOURS; i++)
        sheet->counts[i] = 1;
}

/* The last component of the colour of an index. */
static void spoil(Sheet *sheet, int index) {
    if (index != NONE)
        *(index < CELLS ? sheet->palette + 3 * index + 2 : sheet->colours + 3 * (index - CELLS) + 2) = NAN;
}

static void report(const char *name, Entry found, const char *expected) {
    printf("%s %s: '%s'\n", strcmp(found.words, expected) == 0 ? "passed" : "failed", name, expected);
}

/* Sheets with these bad colours, and which is named. */
static const struct {
    int bad, too;
    const char *words;
} sheets[] = {
    {0, NONE, "palette colour 0 (subpalette 0, colour 0)"},
    {2, NONE, "palette colour 2 (subpalette 0, colour 2)"},
    {4, NONE, "palette colour 4 (subpalette 1, colour 1)"},
    {5, 3, "palette colour 3 (subpalette 1, colour 0)"},
    {6, 5, "palette colour 5 (subpalette 1, colour 2)"},
    {6, NONE, "tile 0, colour 0"},
    {7, NONE, "tile 0, colour 1"},
    {8, NONE, "tile 2, colour 0"},
    {9, NONE, "tile 3, colour 0"},
    {11, NONE, "tile 3, colour 2"},
    {11, 10, "tile 3, colour 1"},
    {8, 7, "tile 0, colour 1"},
};

static void refused_sheets(const char *name, size_t size) {
    static Sheet sheet, read;
    static unsigned char bytes[SHEET_MOST_BYTES];
    for (size_t i = 0; i < sizeof sheets / sizeof sheets[0]; i++) {
        int bad = sheets[i].bad, too = sheets[i].too, first = too == NONE || bad < too ? bad : too;
        Entry other = {"another number or index"};
        fill(&sheet, size);
        spoil(&sheet, bad);
        spoil(&sheet, too);
        uint64_t answer = sheet_read(&read, bytes, sheet_write(&sheet, bytes));
        int good = dunkafeto_number(answer) == DUNKAFETO_COMPONENTS && dunkafeto_index(answer) == (size_t)first;
        report(name, good ? entry_of(answer, &read, CELLS) : other, sheets[i].words);
    }
}

/* Answers of the calls, with the palette colours that they count. */
static const struct {
    uint32_t number;
    uint64_t value;
    size_t palette;
    const char *words;
} answers[] = {
    {7, 5, CELLS, "palette colour 5 (subpalette 1, colour 2)"},
    {7, 6, CELLS, "tile 0, colour 0"},
    {7, 11, CELLS, "tile 3, colour 2"},
    {7, 0, 0, "tile 0, colour 0"},
    {7, 2, 0, "tile 2, colour 0"},
    {7, 5, 0, "tile 3, colour 2"},
    {16, 0, 0, "working colour 0 (subpalette 0, colour 0)"},
    {16, 5, 0, "working colour 5 (subpalette 1, colour 2)"},
    {16, 6, 0, "kept colour 0 (subpalette 0, colour 0)"},
    {16, 10, 0, "kept colour 4 (subpalette 1, colour 1)"},
    {17, 0, 0, "handed-in colour 0 (subpalette 0, colour 0)"},
    {17, 3, 0, "handed-in colour 3 (subpalette 1, colour 0)"},
    {0, 3, 0, ""}, /* three draws */
};

static void answers_in_words(void) {
    static Sheet sheet;
    char name[80];
    fill(&sheet, DUNKAFETO_SMALL_TILE);
    for (size_t i = 0; i < sizeof answers / sizeof answers[0]; i++) {
        snprintf(name, sizeof name, "entry of %" PRIu32 " at %" PRIu64, answers[i].number, answers[i].value);
        report(name, entry_of(answers[i].value << 8 | answers[i].number, &sheet, answers[i].palette), answers[i].words);
    }
}

static int names_an_entry(uint32_t number) {
    return number == DUNKAFETO_COMPONENTS || number == DUNKAFETO_WORKING_COLOURS || number == DUNKAFETO_HANDED_COLOURS;
}

static void no_other_number(void) {
    static Sheet sheet;
    Entry found = {""};
    fill(&sheet, DUNKAFETO_SMALL_TILE);
    for (uint32_t number = 0; number < 256 && *found.words == '\0'; number++)
        if (!names_an_entry(number))
            found = entry_of(number, &sheet, 0);
    report("entry of each other number", found, "");
}

int main(void) {
    refused_sheets("entry of a refused sheet", DUNKAFETO_SMALL_TILE);
    refused_sheets("entry of a refused sheet of edition 2", DUNKAFETO_LARGE_TILE);
    answers_in_words();
    no_other_number();
    return 0;
}
