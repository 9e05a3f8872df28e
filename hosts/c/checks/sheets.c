/* The same bits on every machine: trains the sheets of a list, made from their seeds, and holds them to the checksums that stand there.
 *
 *     sheets replay [SIZE] <LIST     prints how many sheets there are and how many differ; status 0 where none does, 1 where one does,
 *                                    2 where a line cannot be read or a sheet is refused
 *     sheets make COUNT [SIZE]       prints a list of so many sheets, of seeds 1 on, with the checksums that this machine comes to
 *
 * SIZE is the tiles' of all sheets of the list: 256, or 64 where it is not named.
 *
 * A line of a list that does not begin with # is SEED S C T SHEET MEMORY. SHEET is the checksum of the trained sheet, reduced to the
 * console's colours, as the host prints it. MEMORY is that of all that the library wrote: the run's memory after each call, in calls
 * of 100 draws, and each tile's subpalette, so that it sees every bit which the reduction cuts off. The record's word of the sizes is not
 * in it, since it never changes: it is held to the job after each call, and the lists are as they were before there was such a word. */
#include <inttypes.h>
#include <stdio.h>
#include <stdlib.h>
#include <string.h>

#include "../bytes.h"
#include "../run.h"
#include "drawn.h"

enum { GOOD = 0, DIFFERS = 1, USELESS = 2, ALLOTMENT = 100, LINE = 200 };

typedef struct {
    uint64_t seed, s, c, t, sheet, memory;
    size_t size;
} Line;

static uint64_t with_u32s(uint64_t before, const uint32_t *values, size_t len) {
    static unsigned char bytes[4 * DUNKAFETO_MOST_SAMPLES];
    return fnv1a(before, bytes, (size_t)(put_u32s(bytes, values, len) - bytes));
}

static uint64_t with_floats(uint64_t before, const float *values, size_t len) {
    static unsigned char bytes[4 * MOST_CELLS];
    return fnv1a(before, bytes, (size_t)(put_floats(bytes, values, len) - bytes));
}

/* What the record has to say of the job. */
static uint64_t sizes_of(const Run *run) {
    return (uint64_t)run->sheet->s << 48 | (uint64_t)run->sheet->c << 32 | (uint64_t)run->sheet->t << 16 | run->n;
}

/* The checksum goes on over the whole memory of the run; it is another where the record's sizes are not the job's. */
static uint64_t with_memory(uint64_t before, const Run *run) {
    unsigned char bytes[8];
    before = with_u32s(before, run->order, run->n);
    before = with_u32s(before, run->hints, run->sheet->t);
    before = with_floats(before, run->palette, run_cells(run));
    before = with_floats(before, run->least, run_cells(run));
    for (int i = 0; i < DUNKAFETO_JOB_SIZES; i++)
        before = fnv1a(before, bytes, (size_t)(put_u64(bytes, run->words[i]) - bytes));
    return run->words[DUNKAFETO_JOB_SIZES] == sizes_of(run) ? before : ~before;
}

/* The checksum goes on over the subpalettes of the tiles, by the trained palette. */
static uint64_t with_subpalettes(uint64_t *memory, const Sheet *sheet) {
    static uint32_t hints[DUNKAFETO_MOST_TILES], subpalettes[DUNKAFETO_MOST_TILES];
    uint64_t answer = dunkafeto_assign(sheet->size, sheet->s, sheet->c, sheet->t, sheet->weight, sheet->tiles, 2 * sheet->t, sheet->colours,
                                       3 * sheet->colours_of_tiles, sheet->counts, sheet->colours_of_tiles, sheet->palette,
                                       3 * sheet->s * sheet->c, hints, sheet->t, subpalettes, sheet->t);
    *memory = with_u32s(*memory, subpalettes, sheet->t);
    return answer;
}

static int done(uint64_t answer) { return dunkafeto_number(answer) == DUNKAFETO_DONE; }

/* Makes the sheet of a line and trains it: the line's two checksums, or the answer that refused. */
static uint64_t train(Line *line) {
    static Sheet sheet;
    static Run run;
    static unsigned char bytes[SHEET_MOST_BYTES];
    uint64_t answer;
    drawn_sheet(&sheet, line->size, line->s, line->c, line->t, line->seed);
    answer = run_prepare(&run, &sheet);
    if (done(answer))
        answer = run_start(&run, line->seed);
    line->memory = with_memory(FNV_START, &run);
    while (done(answer) && !run_finished(&run)) {
        answer = run_step(&run, ALLOTMENT);
        line->memory = with_memory(line->memory, &run);
    }
    if (done(answer))
        answer = run_result(&run, sheet.palette);
    if (done(answer))
        answer = with_subpalettes(&line->memory, &sheet);
    if (done(answer))
        line->sheet = fnv1a(FNV_START, bytes, sheet_write(&sheet, bytes));
    return answer;
}

/* Within the sizes that there is room for. */
static int is_line(const Line *line, int fields) {
    size_t most = line->size == DUNKAFETO_LARGE_TILE ? DRAWN_MOST_LARGE : 256;
    return fields == 6 && line->s <= DUNKAFETO_MOST_SUBPALETTES && line->c <= DUNKAFETO_MOST_COLOURS && line->t <= most;
}

static int useless(const char *text, const char *why) {
    printf("%s: %s\n", text, why);
    return USELESS;
}

static int replay(size_t size) {
    char text[LINE];
    long sheets = 0, differ = 0;
    while (fgets(text, sizeof text, stdin) != NULL) {
        Line want, got;
        int end = 0, fields = sscanf(text, "%" SCNu64 " %" SCNu64 " %" SCNu64 " %" SCNu64 " %" SCNx64 " %" SCNx64 " %n", &want.seed, &want.s,
                                     &want.c, &want.t, &want.sheet, &want.memory, &end);
        want.size = size;
        if (text[0] == '#')
            continue;
        if (!is_line(&want, fields) || text[end] != '\0')
            return useless(text, "no line of a list");
        got = want;
        if (!done(train(&got)))
            return useless(text, "refused");
        sheets++;
        differ += got.sheet != want.sheet || got.memory != want.memory;
    }
    printf("%ld sheets, %ld differ\n", sheets, differ);
    return sheets == 0 ? USELESS : differ == 0 ? GOOD : DIFFERS;
}

/* Mostly small; every sixteenth has all subpalettes and colours. */
static int make(uint64_t count, size_t size) {
    for (uint64_t seed = 1; seed <= count; seed++) {
        uint64_t state = ~seed;
        Line line = {seed, 16, 16, 1 + drawn_next(&state) % 32, 0, 0, size};
        if (seed % 16 != 0) {
            line.s = 1 + drawn_next(&state) % 8;
            line.c = 1 + drawn_next(&state) % 8;
        }
        if (!done(train(&line)))
            return USELESS;
        printf("%" PRIu64 " %" PRIu64 " %" PRIu64 " %" PRIu64 " %016" PRIx64 " %016" PRIx64 "\n", line.seed, line.s, line.c, line.t, line.sheet,
               line.memory);
    }
    return GOOD;
}

/* The word that names it is NULL where there is none. */
static size_t size_in(const char *word) { return word == NULL ? DUNKAFETO_SMALL_TILE : strtoul(word, NULL, 10); }

int main(int argc, char **argv) {
    if ((argc == 2 || argc == 3) && strcmp(argv[1], "replay") == 0)
        return replay(size_in(argv[2]));
    if ((argc == 3 || argc == 4) && strcmp(argv[1], "make") == 0)
        return make(strtoull(argv[2], NULL, 10), size_in(argv[3]));
    return useless("sheets", "replay [SIZE] <LIST, or make COUNT [SIZE]");
}
