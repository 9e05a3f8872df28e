/* A run of the trainer on a sheet: the memory that the library is lent, and its calls. */
#include "run.h"

#include <string.h>

#include "console.h"

/* What every call of a run is lent. */
#define SIZES(r) (r)->sheet->size, (r)->sheet->s, (r)->sheet->c, (r)->sheet->t, (r)->n, (r)->sheet->weight
#define TABLES(r)                                                                                                                  \
    (r)->sheet->tiles, 2 * (r)->sheet->t, (r)->sheet->colours, 3 * (r)->sheet->colours_of_tiles, (r)->sheet->counts,               \
        (r)->sheet->colours_of_tiles, (r)->samples, 2 * (r)->n
#define MEMORY(r)                                                                                                                  \
    (r)->order, (r)->n, (r)->hints, (r)->sheet->t, (r)->palette, run_cells(r), (r)->least, run_cells(r), (r)->words,              \
        DUNKAFETO_WORDS

size_t run_cells(const Run *run) { return 3 * run->sheet->s * run->sheet->c; }

int run_finished(const Run *run) { return run->words[DUNKAFETO_STAGE] == DUNKAFETO_FINISHED; }

/* One sample for each unit of count; 0 where there is no room for all. */
static int add_samples(Run *run, uint32_t tile, uint32_t place, uint32_t count) {
    if (DUNKAFETO_MOST_SAMPLES - run->n < count)
        return 0;
    for (uint32_t i = 0; i < count; i++, run->n++) {
        run->samples[2 * run->n] = tile;
        run->samples[2 * run->n + 1] = place;
    }
    return 1;
}

uint64_t run_prepare(Run *run, const Sheet *sheet) {
    memset(run, 0, sizeof *run);
    run->sheet = sheet;
    for (uint32_t tile = 0; tile < sheet->t; tile++) {
        uint32_t first = sheet->tiles[2 * tile], colours = sheet->tiles[2 * tile + 1];
        for (uint32_t place = 0; place < colours; place++)
            if (!add_samples(run, tile, place, sheet->counts[first + place]))
                return DUNKAFETO_SIZES;
    }
    return run->n == 0 ? DUNKAFETO_NO_SAMPLES : DUNKAFETO_DONE;
}

uint64_t run_start(Run *run, uint64_t seed) { return dunkafeto_start(SIZES(run), seed, TABLES(run), MEMORY(run)); }

uint64_t run_step(Run *run, uint64_t most) {
    float reduced[MOST_CELLS];
    if (dunkafeto_draws_in(run->words[DUNKAFETO_STAGE]))
        return dunkafeto_advance(SIZES(run), TABLES(run), MEMORY(run), most);
    console_reduce(run->palette, reduced, run_cells(run) / 3);
    return dunkafeto_hand_in(SIZES(run), TABLES(run), MEMORY(run), reduced, run_cells(run));
}

uint64_t run_result(const Run *run, float *palette) {
    return dunkafeto_result(SIZES(run), TABLES(run), MEMORY(run), palette, run_cells(run));
}

/* `result` makes every check of the memory before it looks at the moment, and only copies. */
uint64_t run_check(const Run *run) {
    float unused[MOST_CELLS];
    uint64_t answer = run_result(run, unused);
    return dunkafeto_number(answer) == DUNKAFETO_MOMENT && !run_finished(run) ? DUNKAFETO_DONE : answer;
}
