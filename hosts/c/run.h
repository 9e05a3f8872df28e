/* A run of the trainer on a sheet: the memory that the library is lent, and its calls. */
#ifndef RUN_H
#define RUN_H

#include "sheet.h"

typedef struct {
    const Sheet *sheet;
    size_t n; /* samples: one for each unit of count, in tile order */
    uint32_t samples[2 * DUNKAFETO_MOST_SAMPLES];
    uint32_t order[DUNKAFETO_MOST_SAMPLES];
    uint32_t hints[DUNKAFETO_MOST_TILES];
    float palette[MOST_CELLS];
    float least[MOST_CELLS];
    uint64_t words[DUNKAFETO_WORDS];
} Run;

/* Each call below gives the library's answer: of its number DUNKAFETO_DONE, or why it refused and which entry. */

/* Makes the samples of the sheet. It refuses as the library would where there are none or too many. */
uint64_t run_prepare(Run *run, const Sheet *sheet);

uint64_t run_start(Run *run, uint64_t seed);

/* Makes up to `most` draws, or, at a stop, hands in the colours that the console shows. */
uint64_t run_step(Run *run, uint64_t most);

/* Whether the library accepts the run's memory, which may come from a file. Writes nothing. */
uint64_t run_check(const Run *run);

/* Copies the colours of a finished run. */
uint64_t run_result(const Run *run, float *palette);

size_t run_cells(const Run *run);
int run_finished(const Run *run);

#endif
