/* dunkafeto.h: the palette trainer's five calls, for hosts in C99 or C++.
 *
 * Link with libdunkafeto.a (`./build dunkafeto`; for Linux on x86-64 and on aarch64, with the same bits on both). Nothing is
 * allocated, nothing is kept between calls, no call reads or writes a file, a clock or memory that it was not lent. Every call answers
 * every input that keeps to "What the caller owes" below: each checks all its arguments itself. 8 KiB of stack are enough (5,128 bytes
 * were measured for the largest job of either tile size, with the older kit; hosts/c/test measures again); the one function that is
 * called from outside is memset.
 *
 * A job is S subpalettes of C colours, and T tiles, each with its colours and how often each occurs. Colours are Oklab: three
 * floats, l, a, b. Training draws n samples in an order of its own, and stops three times for the host to reduce the colours to
 * those that its console has. All tiles of a job have one size, which every call is told first: DUNKAFETO_SMALL_TILE, 64 pixels, for
 * tiles of 8 by 8, or DUNKAFETO_LARGE_TILE, 256 pixels, for tiles of 16 by 16.
 *
 * Order of calls:
 *
 *     start, then as the stage (word 1 of the record) says:
 *       0, 1, 2, 4      advance, as often as you like, with any allotment of draws
 *       3, 5, 6         a stop: reduce the palette's colours, hand_in
 *       7               finished: result, or read `palette`
 *
 * A whole run makes (S + C + 18) * (n / 10) draws, whatever the allotments. With n below 10 it makes none.
 * To save a run, keep order, hints, palette, least and words (and the job) between two calls; to go on, lend them again with that
 * job. The record knows its job's S, C, T and n, so that a job of others is refused with 20. It does not hold the tile size: keep
 * that with the job. A run that is taken up with the other size goes on wherever the job passes there.
 * WARNING: two jobs of equal sizes are still not told apart. Keep a checksum of the job beside the run, and compare it first.
 *
 * Example, a whole program:
 *
 *     #include <stdio.h>
 *     #include "dunkafeto.h"
 *
 *     enum { SIZE = DUNKAFETO_SMALL_TILE, S = 1, C = 2, T = 2, N = 10, CELLS = 3 * S * C };
 *     static const uint32_t tiles[2 * T] = {0, 2, 2, 1}; // tile 0 has colours 0 and 1, tile 1 has colour 2
 *     static const float colours[9] = {0.25f, 0, 0, 0.75f, 0, 0, 0.5f, 0.125f, 0};
 *     static const uint32_t counts[3] = {4, 4, 2};
 *     static const uint32_t samples[2 * N] = {0, 0, 0, 0, 0, 0, 0, 0, 0, 1, 0, 1, 0, 1, 0, 1, 1, 0, 1, 0};
 *     static uint32_t order[N], hints[T];
 *     static float palette[CELLS], least[CELLS], reduced[CELLS];
 *     static uint64_t words[DUNKAFETO_WORDS];
 *
 *     #define JOB SIZE, S, C, T, N, 1.0f
 *     #define TABLES tiles, 2 * T, colours, 9, counts, 3, samples, 2 * N
 *     #define MEMORY order, N, hints, T, palette, CELLS, least, CELLS, words, DUNKAFETO_WORDS
 *
 *     int main(void) {
 *         uint64_t answer = dunkafeto_start(JOB, 0, TABLES, MEMORY);
 *         while (dunkafeto_number(answer) == DUNKAFETO_DONE && words[DUNKAFETO_STAGE] != DUNKAFETO_FINISHED) {
 *             if (dunkafeto_draws_in(words[DUNKAFETO_STAGE])) {
 *                 answer = dunkafeto_advance(JOB, TABLES, MEMORY, 1000);
 *             } else {
 *                 for (int i = 0; i < CELLS; i++) // a console with 16 levels of each component
 *                     reduced[i] = (float)(int)(palette[i] * 16.0f) / 16.0f;
 *                 answer = dunkafeto_hand_in(JOB, TABLES, MEMORY, reduced, CELLS);
 *             }
 *         }
 *         if (dunkafeto_number(answer) != DUNKAFETO_DONE) {
 *             printf("refused: %s, index %lu\n", dunkafeto_says(dunkafeto_number(answer)), (unsigned long)dunkafeto_index(answer));
 *             return 1;
 *         }
 *         for (int i = 0; i < CELLS; i += 3)
 *             printf("%g %g %g\n", palette[i], palette[i + 1], palette[i + 2]);
 *         return 0;
 *     }
 */
#ifndef DUNKAFETO_H
#define DUNKAFETO_H

#include <stddef.h>
#include <stdint.h>

#ifdef __cplusplus
extern "C" {
#endif

/* ---- Tile sizes, in pixels: the first argument of every call; any other is 2. It bounds a tile's number of colours (5) and the sum of
 * its counts (6). A sheet of edition 1 has small tiles, one of edition 2 large ones. */
#define DUNKAFETO_SMALL_TILE 64  /* 8 by 8 */
#define DUNKAFETO_LARGE_TILE 256 /* 16 by 16 */

/* ---- Limits. Outside them a call refuses with the number that stands beside. */
#define DUNKAFETO_MOST_SUBPALETTES 16     /* S is 1 up to this, else 2 */
#define DUNKAFETO_MOST_COLOURS 16         /* C is 1 up to this, else 2 */
#define DUNKAFETO_MOST_TILES 1024         /* T is 1 up to this, else 2 */
#define DUNKAFETO_MOST_SAMPLES 16384      /* n is 1 up to this, else 1 where it is 0 and 2 where it is above */
#define DUNKAFETO_MOST_TILE_COLOURS 16384 /* of all tiles together, else 5 */
#define DUNKAFETO_MOST_COMPONENT 2.0f     /* magnitude of a component given, else 7, or 17 if handed in; of one a run holds: 4, else 16 */
#define DUNKAFETO_MOST_WEIGHT 16.0f       /* weight is above 0 and at most this, else 4 */
#define DUNKAFETO_WORDS 7                 /* words of a run's record, else 3 */

/* ---- Numbers. Of several faults the first in the order 2, 3, 1, 4, 5, 6, 7, 8, 20, 10, 16, 9, 11, 17 decides. These five calls give 0
 * to 11, 16, 17 and 20; 12 to 15 belong to other calls of the same table; 18 and 19 are not in use. 7, 16 and 17 name an entry: see
 * dunkafeto_index. */
enum dunkafeto_numbers {
    DUNKAFETO_DONE = 0,
    DUNKAFETO_NO_SAMPLES = 1,       /* n is 0 */
    DUNKAFETO_SIZES = 2,            /* the tile size is neither 64 nor 256, S, C or T is outside its range, or n is above 16,384 */
    DUNKAFETO_LENGTHS = 3,          /* a slice is longer or shorter than the sizes ask */
    DUNKAFETO_WEIGHT = 4,           /* the weight is not above 0, is above 16, or is NaN */
    DUNKAFETO_TILES = 5,            /* tiles leave a gap or overlap, one has more colours than pixels, all above 16,384 or not those lent */
    DUNKAFETO_COUNTS = 6,           /* a colour counted 0 times, or a tile's counts sum to more than its pixels */
    DUNKAFETO_COMPONENTS = 7,       /* a component of a job's colour is above 2 in magnitude or not finite */
    DUNKAFETO_SAMPLES = 8,          /* a sample's tile is not there, or has no such colour */
    DUNKAFETO_ORDER = 9,            /* an entry of the order is n or more */
    DUNKAFETO_RECORD = 10,          /* the record breaks one of its rules */
    DUNKAFETO_MOMENT = 11,          /* advance at a stop or finish, hand_in elsewhere than at a stop, result before the finish */
    DUNKAFETO_SHEET_HEAD = 12,      /* the first four bytes are not a sheet's, or the edition is not the reader's */
    DUNKAFETO_SHEET_BYTES = 13,     /* a sheet ends too soon, goes on by a bit or a byte, or has more than 65,536 bytes */
    DUNKAFETO_SAME_COLOUR = 14,     /* grouping: pixels of the same bytes whose Oklab bits differ */
    DUNKAFETO_EMPTY_TILE = 15,      /* the single fit's tile has no colour */
    DUNKAFETO_WORKING_COLOURS = 16, /* a component of palette, or in stage 2 of least, is above 4 in magnitude or not finite */
    DUNKAFETO_HANDED_COLOURS = 17,  /* a component handed in is above 2 in magnitude or not finite */
    DUNKAFETO_OTHER_SIZES = 20      /* word 6 of the record is not made of the S, C, T and n of the call: the run is another job's */
};

/* ---- The record: seven words, which start writes and the others keep; word 6 stays as it is. Read them freely; write none. */
enum dunkafeto_record {
    DUNKAFETO_GENERATOR = 0, /* state of the generator */
    DUNKAFETO_STAGE = 1,     /* 0 to 7, below */
    DUNKAFETO_ROUNDS = 2,    /* rounds finished in the stage */
    DUNKAFETO_LEFT = 3,      /* draws left in the round */
    DUNKAFETO_MADE = 4,      /* draws made since the start */
    DUNKAFETO_ERROR = 5,     /* in stage 2 the least error so far, as the bits of a float; else 0 */
    DUNKAFETO_JOB_SIZES = 6  /* S, C, T and n of the job, 16 bits each, most significant first: S << 48 | C << 32 | T << 16 | n */
};

enum dunkafeto_stages {
    DUNKAFETO_SEEDING = 0,
    DUNKAFETO_GROWING = 1,
    DUNKAFETO_REPLACING = 2,
    DUNKAFETO_REDUCE_TRAINED = 3, /* a stop, before the final draws */
    DUNKAFETO_FINAL_DRAWS = 4,
    DUNKAFETO_REDUCE_DRAWN = 5,   /* a stop, before the refinement */
    DUNKAFETO_REDUCE_REFINED = 6, /* a stop, after which the run is finished */
    DUNKAFETO_FINISHED = 7
};

/* ---- The answer of a call: a value times 256, and the number. The value is the draws made where the number is DUNKAFETO_DONE, and
 * the index of the entry at fault where it is any other. */

/* The number: DUNKAFETO_DONE, or why the call refused. */
static inline uint32_t dunkafeto_number(uint64_t answer) { return (uint32_t)(answer & 255u); }

/* The draws that the call made: 0 for each refusal and for each call but advance. At most 81,900. */
static inline uint64_t dunkafeto_draws(uint64_t answer) { return dunkafeto_number(answer) == DUNKAFETO_DONE ? answer >> 8 : 0; }

/* The index of the first bad entry: 0 where the call is done, and for each number but 7, 16 and 17. It counts colours from 0, not
 * components.
 *
 *     7     assign: colours of the palette are 0 to s * c - 1, colour k of the tiles is s * c + k (palette before tiles)
 *           start, advance, hand_in, result: colour k of the tiles is k
 *     16    colours of palette are 0 to s * c - 1, colour k of least is s * c + k (palette before least)
 *     17    colour k of reduced is k
 *
 * Colour k of a palette is colour k % c of subpalette k / c. Colour k of the tiles is colour k - tiles[2 * i] of the tile i that has
 * tiles[2 * i] <= k < tiles[2 * i] + tiles[2 * i + 1]. hosts/c/entry.c puts both into words. */
static inline size_t dunkafeto_index(uint64_t answer) { return dunkafeto_number(answer) == DUNKAFETO_DONE ? 0 : (size_t)(answer >> 8); }

/* Whether a stage is one for advance. */
static inline int dunkafeto_draws_in(uint64_t stage) { return stage < 3 || stage == 4; }

/* Whether a stage is one for hand_in. */
static inline int dunkafeto_stops_at(uint64_t stage) { return stage == 3 || stage == 5 || stage == 6; }

/* The draws of a whole run. */
static inline uint64_t dunkafeto_all_draws(size_t s, size_t c, size_t n) { return (uint64_t)(s + c + 18) * (n / 10); }

/* A number in words. */
static inline const char *dunkafeto_says(uint32_t number) {
    static const char *const words[] = {
        "done",
        "there are no samples",
        "too few or too many subpalettes, colours, tiles or samples, or a tile size other than 64 and 256",
        "a lent slice has the wrong length",
        "the weight is not above 0 and at most 16",
        "the tile table is not consecutive, a tile has more colours than its size (64 or 256), or the total is wrong",
        "a count is 0, or a tile's counts sum to more than its size (64 or 256)",
        "a colour's component is too large or not finite",
        "a sample names no tile or no colour of it",
        "an entry of the order is too large",
        "the run's record breaks its rules",
        "the call does not belong to this moment of the run",
        "the sheet's opening is wrong, or its edition is neither 1 nor 2",
        "the sheet is cut short, has a spare bit set or bytes after it, or is too large",
        "equal reduced colours have different Oklab bits",
        "the tile is empty",
        "a working colour's component is too large or not finite",
        "a handed-in colour's component is too large or not finite",
        "no such number",
        "no such number",
        "the run's record belongs to a job of other sizes",
    };
    return number < sizeof words / sizeof words[0] ? words[number] : "no such number";
}

/* ---- The arguments that calls share. A slice is a pointer and, right after it, its length: the number of its elements, not bytes.
 *
 *     argument  elements          each is                                                  limits (number)
 *     size                        pixels of a tile, the first argument of every call       64 or 256 (2)
 *     s, c, t                     subpalettes, colours of each, tiles                      see above (2)
 *     n                           samples                                                  1 to 16,384 (1, 2)
 *     weight                      of chroma against lightness in a squared distance        above 0, at most 16 (4)
 *     tiles     2 * t             per tile its first colour, its number of colours         consecutive from 0; 0 to `size` colours (5)
 *     colours   3 * counts_len    per colour l, a, b                                       finite, magnitude at most 2 (7)
 *     counts    tiles' colours    pixels of the tile that have the colour                  at least 1, a tile's sum at most `size` (6)
 *     samples   2 * n             per sample a tile, a colour by its place in that tile    both exist (8)
 *
 * The memory of a run, lent to every call of it:
 *
 *     order     n                 the order of the samples                                 below n (9)
 *     hints     t                 per tile the subpalette that is tried first              any
 *     palette   3 * s * c         the colours, subpalette by subpalette: l, a, b           finite, magnitude at most 4 (16)
 *     least     3 * s * c         a second palette, in use in stage 2                      the same, in stage 2 only (16)
 *     words     7                 the record                                               of a job of these sizes (20), its rules (10)
 *
 * A length other than that in the second column is number 3.
 *
 * What the caller owes, since no call can check it: a pointer has at least as many elements behind it as the length says, aligned as
 * C aligns them and readable, and writable where it is not const; what is written overlaps nothing else that is lent to the same
 * call; no other thread touches it during the call. A length of 0 goes with any pointer, NULL too. Calls on memory of different runs
 * share nothing and may go on at the same time. tiles, colours, counts and samples may be shared by any number of calls.
 *
 * Whatever the number, if it is not DUNKAFETO_DONE the call made no draws and wrote nothing. */

/* Starts a run. Asks of hints only their length, and of order, palette, least and words too.
 * Writes order, palette, least, words and hints. `seed` is any number: the same job and seed give the same run. */
uint64_t dunkafeto_start(size_t size, size_t s, size_t c, size_t t, size_t n, float weight, uint64_t seed,
                         const uint32_t *tiles, size_t tiles_len, const float *colours, size_t colours_len,
                         const uint32_t *counts, size_t counts_len, const uint32_t *samples, size_t samples_len,
                         uint32_t *order, size_t order_len, uint32_t *hints, size_t hints_len,
                         float *palette, size_t palette_len, float *least, size_t least_len,
                         uint64_t *words, size_t words_len);

/* Makes up to `allotment` draws, any number, 0 too; fewer only where a stop or the finish comes first. Only at stages 0, 1, 2, 4 (11).
 * Writes order, hints, palette, least and words. How draws are divided into calls makes no difference to what they leave. */
uint64_t dunkafeto_advance(size_t size, size_t s, size_t c, size_t t, size_t n, float weight,
                           const uint32_t *tiles, size_t tiles_len, const float *colours, size_t colours_len,
                           const uint32_t *counts, size_t counts_len, const uint32_t *samples, size_t samples_len,
                           uint32_t *order, size_t order_len, uint32_t *hints, size_t hints_len,
                           float *palette, size_t palette_len, float *least, size_t least_len,
                           uint64_t *words, size_t words_len, uint64_t allotment);

/* Hands in the palette's colours as the console shows them: `reduced` has 3 * s * c components (3), finite and of magnitude at most
 * 2 (17). Only at a stop, stages 3, 5, 6 (11). Writes hints, palette and words. */
uint64_t dunkafeto_hand_in(size_t size, size_t s, size_t c, size_t t, size_t n, float weight,
                           const uint32_t *tiles, size_t tiles_len, const float *colours, size_t colours_len,
                           const uint32_t *counts, size_t counts_len, const uint32_t *samples, size_t samples_len,
                           const uint32_t *order, size_t order_len, uint32_t *hints, size_t hints_len,
                           float *palette, size_t palette_len, const float *least, size_t least_len,
                           uint64_t *words, size_t words_len, const float *reduced, size_t reduced_len);

/* Copies the colours of a finished run, stage 7 (11), to `out`: 3 * s * c components (3). Writes nothing else. */
uint64_t dunkafeto_result(size_t size, size_t s, size_t c, size_t t, size_t n, float weight,
                          const uint32_t *tiles, size_t tiles_len, const float *colours, size_t colours_len,
                          const uint32_t *counts, size_t counts_len, const uint32_t *samples, size_t samples_len,
                          const uint32_t *order, size_t order_len, const uint32_t *hints, size_t hints_len,
                          const float *palette, size_t palette_len, const float *least, size_t least_len,
                          const uint64_t *words, size_t words_len, float *out, size_t out_len);

/* For each tile the subpalette that fits it best, the lowest of equals, to `out`: t numbers (3); 0 for an empty tile. It belongs to no
 * run: `palette` is any palette of 3 * s * c components (3), finite and of magnitude at most 2 (7). Writes out, and the same into
 * hints (t numbers, 3; any) except for empty tiles. */
uint64_t dunkafeto_assign(size_t size, size_t s, size_t c, size_t t, float weight,
                          const uint32_t *tiles, size_t tiles_len, const float *colours, size_t colours_len,
                          const uint32_t *counts, size_t counts_len, const float *palette, size_t palette_len,
                          uint32_t *hints, size_t hints_len, uint32_t *out, size_t out_len);

#ifdef __cplusplus
}
#endif

#endif
