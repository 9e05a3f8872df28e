/* One small run for bench/guard to count: guard TIMES makes a fixed job (S 4, C 4, T 64, n 1,024) and runs it so many times, from start
 * to finish. The job is made of whole numbers alone, so that it is the same everywhere: tiles of 4 to 28 colours around one or two of
 * twelve centres, 64 pixels in each, most of them in the first colours. The status is 0 only where every run came to its finish. */
#include <stdlib.h>
#include <string.h>

#include "dunkafeto.h"

enum { S = 4, C = 4, T = 64, N = 1024, CENTRES = 12, PIXELS = DUNKAFETO_SMALL_TILE, MOST = 28 * T, CELLS = 3 * S * C };

static uint32_t tiles[2 * T], counts[MOST], samples[2 * N], order[N], hints[T];
static float colours[3 * MOST], palette[CELLS], least[CELLS], reduced[CELLS];
static uint64_t words[DUNKAFETO_WORDS];
static int centres[CENTRES][3];
static size_t size; /* colours of all tiles so far */
static int sampled; /* samples so far */

#define JOB DUNKAFETO_SMALL_TILE, S, C, T, N, 2.15f
#define GIVEN tiles, 2 * T, colours, 3 * size, counts, size, samples, 2 * N
#define MEMORY order, N, hints, T, palette, CELLS, least, CELLS, words, DUNKAFETO_WORDS

static int below(int most) {
    static uint32_t state = 10;
    state = state * 1664525u + 1013904223u;
    return (int)((state >> 16) % (uint32_t)most);
}

/* Colour `place` of tile t, near a centre, with `count` pixels; of all pixels every fourth is a sample. */
static void add_colour(int t, int place, const int *centre, int count) {
    for (int i = 0; i < 3; i++) colours[3 * size + i] = (float)(centre[i] + below(160) - 80) / 1024.0f;
    counts[size++] = (uint32_t)count;
    for (int pixel = 0; pixel < count; pixel++) {
        static int pixels = 0;
        if (pixels++ % (T * PIXELS / N) != 0) continue;
        samples[2 * sampled] = (uint32_t)t;
        samples[2 * sampled++ + 1] = (uint32_t)place;
    }
}

static void add_tile(int t) {
    const int *own[2];
    own[0] = centres[below(CENTRES)];
    own[1] = centres[below(CENTRES)];
    int colours_in = 4 + 7 * t % 25, spare = PIXELS - colours_in;
    tiles[2 * t] = (uint32_t)size;
    tiles[2 * t + 1] = (uint32_t)colours_in;
    for (int place = 0; place < colours_in; place++) {
        int more = place + 1 == colours_in ? spare : below(spare / 2 + 1);
        spare -= more;
        add_colour(t, place, own[below(2)], 1 + more);
    }
}

static void make_job(void) {
    for (int i = 0; i < CENTRES; i++) {
        centres[i][0] = below(1024);
        centres[i][1] = below(614) - 307;
        centres[i][2] = below(614) - 307;
    }
    for (int t = 0; t < T; t++) add_tile(t);
}

/* A whole run; the console has 64 levels of each component. The number that ended it. */
static uint32_t run(void) {
    memset(hints, 0, sizeof hints);
    uint64_t answer = dunkafeto_start(JOB, 10, GIVEN, MEMORY);
    while (dunkafeto_number(answer) == DUNKAFETO_DONE && words[DUNKAFETO_STAGE] != DUNKAFETO_FINISHED) {
        if (dunkafeto_draws_in(words[DUNKAFETO_STAGE])) {
            answer = dunkafeto_advance(JOB, GIVEN, MEMORY, UINT64_MAX);
        } else {
            for (int i = 0; i < CELLS; i++) reduced[i] = (float)(int)(palette[i] * 64.0f) / 64.0f;
            answer = dunkafeto_hand_in(JOB, GIVEN, MEMORY, reduced, CELLS);
        }
    }
    return dunkafeto_number(answer);
}

int main(int argc, char **argv) {
    if (argc != 2) return 2;
    make_job();
    if (sampled != N) return 2;
    for (int times = atoi(argv[1]); times > 0; times--)
        if (run() != DUNKAFETO_DONE || words[DUNKAFETO_MADE] != dunkafeto_all_draws(S, C, N)) return 1;
    return 0;
}
