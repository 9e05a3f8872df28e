/* How many bytes of stack the library's calls need for the largest job of a tile size: stack SIZE. S = C = 16, T = 1,024, 16,384 colours
 * and samples: of tiles of 64 pixels 16 colours in each, of tiles of 256 as many in the first 64 and none in the others.
 * Each call is made at a known depth of a thread whose stack is painted below it by the thread itself, so that whatever the thread's
 * own beginning and end touch counts for nothing and nothing has to be taken off: the figure is the distance from the frame that calls
 * to the lowest word that is no longer paint, the caller's arguments and return address included. Prints a line a call. */
#define _POSIX_C_SOURCE 200809L
#include <inttypes.h>
#include <pthread.h>
#include <stdio.h>
#include <stdlib.h>
#include <string.h>

#include "../console.h"
#include "dunkafeto.h"

enum { S = 16, C = 16, T = 1024, N = 16384, CELLS = 3 * S * C };

/* Words of the stack; words below the caller's own variable that may be its frame's still, and are not painted. */
enum { STACK = 1 << 17, FRAME = 32, KNOWN = 512 };

/* By words, since a byte that is written may well be the paint's by chance. */
static const uint64_t paint = UINT64_C(0xd1b54a32d192ed03);

static uint32_t tiles[2 * T], counts[N], samples[2 * N], order[N], hints[T], subpalettes[T];
static float colours[3 * N], palette[CELLS], least[CELLS], reduced[CELLS], out[CELLS];
static uint64_t words[DUNKAFETO_WORDS], answer;
static size_t size;

#define SIZES size, S, C, T, N, 2.15f
#define TABLES tiles, 2 * T, colours, 3 * N, counts, N, samples, 2 * N
#define MEMORY order, N, hints, T, palette, CELLS, least, CELLS, words, DUNKAFETO_WORDS

/* Colours from the public SplitMix64, within -1 and 1. */
static float next_component(uint64_t *state) {
    uint64_t z = *state += UINT64_C(0x9e3779b97f4a7c15);
    z = (z ^ z >> 30) * UINT64_C(0xbf58476d1ce4e5b9);
    z = (z ^ z >> 27) * UINT64_C(0x94d049bb133111eb);
    return (float)((z ^ z >> 31) >> 40) / 8388608.0f - 1.0f;
}

static void make_job(void) {
    uint32_t each = size == DUNKAFETO_LARGE_TILE ? DUNKAFETO_LARGE_TILE : N / T;
    uint64_t state = 1;
    for (uint32_t i = 0; i < N; i++) {
        counts[i] = 1;
        samples[2 * i] = i / each;
        samples[2 * i + 1] = i % each;
        for (uint32_t k = 0; k < 3; k++)
            colours[3 * i + k] = next_component(&state);
    }
    for (uint32_t i = 0; i < T; i++) {
        tiles[2 * i] = i < N / each ? i * each : N;
        tiles[2 * i + 1] = i < N / each ? each : 0;
    }
}

static void start(void) { answer = dunkafeto_start(SIZES, 0, TABLES, MEMORY); }
static void advance(void) { answer = dunkafeto_advance(SIZES, TABLES, MEMORY, UINT64_MAX); }
static void hand_in(void) { answer = dunkafeto_hand_in(SIZES, TABLES, MEMORY, reduced, CELLS); }
static void result(void) { answer = dunkafeto_result(SIZES, TABLES, MEMORY, out, CELLS); }
static void assign(void) {
    answer = dunkafeto_assign(size, S, C, T, 2.15f, tiles, 2 * T, colours, 3 * N, counts, N, out, CELLS, hints, T, subpalettes, T);
}

/* A call of which it is known that it writes so many words of stack, from the lowest on. */
static void known(void) {
    volatile uint64_t local[KNOWN];
    for (int i = 0; i < KNOWN; i++)
        local[i] = (uint64_t)i;
    answer = local[0];
}

static volatile uint64_t stack[STACK];
static size_t touched;

typedef struct {
    void (*call)(void);
} Work;

/* Paints from the stack's low end up to its own frame, calls, and looks for the lowest word that has changed. It calls nothing else:
 * a function called to paint or to look would leave its own frame where that of the call is looked for. */
static void *on_painted_stack(void *work) {
    volatile uint64_t here = 0;
    size_t at, top = ((uintptr_t)&here - (uintptr_t)stack) / sizeof here, frame = top - FRAME;
    for (at = 0; at < frame; at++)
        stack[at] = paint;
    ((Work *)work)->call();
    for (at = 0; at < frame && stack[at] == paint; at++)
        ;
    touched = (top + 1 - at) * sizeof here;
    return NULL;
}

static size_t bytes_below(void (*call)(void)) {
    Work work = {call};
    pthread_attr_t attributes;
    pthread_t thread;
    if (pthread_attr_init(&attributes) != 0 || pthread_attr_setstack(&attributes, (void *)stack, sizeof stack) != 0 ||
        pthread_create(&thread, &attributes, on_painted_stack, &work) != 0 || pthread_join(thread, NULL) != 0)
        exit(2);
    pthread_attr_destroy(&attributes);
    return touched;
}

/* The measure itself is measured: never less than what a call is known to touch, and not much more. */
static void measure_known(void) {
    size_t bytes = bytes_below(known), least_bytes = KNOWN * sizeof(uint64_t);
    printf("a call known to touch %zu bytes: %zu\n", least_bytes, bytes);
    if (bytes < least_bytes || bytes > least_bytes + 2 * FRAME * sizeof(uint64_t))
        exit(1);
}

/* Runs one call; a refusal ends the program. */
static size_t measure(const char *name, void (*call)(void)) {
    size_t bytes = bytes_below(call);
    if (dunkafeto_number(answer) != DUNKAFETO_DONE) {
        printf("%s: refused %" PRIu32 "\n", name, dunkafeto_number(answer));
        exit(1);
    }
    printf("%s %zu bytes, %" PRIu64 " draws\n", name, bytes, dunkafeto_draws(answer));
    return bytes;
}

static size_t larger(size_t a, size_t b) { return a > b ? a : b; }

int main(int argc, char **argv) {
    size_t most;
    if (argc != 2)
        return 2;
    size = strtoul(argv[1], NULL, 10);
    /* The one function that the library calls is called here first: what the linker needs to find it is not the library's. */
    memset((void *)stack, 0, sizeof stack);
    measure_known();
    make_job();
    most = measure("start", start);
    while (words[DUNKAFETO_STAGE] != DUNKAFETO_FINISHED) {
        if (dunkafeto_draws_in(words[DUNKAFETO_STAGE])) {
            most = larger(most, measure("advance", advance));
        } else {
            console_reduce(palette, reduced, S * C);
            most = larger(most, measure("hand_in", hand_in));
        }
    }
    most = larger(most, measure("result", result));
    most = larger(most, measure("assign", assign));
    printf("most %zu\n", most);
    return 0;
}
