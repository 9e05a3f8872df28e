/* Each number that the five calls give, by a lent memory with one fault, or with two of which the first in order decides: number and
 * index are the expected ones, no draws are reported, and nothing is written. Prints a line for each: 'passed NAME' or 'failed NAME'. */
#include <inttypes.h>
#include <math.h>
#include <stdio.h>
#include <string.h>

#include "dunkafeto.h"

enum { S = 2, C = 3, T = 3, N = 20, COLOURS = 3, ROOM = DUNKAFETO_LARGE_TILE + 2, CELLS = 3 * S * C };

/* What the record says of a job of these sizes. */
static const uint64_t sizes = UINT64_C(0x0002000300030014);

/* All that is lent, with the lengths that are told. There is room for a tile, a sample and a word more, and for a tile of too many colours. */
typedef struct {
    size_t size, s, c, t, n;
    float weight;
    uint32_t tiles[2 * T + 2], counts[ROOM], samples[2 * N + 2], order[N + 1], hints[T + 1], subpalettes[T];
    float colours[3 * ROOM], palette[CELLS], least[CELLS], other[CELLS]; /* other: handed in, or the result */
    uint64_t words[DUNKAFETO_WORDS + 1];
    size_t tiles_len, colours_len, counts_len, samples_len, order_len, hints_len, palette_len, least_len, words_len, other_len, out_len;
} Lent;

#define SIZES(m) (m)->size, (m)->s, (m)->c, (m)->t, (m)->n, (m)->weight
#define TABLES(m) (m)->tiles, (m)->tiles_len, (m)->colours, (m)->colours_len, (m)->counts, (m)->counts_len
#define MEMORY(m)                                                                                                                  \
    (m)->samples, (m)->samples_len, (m)->order, (m)->order_len, (m)->hints, (m)->hints_len, (m)->palette, (m)->palette_len,        \
        (m)->least, (m)->least_len, (m)->words, (m)->words_len

typedef uint64_t Call(Lent *m);
static uint64_t start(Lent *m) { return dunkafeto_start(SIZES(m), 7, TABLES(m), MEMORY(m)); }
static uint64_t advance(Lent *m) { return dunkafeto_advance(SIZES(m), TABLES(m), MEMORY(m), 3); }
static uint64_t hand_in(Lent *m) { return dunkafeto_hand_in(SIZES(m), TABLES(m), MEMORY(m), m->other, m->other_len); }
static uint64_t result(Lent *m) { return dunkafeto_result(SIZES(m), TABLES(m), MEMORY(m), m->other, m->other_len); }
static uint64_t assign(Lent *m) {
    return dunkafeto_assign(m->size, m->s, m->c, m->t, m->weight, TABLES(m), m->palette, m->palette_len, m->hints, m->hints_len, m->subpalettes,
                            m->out_len);
}

/* Tile 0 has two colours, tile 1 none, tile 2 one. */
static void fill(Lent *m) {
    static const uint32_t tiles[2 * T] = {0, 2, 2, 0, 2, 1};
    memset(m, 0, sizeof *m);
    m->size = DUNKAFETO_SMALL_TILE, m->s = S, m->c = C, m->t = T, m->n = N, m->weight = 1.0f;
    memcpy(m->tiles, tiles, sizeof tiles);
    for (uint32_t i = 0; i < COLOURS; i++) {
        m->counts[i] = i + 1;
        m->colours[3 * i] = 0.25f * (float)i;
    }
    for (uint32_t i = 0; i < N; i++) {
        m->samples[2 * i] = i % 3 == 2 ? 2 : 0;
        m->samples[2 * i + 1] = i % 3 == 1;
    }
    m->tiles_len = 2 * T, m->colours_len = 3 * COLOURS, m->counts_len = COLOURS, m->samples_len = 2 * N;
    m->order_len = N, m->hints_len = T, m->palette_len = m->least_len = m->other_len = CELLS, m->words_len = DUNKAFETO_WORDS, m->out_len = T;
}

static void report(const char *name, int good) { printf("%s %s\n", good ? "passed" : "failed", name); }

/* One call on the memory: number and index are the expected ones, and a refusal reports no draws and writes nothing. */
static void expect_at(const char *name, Call *call, Lent *m, uint32_t number, size_t index) {
    static Lent before;
    memcpy(&before, m, sizeof before);
    uint64_t answer = call(m);
    int quiet = number == DUNKAFETO_DONE || (dunkafeto_draws(answer) == 0 && memcmp(&before, m, sizeof before) == 0);
    report(name, dunkafeto_number(answer) == number && dunkafeto_index(answer) == index && quiet);
}

static void expect(const char *name, Call *call, Lent *m, uint32_t number) { expect_at(name, call, m, number, 0); }

/* ---- faults */
typedef void Fault(Lent *m);
static void none(Lent *m) { (void)m; }
static void no_samples(Lent *m) { m->n = m->samples_len = m->order_len = 0; }
static void many_subpalettes(Lent *m) { m->s = 17; }
static void no_tiles(Lent *m) { m->t = 0; }
static void many_samples(Lent *m) { m->n = DUNKAFETO_MOST_SAMPLES + 1; }
static void short_hints(Lent *m) { m->hints_len--; }
static void short_order(Lent *m) { m->order_len--; }
static void short_words(Lent *m) { m->words_len--; }
static void long_words(Lent *m) { m->words_len++; }
static void short_colours(Lent *m) { m->colours_len--; }
static void no_weight(Lent *m) { m->weight = 0.0f; }
static void nan_weight(Lent *m) { m->weight = NAN; }
static void gap_in_tiles(Lent *m) { m->tiles[4] = 1; }
static void no_count(Lent *m) { m->counts[1] = 0; }
static void counts_of_64(Lent *m) { m->counts[1] = 63; }
static void counts_of_65(Lent *m) { m->counts[1] = 64; }
static void endless_count(Lent *m) { m->counts[1] = UINT32_MAX; }
static void large_colour(Lent *m) { m->colours[0] = 2.0000002f; }
static void nan_colour(Lent *m) { m->colours[8] = NAN; }
static void two_colours(Lent *m) { m->colours[5] = -3.0f, m->colours[6] = NAN; }
static void sample_of_empty_tile(Lent *m) { m->samples[0] = 1; }
static void sample_of_no_tile(Lent *m) { m->samples[0] = T; }
static void large_order(Lent *m) { m->order[N - 1] = N; }
static void stage_8(Lent *m) { m->words[DUNKAFETO_STAGE] = 8; }
static void one_draw_more(Lent *m) { m->words[DUNKAFETO_MADE]++; }
static void large_working(Lent *m) { m->palette[0] = 4.0000005f; }
static void nan_working(Lent *m) { m->palette[CELLS - 1] = NAN; }
static void two_working(Lent *m) { m->palette[7] = INFINITY, m->palette[3] = -5.0f; }
static void working_and_order(Lent *m) { m->palette[6] = NAN, m->order[0] = N; }
static void working_and_record(Lent *m) { m->palette[6] = NAN, m->words[DUNKAFETO_STAGE] = 8; }
static void working_and_colour(Lent *m) { m->palette[0] = NAN, m->colours[3] = NAN; }
static void nan_least(Lent *m) { m->least[CELLS - 1] = NAN; }
static void two_least(Lent *m) { m->least[9] = INFINITY, m->least[5] = -4.0000005f; }
static void least_and_working(Lent *m) { m->least[0] = NAN, m->palette[CELLS - 1] = NAN; }
static void least_and_order(Lent *m) { m->least[0] = NAN, m->order[0] = N; }
static void infinite_handed_in(Lent *m) { m->other[CELLS - 1] = INFINITY; }
static void large_handed_in(Lent *m) { m->other[0] = 2.0000002f; }
static void two_handed_in(Lent *m) { m->other[8] = NAN, m->other[3] = -2.5f; }
static void handed_in_and_working(Lent *m) { m->other[0] = NAN, m->palette[9] = NAN; }
static void short_other(Lent *m) { m->other_len--; }
static void large_palette(Lent *m) { m->palette[0] = 2.5f; }
static void nan_palette(Lent *m) { m->palette[CELLS - 1] = NAN; }
static void two_of_palette(Lent *m) { m->palette[9] = NAN, m->palette[5] = 2.0000002f; }
static void palette_and_colour(Lent *m) { m->palette[9] = NAN, m->colours[0] = NAN; }
static void short_out(Lent *m) { m->out_len--; }

/* Another tile size: of the first ones there is no such. */
static void size_0(Lent *m) { m->size = 0; }
static void size_63(Lent *m) { m->size = 63; }
static void size_65(Lent *m) { m->size = 65; }
static void size_128(Lent *m) { m->size = 128; }
static void size_255(Lent *m) { m->size = 255; }
static void size_257(Lent *m) { m->size = 257; }
static void size_512(Lent *m) { m->size = 512; }
static void size_endless(Lent *m) { m->size = SIZE_MAX; }
static void size_of_32_bits(Lent *m) { m->size = (size_t)1 << 32 | 64; }
static void size_and_subpalettes(Lent *m) { size_128(m), many_subpalettes(m); }
static void size_and_length(Lent *m) { size_128(m), short_hints(m); }
static void size_and_samples(Lent *m) { size_128(m), no_samples(m); }
static void size_and_weight(Lent *m) { size_128(m), nan_weight(m); }
static void large(Lent *m) { m->size = DUNKAFETO_LARGE_TILE; }
static void large_counts_of_65(Lent *m) { large(m), m->counts[1] = 64; }
static void large_counts_of_256(Lent *m) { large(m), m->counts[1] = 255; }
static void large_counts_of_257(Lent *m) { large(m), m->counts[1] = 256; }
static void large_count_of_256(Lent *m) { large(m), m->counts[2] = 256; }

/* Tile 0 with so many colours, each once; the others are as they were. */
static void tile_of(Lent *m, uint32_t colours) {
    m->tiles[1] = m->tiles[2] = m->tiles[4] = colours;
    m->counts_len = colours + 1, m->colours_len = 3 * m->counts_len;
    for (uint32_t i = 0; i <= colours; i++)
        m->counts[i] = 1, m->colours[3 * i] = (float)i / 256.0f;
}
static void tile_of_64(Lent *m) { tile_of(m, 64); }
static void tile_of_65(Lent *m) { tile_of(m, 65); }
static void tile_of_65_and_counts(Lent *m) { tile_of(m, 65), m->counts[0] = 0; }
static void large_tile_of_65(Lent *m) { large(m), tile_of(m, 65); }
static void large_tile_of_256(Lent *m) { large(m), tile_of(m, 256); }
static void large_tile_of_257(Lent *m) { large(m), tile_of(m, 257); }

/* Lends the run to another job, whose lengths fit. Of the last three all else fits too. */
static void cells_of(Lent *m, size_t s, size_t c) {
    m->s = s, m->c = c;
    m->palette_len = m->least_len = m->other_len = 3 * s * c;
}
static void other_s(Lent *m) { cells_of(m, S - 1, C); }
static void other_c(Lent *m) { cells_of(m, S, C - 1); }
static void exchanged(Lent *m) { cells_of(m, C, S); }
static void other_t(Lent *m) { m->tiles[2 * T] = COLOURS, m->t++, m->tiles_len += 2, m->hints_len++; }
static void other_n(Lent *m) { m->n++, m->samples_len += 2, m->order_len++; }

/* Changes what the record says of its job. */
static void record_s(Lent *m) { m->words[DUNKAFETO_JOB_SIZES] += UINT64_C(1) << 48; }
static void record_c(Lent *m) { m->words[DUNKAFETO_JOB_SIZES] += UINT64_C(1) << 32; }
static void record_t(Lent *m) { m->words[DUNKAFETO_JOB_SIZES] += UINT64_C(1) << 16; }
static void record_n(Lent *m) { m->words[DUNKAFETO_JOB_SIZES]++; }
static void record_of_none(Lent *m) { m->words[DUNKAFETO_JOB_SIZES] = 0; }
static void record_backwards(Lent *m) { m->words[DUNKAFETO_JOB_SIZES] = UINT64_C(0x0014000300030002); }
static void sizes_and_stage(Lent *m) { record_n(m), stage_8(m); }
static void sizes_and_working(Lent *m) { record_n(m), large_working(m); }
static void sizes_and_order(Lent *m) { record_n(m), large_order(m); }
static void sizes_and_handed_in(Lent *m) { record_n(m), large_handed_in(m); }
static void sizes_and_sample(Lent *m) { record_n(m), sample_of_no_tile(m); }
static void sizes_and_colour(Lent *m) { record_n(m), nan_colour(m); }
static void sizes_and_length(Lent *m) { record_n(m), short_words(m); }

/* Another job of the same S, C, T and n: another weight, other tiles, colours, counts and samples. */
static void equal_sizes(Lent *m) {
    static const uint32_t tiles[2 * T] = {0, 0, 0, 1, 1, 2};
    m->weight = 2.0f;
    memcpy(m->tiles, tiles, sizeof tiles);
    for (int i = 0; i < COLOURS; i++)
        m->counts[i] = 20, m->colours[3 * i] += 0.125f;
    for (int i = 0; i < N; i++)
        m->samples[2 * i] = 2, m->samples[2 * i + 1] = i % 2 == 0;
}

typedef struct {
    const char *name;
    Fault *fault;
    uint32_t number;
    size_t index;
} Case;

/* Tries each fault on a copy of the memory. */
static void each(const char *what, Call *call, const Lent *good, const Case *cases, size_t len) {
    for (size_t i = 0; i < len; i++) {
        static Lent m;
        char name[80];
        memcpy(&m, good, sizeof m);
        cases[i].fault(&m);
        snprintf(name, sizeof name, "%s, %s: %" PRIu32 " at %zu", what, cases[i].name, cases[i].number, cases[i].index);
        expect_at(name, call, &m, cases[i].number, cases[i].index);
    }
}

#define EACH(what, call, good, cases) each(what, call, good, cases, sizeof cases / sizeof cases[0])

static const Case of_job[] = {
    {"in order", none, 0, 0},
    {"no samples", no_samples, 1, 0},
    {"17 subpalettes", many_subpalettes, 2, 0},
    {"no tiles", no_tiles, 2, 0},
    {"16,385 samples", many_samples, 2, 0},
    {"a hint too few", short_hints, 3, 0},
    {"an order entry too few", short_order, 3, 0},
    {"six words", short_words, 3, 0},
    {"eight words", long_words, 3, 0},
    {"a component too few", short_colours, 3, 0},
    {"weight 0", no_weight, 4, 0},
    {"weight NaN", nan_weight, 4, 0},
    {"a gap in the tiles", gap_in_tiles, 5, 0},
    {"a count of 0", no_count, 6, 0},
    {"the first colour above 2", large_colour, 7, 0},
    {"the last colour NaN", nan_colour, 7, COLOURS - 1},
    {"two colours", two_colours, 7, 1},
    {"a sample of an empty tile", sample_of_empty_tile, 8, 0},
    {"a sample of no tile", sample_of_no_tile, 8, 0},
};

/* The tile size, and what it bounds. */
static const Case of_tiles[] = {
    {"tiles of 0", size_0, 2, 0},
    {"tiles of 63", size_63, 2, 0},
    {"tiles of 65", size_65, 2, 0},
    {"tiles of 128", size_128, 2, 0},
    {"tiles of 255", size_255, 2, 0},
    {"tiles of 257", size_257, 2, 0},
    {"tiles of 512", size_512, 2, 0},
    {"tiles of 2^64 - 1", size_endless, 2, 0},
    {"tiles of 2^32 + 64", size_of_32_bits, 2, 0},
    {"tiles of 128 and 17 subpalettes", size_and_subpalettes, 2, 0},
    {"tiles of 128 and a hint too few", size_and_length, 2, 0},
    {"tiles of 128 and no samples", size_and_samples, 2, 0},
    {"tiles of 128 and weight NaN", size_and_weight, 2, 0},
    {"tiles of 256", large, 0, 0},
    {"64 colours in a tile of 64", tile_of_64, 0, 0},
    {"65 colours in a tile of 64", tile_of_65, 5, 0},
    {"65 colours in a tile of 64 and a count of 0", tile_of_65_and_counts, 5, 0},
    {"65 colours in a tile of 256", large_tile_of_65, 0, 0},
    {"256 colours in a tile of 256", large_tile_of_256, 0, 0},
    {"257 colours in a tile of 256", large_tile_of_257, 5, 0},
    {"counts of 64 in a tile of 64", counts_of_64, 0, 0},
    {"counts of 65 in a tile of 64", counts_of_65, 6, 0},
    {"counts of 65 in a tile of 256", large_counts_of_65, 0, 0},
    {"counts of 256 in a tile of 256", large_counts_of_256, 0, 0},
    {"a count of 256 in a tile of 256", large_count_of_256, 0, 0},
    {"counts of 257 in a tile of 256", large_counts_of_257, 6, 0},
    {"a count of 2^32 - 1", endless_count, 6, 0},
};

/* At another stage than 2, where the second palette is not in use. */
static const Case of_memory[] = {
    {"stage 8", stage_8, 10, 0},
    {"a draw too many", one_draw_more, 10, 0},
    {"the first working colour above 4", large_working, 16, 0},
    {"the last working colour NaN", nan_working, 16, S * C - 1},
    {"two working colours", two_working, 16, 1},
    {"a working colour and the order", working_and_order, 16, 2},
    {"a working colour and the record", working_and_record, 10, 0},
    {"a working colour and a tile's", working_and_colour, 7, 1},
    {"an order entry n", large_order, 9, 0},
    {"a second palette that is not in use", nan_least, 0, 0},
    {"another job of equal sizes", equal_sizes, 0, 0},
};

/* Before any rule on what the run holds, and before its moment. */
static const Case of_sizes[] = {
    {"a job with a subpalette less", other_s, 20, 0},
    {"a job with a colour less in each", other_c, 20, 0},
    {"a job with S and C exchanged", exchanged, 20, 0},
    {"a job with an empty tile more", other_t, 20, 0},
    {"a job with a sample more", other_n, 20, 0},
    {"another S in the record", record_s, 20, 0},
    {"another C in the record", record_c, 20, 0},
    {"another T in the record", record_t, 20, 0},
    {"another n in the record", record_n, 20, 0},
    {"no sizes in the record", record_of_none, 20, 0},
    {"the sizes backwards", record_backwards, 20, 0},
    {"other sizes and stage 8", sizes_and_stage, 20, 0},
    {"other sizes and a working colour", sizes_and_working, 20, 0},
    {"other sizes and the order", sizes_and_order, 20, 0},
    {"other sizes and a handed-in colour", sizes_and_handed_in, 20, 0},
    {"other sizes and a sample", sizes_and_sample, 8, 0},
    {"other sizes and a tile's colour", sizes_and_colour, 7, COLOURS - 1},
    {"other sizes and six words", sizes_and_length, 3, 0},
};

static const Case in_stage_2[] = {
    {"two working colours", two_working, 16, 1},
    {"the last kept colour NaN", nan_least, 16, 2 * S * C - 1},
    {"two kept colours", two_least, 16, S * C + 1},
    {"a kept colour and a working one", least_and_working, 16, S * C - 1},
    {"a kept colour and the order", least_and_order, 16, S * C},
};

static const Case at_a_stop[] = {
    {"a colour too few", short_other, 3, 0},
    {"the last handed-in colour infinite", infinite_handed_in, 17, S * C - 1},
    {"the first handed-in colour above 2", large_handed_in, 17, 0},
    {"two handed-in colours", two_handed_in, 17, 1},
    {"a handed-in colour and a working one", handed_in_and_working, 16, 3},
};

static const Case of_assign[] = {
    {"in order", none, 0, 0},
    {"17 subpalettes", many_subpalettes, 2, 0},
    {"a place too few", short_out, 3, 0},
    {"weight 0", no_weight, 4, 0},
    {"a gap in the tiles", gap_in_tiles, 5, 0},
    {"a count of 0", no_count, 6, 0},
    {"the first palette colour above 2", large_palette, 7, 0},
    {"the last palette colour NaN", nan_palette, 7, S * C - 1},
    {"two palette colours", two_of_palette, 7, 1},
    {"a palette colour and a tile's", palette_and_colour, 7, 3},
    {"the first tile colour above 2", large_colour, 7, S * C},
    {"the last tile colour NaN", nan_colour, 7, S * C + COLOURS - 1},
    {"two tile colours", two_colours, 7, S * C + 1},
};

/* From the start to the first stop, with each call at its moment and at another's. */
static void run_to_stop(Lent *m) {
    uint64_t answer;
    EACH("start", start, m, of_job);
    EACH("start", start, m, of_tiles);
    memset(m->words, 255, sizeof m->words);
    expect("start, whatever the record says: 0", start, m, DUNKAFETO_DONE);
    report("start writes S, C, T and n into the record", m->words[DUNKAFETO_JOB_SIZES] == sizes);
    EACH("advance", advance, m, of_job);
    EACH("advance", advance, m, of_tiles);
    EACH("advance", advance, m, of_memory);
    EACH("advance", advance, m, of_sizes);
    EACH("hand_in while drawing", hand_in, m, of_sizes);
    EACH("result while drawing", result, m, of_sizes);
    expect("hand_in while drawing: 11", hand_in, m, DUNKAFETO_MOMENT);
    expect("result while drawing: 11", result, m, DUNKAFETO_MOMENT);
    m->other[0] = NAN;
    expect("hand_in of NaN while drawing: 11", hand_in, m, DUNKAFETO_MOMENT);
    answer = advance(m);
    report("advance reports the draws that it makes", dunkafeto_draws(answer) == 3 && m->words[DUNKAFETO_MADE] == 3);
    report("advance that made draws has no index", dunkafeto_number(answer) == DUNKAFETO_DONE && dunkafeto_index(answer) == 0);
    while (m->words[DUNKAFETO_STAGE] != DUNKAFETO_REPLACING)
        advance(m);
    EACH("advance in stage 2", advance, m, in_stage_2);
    EACH("hand_in in stage 2", hand_in, m, in_stage_2);
    EACH("result in stage 2", result, m, in_stage_2);
    EACH("advance in stage 2", advance, m, of_sizes);
    while (dunkafeto_draws_in(m->words[DUNKAFETO_STAGE]))
        advance(m);
}

/* Three draws, or at a stop the hand-in of the palette as it is. */
static void step(Lent *m) {
    if (dunkafeto_number(advance(m)) != DUNKAFETO_MOMENT)
        return;
    memcpy(m->other, m->palette, sizeof m->other);
    hand_in(m);
}

/* From the first stop to the finish. */
static void run_to_finish(Lent *m) {
    memcpy(m->other, m->palette, sizeof m->other);
    expect("advance at a stop: 11", advance, m, DUNKAFETO_MOMENT);
    EACH("hand_in", hand_in, m, of_job);
    EACH("hand_in", hand_in, m, of_tiles);
    EACH("hand_in", hand_in, m, of_memory);
    EACH("hand_in", hand_in, m, at_a_stop);
    EACH("hand_in", hand_in, m, of_sizes);
    while (m->words[DUNKAFETO_STAGE] != DUNKAFETO_FINISHED)
        step(m);
    expect("advance when finished: 11", advance, m, DUNKAFETO_MOMENT);
    expect("hand_in when finished: 11", hand_in, m, DUNKAFETO_MOMENT);
    EACH("result", result, m, of_job);
    EACH("result", result, m, of_tiles);
    EACH("result", result, m, of_memory);
    EACH("result", result, m, of_sizes);
    report("the record's sizes are as start wrote them", m->words[DUNKAFETO_JOB_SIZES] == sizes);
    report("a whole run makes (S + C + 18) * (n / 10) draws", m->words[DUNKAFETO_MADE] == dunkafeto_all_draws(S, C, N));
}

/* The record does not hold the tile size: a run that is taken up with the other one, call after call, is the same run. */
static void either_size(void) {
    static Lent one, both;
    int same = 1;
    fill(&one), fill(&both);
    start(&one), large(&both), start(&both);
    for (int turn = 0; turn < 1000 && one.words[DUNKAFETO_STAGE] != DUNKAFETO_FINISHED; turn++) {
        both.size = turn % 2 == 0 ? DUNKAFETO_SMALL_TILE : DUNKAFETO_LARGE_TILE;
        step(&one), step(&both);
        both.size = one.size;
        same = same && memcmp(&one, &both, sizeof one) == 0;
    }
    report("a run taken up with either tile size in turn is the same after every call", same && one.words[DUNKAFETO_STAGE] == DUNKAFETO_FINISHED);
}

/* A slice of no elements goes with NULL. */
static void no_elements(void) {
    static const uint32_t tiles[2] = {0, 0};
    float palette[3] = {0, 0, 0};
    uint32_t hints[1] = {9}, out[1] = {9};
    uint64_t words[DUNKAFETO_WORDS] = {0};
    uint64_t a = dunkafeto_assign(DUNKAFETO_SMALL_TILE, 1, 1, 1, 1.0f, tiles, 2, NULL, 0, NULL, 0, palette, 3, hints, 1, out, 1);
    uint64_t b = dunkafeto_start(DUNKAFETO_SMALL_TILE, 1, 1, 1, 0, 1.0f, 0, tiles, 2, NULL, 0, NULL, 0, NULL, 0, NULL, 0, hints, 1, palette, 3,
                                 palette, 3, words, DUNKAFETO_WORDS);
    report("assign with an empty tile and NULL for no colours: 0", a == DUNKAFETO_DONE && out[0] == 0 && hints[0] == 9);
    report("start with NULL for no samples: 1", b == DUNKAFETO_NO_SAMPLES);
}

int main(void) {
    static Lent m;
    fill(&m);
    EACH("assign", assign, &m, of_assign);
    EACH("assign", assign, &m, of_tiles);
    run_to_stop(&m);
    run_to_finish(&m);
    no_elements();
    either_size();
    return 0;
}
