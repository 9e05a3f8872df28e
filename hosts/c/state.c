/* The state file: 8 bytes of opening, the key, the memory lent (order, hints, palette, least, words), the checksum of all before it.
 * Numbers stand least significant byte first. The key fixes the sheet, and the sheet every length.
 * The opening has the version: an earlier release wrote the same with a record of six words. */
#include "state.h"

#include <errno.h>
#include <string.h>

#include "bytes.h"
#include "file.h"

#define OPENING "DNKRUN2\n"
#define EARLIER_OPENING "DNKRUN1\n"

enum {
    OPENING_LEN = 8,
    HEAD_LEN = OPENING_LEN + 8,
    TAIL_LEN = 8,
    MOST_LEN = HEAD_LEN + 4 * (DUNKAFETO_MOST_SAMPLES + DUNKAFETO_MOST_TILES + 2 * MOST_CELLS) + 8 * DUNKAFETO_WORDS + TAIL_LEN
};

/* The console's colours are named, since another reduction would give another result. */
uint64_t state_key(const unsigned char *sheet, size_t len, uint64_t seed) {
    static const unsigned char console[] = "rgb555";
    unsigned char number[8];
    uint64_t key = fnv1a(FNV_START, sheet, len);
    put_u64(number, seed);
    return fnv1a(fnv1a(key, number, sizeof number), console, sizeof console);
}

static size_t state_len(const Run *run) {
    return HEAD_LEN + 4 * (run->n + run->sheet->t + 2 * run_cells(run)) + 8 * DUNKAFETO_WORDS + TAIL_LEN;
}

int state_save(const Run *run, uint64_t key, const char *name) {
    static unsigned char bytes[MOST_LEN];
    unsigned char *at = put_u64((unsigned char *)memcpy(bytes, OPENING, OPENING_LEN) + OPENING_LEN, key);
    at = put_u32s(at, run->order, run->n);
    at = put_u32s(at, run->hints, run->sheet->t);
    at = put_floats(at, run->palette, run_cells(run));
    at = put_floats(at, run->least, run_cells(run));
    for (int i = 0; i < DUNKAFETO_WORDS; i++)
        at = put_u64(at, run->words[i]);
    at = put_u64(at, fnv1a(FNV_START, bytes, (size_t)(at - bytes)));
    return file_replace(name, bytes, (size_t)(at - bytes));
}

static int opens_with(const char *opening, const unsigned char *bytes, size_t len) {
    return len >= OPENING_LEN && memcmp(bytes, opening, OPENING_LEN) == 0;
}

/* The first thing wrong with a file's bytes. Of an earlier release's nothing but the opening is looked at: that it is cut short or
 * belongs to another sheet changes nothing. */
static StateFault fault_in(const Run *run, uint64_t key, const unsigned char *bytes, size_t len) {
    uint64_t found;
    if (opens_with(EARLIER_OPENING, bytes, len))
        return STATE_EARLIER;
    if (!opens_with(OPENING, bytes, len))
        return STATE_STRANGE;
    if (len < HEAD_LEN)
        return STATE_LENGTH;
    get_u64(bytes + OPENING_LEN, &found);
    if (found != key)
        return STATE_FOREIGN;
    if (len != state_len(run))
        return STATE_LENGTH;
    get_u64(bytes + len - TAIL_LEN, &found);
    return found == fnv1a(FNV_START, bytes, len - TAIL_LEN) ? STATE_READ : STATE_DAMAGED;
}

StateFault state_load(Run *run, uint64_t key, const char *name) {
    static unsigned char bytes[MOST_LEN + 1]; /* one more, to see that a file is too long */
    const unsigned char *at = bytes + HEAD_LEN;
    size_t len;
    StateFault fault;
    if (!file_read(name, bytes, sizeof bytes, &len))
        return errno == ENOENT ? STATE_ABSENT : STATE_UNREADABLE;
    fault = fault_in(run, key, bytes, len);
    if (fault != STATE_READ)
        return fault;
    at = get_u32s(at, run->order, run->n);
    at = get_u32s(at, run->hints, run->sheet->t);
    at = get_floats(at, run->palette, run_cells(run));
    at = get_floats(at, run->least, run_cells(run));
    for (int i = 0; i < DUNKAFETO_WORDS; i++)
        at = get_u64(at, &run->words[i]);
    return STATE_READ;
}

int state_is_earlier(const char *name) {
    unsigned char bytes[OPENING_LEN];
    size_t len;
    return file_is_regular(name) && file_read(name, bytes, sizeof bytes, &len) && opens_with(EARLIER_OPENING, bytes, len);
}

const char *state_says(StateFault fault) {
    switch (fault) {
    case STATE_READ: return "it is in order";
    case STATE_ABSENT: return "it is not there";
    case STATE_UNREADABLE: return "it cannot be read";
    case STATE_STRANGE: return "it is no saved run";
    case STATE_EARLIER:
        return "it is of an earlier release, whose record has six words and does not know its job's sizes, and cannot be resumed: "
               "finish it with the release that wrote it, or start the run again under another name";
    case STATE_FOREIGN: return "it belongs to another job or another seed";
    case STATE_LENGTH: return "it is cut short or goes on past its end";
    case STATE_DAMAGED: return "it is damaged: its checksum is wrong";
    }
    return "it is wrong";
}
