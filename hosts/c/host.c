/* A host of the trainer: reads a sheet, trains its palette for a console of 15-bit colours, writes the trained sheet.
 * It may be killed at any moment and taken up again from its state file, with the same result. */
#define _POSIX_C_SOURCE 200809L
#include <errno.h>
#include <inttypes.h>
#include <stdio.h>
#include <stdlib.h>
#include <string.h>
#include <unistd.h>

#include "bytes.h"
#include "entry.h"
#include "file.h"
#include "state.h"

enum { GOOD = 0, REFUSED = 1, USAGE = 2, BAD_STATE = 3, NO_FILE = 4 };

static const char usage[] =
    "usage: host [-o FILE] [--state FILE] [--every N] [--seed N] [SHEET]\n"
    "Trains the palette of a fit sheet of edition 1 or 2 for a console of 15-bit colours and writes the trained sheet.\n"
    "  SHEET         the sheet to read; without it, or with -, standard input\n"
    "  -o FILE       where the trained sheet goes; without it, standard output\n"
    "  --state FILE  save the run there and, if it is there already, go on from it;\n"
    "                it is removed once the sheet is written\n"
    "  --every N     save after every N draws, 1 or more (1000)\n"
    "  --seed N      the seed of the draws, 0 to 18446744073709551615 (0)\n"
    "Status: 0 done, 1 sheet or job refused, 2 wrong use, 3 state file refused, 4 a file cannot be read or written.\n";

typedef struct {
    const char *sheet, *out, *state; /* NULL: standard input, standard output, none */
    uint64_t every, seed;
} Options;

/* ---- what is said */

static int complain(int status, const char *what, const char *why) {
    fprintf(stderr, "host: %s%s%s\n", what, *why == '\0' ? "" : ": ", why);
    return status;
}

static int complain_of_file(const char *doing, const char *name) {
    fprintf(stderr, "host: cannot %s %s: %s\n", doing, name, strerror(errno));
    return NO_FILE;
}

static int complain_of_state(const char *name, StateFault fault) {
    fprintf(stderr, "host: %s: %s; it is left as it is\n", name, state_says(fault));
    return BAD_STATE;
}

static int refused(int status, const char *what, uint64_t answer, Entry entry) {
    uint32_t number = dunkafeto_number(answer);
    const char *colon = *entry.words == '\0' ? "" : ": ";
    fprintf(stderr, "host: %s: refused %" PRIu32 ": %s%s%s\n", what, number, dunkafeto_says(number), colon, entry.words);
    return status;
}

/* By a call of the run. */
static int run_refused(int status, const char *what, uint64_t answer, const Run *run) {
    return refused(status, what, answer, entry_of(answer, run->sheet, 0));
}

static int done(uint64_t answer) { return dunkafeto_number(answer) == DUNKAFETO_DONE; }

/* One line that is written again and again, for a person who watches. */
static void show_progress(const Run *run) {
    uint64_t all = dunkafeto_all_draws(run->sheet->s, run->sheet->c, run->n);
    if (!isatty(STDERR_FILENO))
        return;
    fprintf(stderr, "\rstage %" PRIu64 ", draw %" PRIu64 " of %" PRIu64 " ", run->words[DUNKAFETO_STAGE], run->words[DUNKAFETO_MADE], all);
    if (run_finished(run))
        fputc('\n', stderr);
}

/* ---- the command line */

/* A decimal number that is all of the word. */
static int number_in(const char *word, uint64_t least, uint64_t *value) {
    char *end;
    errno = 0;
    if (*word < '0' || *word > '9')
        return 0;
    *value = strtoull(word, &end, 10);
    return *end == '\0' && errno == 0 && *value >= least;
}

/* Reads the option at argv[i], which has a value after it. */
static int take_option(Options *o, const char *name, const char *value) {
    if (value == NULL)
        return complain(USAGE, name, "a value is missing");
    if (strcmp(name, "-o") == 0)
        o->out = value;
    else if (strcmp(name, "--state") == 0)
        o->state = value;
    else if (strcmp(name, "--every") == 0)
        return number_in(value, 1, &o->every) ? GOOD : complain(USAGE, name, "not a number from 1 on");
    else if (strcmp(name, "--seed") == 0)
        return number_in(value, 0, &o->seed) ? GOOD : complain(USAGE, name, "not a number of 64 bits");
    else
        return complain(USAGE, name, "no such option");
    return GOOD;
}

static int take_options(Options *o, int argc, char **argv) {
    int sheets = 0;
    for (int i = 1; i < argc; i++) {
        if (argv[i][0] == '-' && argv[i][1] != '\0') {
            int status = take_option(o, argv[i], argv[i + 1]);
            if (status != GOOD)
                return status;
            i++;
        } else if (sheets++ == 0) {
            o->sheet = strcmp(argv[i], "-") == 0 ? NULL : argv[i];
        } else {
            return complain(USAGE, argv[i], "one sheet at a time");
        }
    }
    if (o->out != NULL && o->state != NULL && strcmp(o->out, o->state) == 0)
        return complain(USAGE, o->out, "sheet and state need a file each");
    if (o->out == NULL && isatty(STDOUT_FILENO))
        return complain(USAGE, "a sheet is no text for a terminal", "name a file with -o");
    return GOOD;
}

/* ---- the work */

/* Neither a file that is to be written nor the new file beside it may be an earlier release's state. */
static int spare_earlier(const char *name) {
    char *fresh;
    int status = GOOD;
    if (name == NULL)
        return GOOD;
    fresh = file_new_name(name);
    if (fresh == NULL)
        return complain_of_file("write", name);
    if (state_is_earlier(name))
        status = complain_of_state(name, STATE_EARLIER);
    else if (state_is_earlier(fresh))
        status = complain_of_state(fresh, STATE_EARLIER);
    free(fresh);
    return status;
}

static int read_sheet(const Options *o, Sheet *sheet, uint64_t *key) {
    static unsigned char bytes[SHEET_MOST_BYTES + 1]; /* one more, to see that a sheet is too large */
    const char *name = o->sheet == NULL ? "standard input" : o->sheet;
    size_t len;
    uint64_t answer;
    if (!file_read(o->sheet, bytes, sizeof bytes, &len))
        return complain_of_file("read", name);
    answer = sheet_read(sheet, bytes, len);
    if (!done(answer))
        return refused(REFUSED, name, answer, entry_of(answer, sheet, sheet->s * sheet->c));
    *key = state_key(bytes, len, o->seed);
    return GOOD;
}

/* Goes on from the state file, or gives -1 where there is none. */
static int resume(const Options *o, Run *run, uint64_t key) {
    StateFault fault = o->state == NULL ? STATE_ABSENT : state_load(run, key, o->state);
    uint64_t answer;
    if (fault == STATE_ABSENT)
        return -1;
    if (fault == STATE_UNREADABLE)
        return complain_of_file("read", o->state);
    if (fault != STATE_READ)
        return complain_of_state(o->state, fault);
    answer = run_check(run);
    if (!done(answer))
        return run_refused(BAD_STATE, o->state, answer, run);
    fprintf(stderr, "resumed at draw %" PRIu64 "\n", run->words[DUNKAFETO_MADE]);
    return GOOD;
}

static int save(const Options *o, const Run *run, uint64_t key) {
    if (o->state == NULL || state_save(run, key, o->state))
        return GOOD;
    return complain_of_file("save", o->state);
}

static int train(const Options *o, Run *run, uint64_t key) {
    int status = resume(o, run, key);
    uint64_t answer = DUNKAFETO_DONE;
    if (status > GOOD)
        return status;
    if (status < GOOD)
        answer = run_start(run, o->seed);
    while (done(answer) && !run_finished(run)) {
        answer = run_step(run, o->every);
        show_progress(run);
        status = done(answer) ? save(o, run, key) : GOOD;
        if (status != GOOD)
            return status;
    }
    return done(answer) ? GOOD : run_refused(REFUSED, "job", answer, run);
}

static int write_sheet(const Options *o, const Sheet *sheet) {
    static unsigned char bytes[SHEET_MOST_BYTES];
    size_t len = sheet_write(sheet, bytes);
    int good = o->out == NULL ? file_print(bytes, len) : file_replace(o->out, bytes, len);
    if (!good)
        return complain_of_file("write", o->out == NULL ? "standard output" : o->out);
    fprintf(stderr, "checksum %016" PRIx64 "\n", fnv1a(FNV_START, bytes, len));
    if (o->state != NULL && !file_remove(o->state))
        return complain_of_file("remove", o->state);
    return GOOD;
}

/* Everything after the command line. */
static int work(const Options *o) {
    static Sheet sheet;
    static Run run;
    uint64_t key = 0;
    uint64_t answer;
    int status = spare_earlier(o->state);
    if (status == GOOD)
        status = spare_earlier(o->out);
    if (status == GOOD)
        status = read_sheet(o, &sheet, &key);
    if (status != GOOD)
        return status;
    answer = run_prepare(&run, &sheet);
    if (!done(answer))
        return run_refused(REFUSED, "job", answer, &run);
    status = train(o, &run, key);
    if (status != GOOD)
        return status;
    answer = run_result(&run, sheet.palette);
    if (!done(answer))
        return run_refused(REFUSED, "job", answer, &run);
    return write_sheet(o, &sheet);
}

int main(int argc, char **argv) {
    Options o = {NULL, NULL, NULL, 1000, 0};
    int status;
    if (argc == 2 && (strcmp(argv[1], "-h") == 0 || strcmp(argv[1], "--help") == 0))
        return fputs(usage, stdout) < 0 ? NO_FILE : GOOD;
    status = take_options(&o, argc, argv);
    if (status == GOOD)
        return work(&o);
    fputs(usage, stderr);
    return status;
}
