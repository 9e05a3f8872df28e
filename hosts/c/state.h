/* The state file of a run: what the library was lent, the key of what it belongs to, and a checksum. */
#ifndef STATE_H
#define STATE_H

#include "run.h"

typedef enum {
    STATE_READ,
    STATE_ABSENT,     /* there is no such file */
    STATE_UNREADABLE, /* errno says why */
    STATE_STRANGE,    /* it is no state file */
    STATE_EARLIER,    /* it is of an earlier release, whose record has six words */
    STATE_FOREIGN,    /* it belongs to another sheet or another seed */
    STATE_LENGTH,     /* it is cut short or goes on past its end */
    STATE_DAMAGED     /* its checksum is wrong */
} StateFault;

/* What a state belongs to: the sheet's bytes and all else that the result depends on. */
uint64_t state_key(const unsigned char *sheet, size_t len, uint64_t seed);

/* Puts the run in the place of the file: 1, or 0 with errno set. */
int state_save(const Run *run, uint64_t key, const char *name);

/* Takes up the run that is in the file. It is changed only where STATE_READ is the answer; the file never is.
 * Whether the memory is that of a run, run_check says. */
StateFault state_load(Run *run, uint64_t key, const char *name);

/* Whether the file was saved by an earlier release, whole or cut short. Nothing may be written in its place. */
int state_is_earlier(const char *name);

/* A fault in words, the same as those of the host in Rust. */
const char *state_says(StateFault fault);

#endif
