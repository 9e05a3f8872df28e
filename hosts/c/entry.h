/* The entry that a refusal names, in words. */
#ifndef ENTRY_H
#define ENTRY_H

#include "sheet.h"

typedef struct {
    char words[120]; /* such as "tile 3, colour 2"; none where the refusal names no entry */
} Entry;

/* The entry of an answer about a sheet or a run on it. `palette` is how many palette colours the call counts among those of the job,
 * before the tiles' own: s * c for assign and for the sheet itself, 0 for the calls of a run. */
Entry entry_of(uint64_t answer, const Sheet *sheet, size_t palette);

#endif
