/* Saves a run on a sheet as the host does, with seed 0, after so many draws: begun SHEET DRAWS FILE. So a test has a state of a stage
 * that it chose. */
#include <stdlib.h>

#include "../file.h"
#include "../state.h"

static int done(uint64_t answer) { return dunkafeto_number(answer) == DUNKAFETO_DONE; }

int main(int argc, char **argv) {
    static Sheet sheet;
    static Run run;
    static unsigned char bytes[SHEET_MOST_BYTES];
    size_t len;
    if (argc != 4 || !file_read(argv[1], bytes, sizeof bytes, &len) || !done(sheet_read(&sheet, bytes, len)) ||
        !done(run_prepare(&run, &sheet)) || !done(run_start(&run, 0)) || !done(run_step(&run, strtoull(argv[2], NULL, 10))))
        return 2;
    return state_save(&run, state_key(bytes, len, 0), argv[3]) ? 0 : 1;
}
