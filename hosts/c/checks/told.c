/* The size that run.c tells the library is the sheet's: sheets that no reader has looked at, with tiles that one size allows and the other
 * does not. Prints a line for each: 'passed NAME' or 'failed NAME'. */
#include <inttypes.h>
#include <stdio.h>
#include <string.h>

#include "../run.h"

/* One tile of so many colours, each once. */
static void fill(Sheet *sheet, size_t size, uint32_t colours) {
    memset(sheet, 0, sizeof *sheet);
    sheet->size = size, sheet->s = sheet->c = sheet->t = 1, sheet->weight = 1.0f;
    sheet->tiles[1] = colours, sheet->colours_of_tiles = colours;
    for (uint32_t i = 0; i < colours; i++)
        sheet->counts[i] = 1;
}

/* What start says, and then, of a run that was started with large tiles, each of the other calls. */
static void report(size_t size, uint32_t colours, uint32_t number) {
    static Sheet sheet;
    static Run run;
    fill(&sheet, DUNKAFETO_LARGE_TILE, colours);
    int good = run_prepare(&run, &sheet) == DUNKAFETO_DONE && run_start(&run, 0) == DUNKAFETO_DONE;
    sheet.size = size;
    good = good && dunkafeto_number(run_check(&run)) == number && dunkafeto_number(run_step(&run, 1)) == number &&
           dunkafeto_number(run_start(&run, 0)) == number;
    printf("%s run.c on tiles of %zu with %" PRIu32 " colours: %" PRIu32 "\n", good ? "passed" : "failed", size, colours, number);
}

int main(void) {
    report(DUNKAFETO_SMALL_TILE, 64, DUNKAFETO_DONE);
    report(DUNKAFETO_SMALL_TILE, 65, DUNKAFETO_TILES);
    report(DUNKAFETO_LARGE_TILE, 65, DUNKAFETO_DONE);
    report(DUNKAFETO_LARGE_TILE, 256, DUNKAFETO_DONE);
    report(128, 64, DUNKAFETO_SIZES);
    return 0;
}
