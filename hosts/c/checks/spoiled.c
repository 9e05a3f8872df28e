/* Spoils colours of a sheet, which sheet_write does not look at: spoiled INDEX.. <SHEET >SHEET. An index counts the palette's colours and
 * then the tiles', as that of a refusal does; the last component of each becomes NaN. */
#include <math.h>
#include <stdio.h>
#include <stdlib.h>

#include "../file.h"
#include "../sheet.h"

int main(int argc, char **argv) {
    static Sheet sheet;
    static unsigned char bytes[SHEET_MOST_BYTES];
    size_t len;
    if (!file_read(NULL, bytes, sizeof bytes, &len) || sheet_read(&sheet, bytes, len) != DUNKAFETO_DONE)
        return 2;
    for (int i = 1; i < argc; i++) {
        size_t index = strtoul(argv[i], NULL, 10), colours = sheet.s * sheet.c;
        if (index >= colours + sheet.colours_of_tiles)
            return 2;
        *(index < colours ? sheet.palette + 3 * index + 2 : sheet.colours + 3 * (index - colours) + 2) = NAN;
    }
    return file_print(bytes, sheet_write(&sheet, bytes)) ? 0 : 1;
}
