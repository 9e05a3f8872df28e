/* Writes a sheet of random tiles to standard output: picture SIZE SUBPALETTES COLOURS TILES SEED. drawn.h says which. */
#include <stdio.h>
#include <stdlib.h>

#include "drawn.h"

int main(int argc, char **argv) {
    static Sheet sheet;
    static unsigned char bytes[SHEET_MOST_BYTES];
    size_t len;
    size_t sizes[4];
    if (argc != 6)
        return 2;
    for (int i = 0; i < 4; i++)
        sizes[i] = strtoul(argv[1 + i], NULL, 10);
    drawn_sheet(&sheet, sizes[0], sizes[1], sizes[2], sizes[3], strtoull(argv[5], NULL, 10));
    len = sheet_write(&sheet, bytes);
    return fwrite(bytes, 1, len, stdout) == len && fflush(stdout) == 0 ? 0 : 1;
}
