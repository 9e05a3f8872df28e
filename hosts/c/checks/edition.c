/* Writes a sheet in the edition of another tile size, with the same contents: edition SIZE <SHEET >SHEET. Status 2 where that edition
 * cannot hold them. */
#include <stdlib.h>
#include <string.h>

#include "../file.h"
#include "../sheet.h"

int main(int argc, char **argv) {
    static Sheet sheet, again;
    static unsigned char bytes[SHEET_MOST_BYTES + SHEET_MOST_BYTES / 16]; /* edition 2 takes two bits more for each tile and colour */
    size_t len;
    if (argc != 2 || !file_read(NULL, bytes, SHEET_MOST_BYTES, &len) || sheet_read(&sheet, bytes, len) != DUNKAFETO_DONE)
        return 2;
    sheet.size = strtoul(argv[1], NULL, 10);
    len = sheet_write(&sheet, bytes);
    if (sheet_read(&again, bytes, len) != DUNKAFETO_DONE || memcmp(&sheet, &again, sizeof sheet) != 0)
        return 2;
    return file_print(bytes, len) ? 0 : 1;
}
