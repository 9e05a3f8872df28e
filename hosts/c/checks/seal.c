/* Changes bytes of a state file as a stranger would who knows its checksum: seal FILE PLACE BYTE.. (PLACE from the end if negative,
 * before the checksum). What the file then holds is for the library to refuse. */
#include <stdio.h>
#include <stdlib.h>

#include "../bytes.h"
#include "../file.h"

int main(int argc, char **argv) {
    static unsigned char bytes[1 << 17];
    size_t len, at;
    long place;
    if (argc < 4 || !file_read(argv[1], bytes, sizeof bytes, &len) || len < 8)
        return 2;
    len -= 8;
    place = strtol(argv[2], NULL, 10);
    at = place < 0 ? len - (size_t)-place : (size_t)place;
    for (int i = 3; i < argc && at < len; i++)
        bytes[at++] = (unsigned char)strtoul(argv[i], NULL, 0);
    put_u64(bytes + len, fnv1a(FNV_START, bytes, len));
    return file_replace(argv[1], bytes, len + 8) ? 0 : 1;
}
