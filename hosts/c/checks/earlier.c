/* Turns a state file into what an earlier release saved of the same run: earlier FILE. It had another digit in its opening and a record of
 * six words, without that of the sizes, which is the last thing before the checksum. */
#include "../bytes.h"
#include "../file.h"

enum { DIGIT = 6, WORD = 8, SUM = 8 };

int main(int argc, char **argv) {
    static unsigned char bytes[1 << 17];
    size_t len;
    if (argc != 2 || !file_read(argv[1], bytes, sizeof bytes, &len) || len < 100 || bytes[DIGIT] != '2')
        return 2;
    bytes[DIGIT] = '1';
    len -= WORD + SUM;
    put_u64(bytes + len, fnv1a(FNV_START, bytes, len));
    return file_replace(argv[1], bytes, len + SUM) ? 0 : 1;
}
