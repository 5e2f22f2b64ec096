/* plain_checker FILE: the lines of a trace, the program `checker` in plain C. It goes over the
   file twice, once for the length and once for the records, and reads and writes in blocks of 64
   KiB. If the file can't be opened it writes nothing. */
#include "atc2_plain.h"
#include "blocks.h"

#include <fcntl.h>

/* Lists so many records of the file, or as many as it still has. */
static void list_records(int file, uint64_t records, uint8_t *block, char *out)
{
    struct plain_ride ride;
    size_t used = 0;
    plain_fresh(&ride);
    while (records > 0) {
        size_t in_block = read_block(file, block) / 8;
        if (in_block == 0)
            break;
        if (in_block > records)
            in_block = (size_t)records;
        for (size_t done = 0; done < in_block;) {
            size_t taken;
            used += plain_list(&ride, GAP, block + 8 * done, in_block - done, out + used, BLOCK - used, &taken);
            done += taken;
            if (done < in_block) {
                write_all(out, used);
                used = 0;
            }
        }
        records -= in_block;
    }
    if (BLOCK - used < PLAIN_ROOM) {
        write_all(out, used);
        used = 0;
    }
    used += plain_end(&ride, out + used);
    write_all(out, used);
}

int main(int argc, char **argv)
{
    static uint8_t block[BLOCK];
    static char out[BLOCK];
    int file = argc < 2 ? -1 : open(argv[1], O_RDONLY);
    if (file < 0)
        return 0;
    uint64_t length = length_of(file, block);
    if (length % 8 != 0)
        write_all(PLAIN_BAD_TRACE, sizeof PLAIN_BAD_TRACE - 1);
    else if (lseek(file, 0, SEEK_SET) == 0)
        list_records(file, length / 8, block, out);
    close(file);
    return 0;
}
