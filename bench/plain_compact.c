/* plain_compact FILE: the compacted trace to standard output, and how many records it had and
   kept on standard error: the program `compact` in plain C. It goes over the file twice, once
   for the length and once for the records, and reads and writes in blocks of 64 KiB. */
#include "atc2_plain.h"
#include "blocks.h"

#include <fcntl.h>
#include <inttypes.h>
#include <stdio.h>

/* Compacts so many records of the file, or as many as it still has. */
static void compact_records(int file, uint64_t records, uint8_t *block)
{
    struct plain_waiting waiting = {.waits = false};
    uint64_t had = 0, kept = 0;
    plain_fresh(&waiting.ride);
    while (had < records) {
        size_t in_block = read_block(file, block) / 8;
        if (in_block == 0)
            break;
        if (in_block > records - had)
            in_block = (size_t)(records - had);
        size_t out = plain_compact_block(&waiting, GAP, block, in_block);
        write_all(block, 8 * out);
        had += in_block;
        kept += out;
    }
    if (waiting.waits) {
        write_all(waiting.record, 8);
        kept++;
    }
    fprintf(stderr, "compact: %" PRIu64 " records, %" PRIu64 " kept\n", had, kept);
}

int main(int argc, char **argv)
{
    static uint8_t block[BLOCK];
    int file = argc < 2 ? -1 : open(argv[1], O_RDONLY);
    if (file < 0)
        return 0;
    uint64_t length = length_of(file, block);
    if (length % 8 != 0)
        fputs("compact: refused 16\n", stderr);
    else if (lseek(file, 0, SEEK_SET) == 0)
        compact_records(file, length / 8, block);
    close(file);
    return 0;
}
