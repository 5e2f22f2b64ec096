/* A file read, and what comes of it written, in blocks of 64 KiB: what the plain programs share. */
#ifndef BENCH_BLOCKS_H
#define BENCH_BLOCKS_H

#include <stddef.h>
#include <stdint.h>
#include <unistd.h>

#define BLOCK 65536
#define GAP 40

/* Fills the block as far as the file goes. */
static inline size_t read_block(int file, uint8_t *block)
{
    size_t have = 0;
    while (have < BLOCK) {
        ssize_t got = read(file, block + have, BLOCK - have);
        if (got <= 0)
            break;
        have += (size_t)got;
    }
    return have;
}

/* How many bytes the file has from here on. */
static inline uint64_t length_of(int file, uint8_t *block)
{
    uint64_t length = 0;
    size_t have;
    while ((have = read_block(file, block)) > 0)
        length += have;
    return length;
}

/* Writes the bytes to standard output, as far as it takes them. */
static inline void write_all(const void *bytes, size_t n)
{
    const uint8_t *rest = bytes;
    while (n > 0) {
        ssize_t put = write(STDOUT_FILENO, rest, n);
        if (put <= 0)
            return;
        rest += put;
        n -= (size_t)put;
    }
}

#endif
