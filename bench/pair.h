/* The sync pair of the stretches that gen.c makes: two bytes that differ in seven bits. */
#ifndef BENCH_PAIR_H
#define BENCH_PAIR_H

#define BENCH_S 0x1E
#define BENCH_T 0xE0

#endif
