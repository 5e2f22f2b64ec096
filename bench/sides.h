/* The sides of the bench under one type: the proved functions of include/atc2.h, the plain ones,
   and the searches by words. With EARLIER defined the second is the proved functions of an
   earlier library, whose names `bench/run since` begins with earlier_. */
#ifndef BENCH_SIDES_H
#define BENCH_SIDES_H

#include "../include/atc2.h"
#include "atc2_plain.h"
#include "atc2_wide.h"

struct side {
    const char *name;
    int32_t (*read_short)(uint8_t word);
    int32_t (*read_long)(uint16_t word);
    int32_t (*find)(const uint8_t *buf, size_t n, size_t start, size_t len, uint8_t s, uint8_t t, uint64_t out[2]);
    int32_t (*judge)(const uint8_t *buf, size_t n, size_t start, size_t len, uint8_t s, uint8_t t, uint64_t out[3]);
    int32_t (*begin)(const uint8_t *buf, size_t n, size_t start, size_t len, uint64_t search[3]);
    int32_t (*next_contact)(const uint8_t *buf, size_t n, uint64_t search[3], uint64_t out[2]);
};

/* The library keeps a search in the header's struct: the same three numbers. */
#define WITH_SEARCH(side, of)                                                                                                 \
    static int32_t side##_begin(const uint8_t *buf, size_t n, size_t start, size_t len, uint64_t search[3])                  \
    {                                                                                                                        \
        struct atc2_search at = {search[0], search[1], search[2]};                                                           \
        int32_t answer = of##begin(buf, n, start, len, &at);                                                                 \
        search[0] = at.next, search[1] = at.left, search[2] = at.history;                                                    \
        return answer;                                                                                                       \
    }                                                                                                                        \
    static int32_t side##_next_contact(const uint8_t *buf, size_t n, uint64_t search[3], uint64_t out[2])                    \
    {                                                                                                                        \
        struct atc2_search at = {search[0], search[1], search[2]};                                                           \
        int32_t answer = of##next_contact(buf, n, &at, out);                                                                 \
        search[0] = at.next, search[1] = at.left, search[2] = at.history;                                                    \
        return answer;                                                                                                       \
    }

WITH_SEARCH(proved, atc2_)
static const struct side proved = {"proved", atc2_read_short, atc2_read_long, atc2_find, atc2_judge, proved_begin, proved_next_contact};

#ifdef EARLIER
int32_t earlier_atc2_read_short(uint8_t word);
int32_t earlier_atc2_read_long(uint16_t word);
int32_t earlier_atc2_find(const uint8_t *buf, size_t n, size_t start, size_t len, uint8_t s, uint8_t t, uint64_t out[2]);
int32_t earlier_atc2_judge(const uint8_t *buf, size_t n, size_t start, size_t len, uint8_t s, uint8_t t, uint64_t out[3]);
int32_t earlier_atc2_begin(const uint8_t *buf, size_t n, size_t start, size_t len, struct atc2_search *search);
int32_t earlier_atc2_next_contact(const uint8_t *buf, size_t n, struct atc2_search *search, uint64_t out[2]);
WITH_SEARCH(earlier, earlier_atc2_)
static const struct side other = {"earlier", earlier_atc2_read_short, earlier_atc2_read_long, earlier_atc2_find, earlier_atc2_judge,
                                  earlier_begin, earlier_next_contact};
#else
static const struct side other = {"plain", plain_read_short, plain_read_long, plain_find, plain_judge, plain_begin, plain_next_contact};
#endif

static const struct side wide = {"wide", NULL, NULL, wide_find, wide_judge, plain_begin, wide_next_contact};

#endif
