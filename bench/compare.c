/* compare CASES SEED: the sides on inputs by chance, good and damaged. Every short and every
   long word is read and written, every distance looked up; then so many cases of a buffer, a
   stretch and a pair for the searches. Every answer is compared, with every array that was lent.
   Writes the first difference and ends with status 1, or how many answers were alike. */
#include "chance.h"
#include "pair.h"
#include "sides.h"

#include <inttypes.h>
#include <stdio.h>
#include <stdlib.h>
#include <string.h>

static uint64_t alike;

/* Ends the run at a difference; where says which case it was. */
static void same(bool holds, const char *what, uint64_t where)
{
    if (!holds) {
        printf("%s: the two sides DIFFER at case %" PRIu64 "\n", what, where);
        exit(1);
    }
    alike++;
}

/* How often each search gave each answer, -9 to 2: a comparison that never met one says little
   of it. */
enum { FIND, JUDGE, BEGIN, NEXT, SEARCHES };
static const char *const names[SEARCHES] = {"find", "judge", "begin", "next_contact"};
static uint64_t met[SEARCHES][12];

static void tally(void)
{
    for (int k = 0; k < SEARCHES; k++) {
        printf("%s answered", names[k]);
        for (int i = 11; i >= 0; i--)
            if (met[k][i] > 0)
                printf("  %d: %" PRIu64, i - 9, met[k][i]);
        printf("\n");
    }
}

/* ---- Words and distances: all of them ---- */

static void compare_words(void)
{
    for (uint32_t w = 0; w < 65536; w++) {
        same(atc2_read_long((uint16_t)w) == plain_read_long((uint16_t)w), "atc2_read_long", w);
        same(atc2_write_long((uint16_t)w) == plain_write_long((uint16_t)w), "atc2_write_long", w);
    }
    for (uint32_t w = 0; w < 256; w++) {
        same(atc2_read_short((uint8_t)w) == plain_read_short((uint8_t)w), "atc2_read_short", w);
        same(atc2_write_short((uint8_t)w) == plain_write_short((uint8_t)w), "atc2_write_short", w);
        for (uint32_t f = 0; f < 256; f++)
            same(atc2_distance((uint8_t)w, (uint8_t)f) == plain_distance((uint8_t)w, (uint8_t)f), "atc2_distance", w * 256 + f);
    }
}

/* ---- A buffer by chance ---- */

#define MOST 400

static uint8_t buffer[MOST];
static size_t bytes, length; /* of the buffer, and the bits that stand in it */

static void put_bit(uint32_t bit)
{
    if (length < 8 * bytes) {
        buffer[length / 8] = (uint8_t)(buffer[length / 8] << 1 | bit);
        length++;
    }
}

static void put_run(uint32_t count, uint32_t bit)
{
    while (count-- > 0)
        put_bit(bit);
}

static void put_byte(uint8_t byte)
{
    for (int i = 7; i >= 0; i--)
        put_bit(byte >> i & 1);
}

/* A received word: mostly one of the code, 15 among them. */
static uint8_t word(void)
{
    uint8_t figure = (uint8_t)below(16), any = (uint8_t)below(256);
    return in_hundred(95) ? (uint8_t)plain_write_short(figure) : any;
}

/* A balise heard so many times, now and then with other words between. */
static void put_balise(uint8_t s, uint8_t t)
{
    uint8_t x = word(), y = word(), z = word();
    if (in_hundred(20)) {
        int32_t number = plain_write_long((uint16_t)below(2048));
        x = 0xC3;
        y = (uint8_t)(number >> 8);
        z = (uint8_t)number;
    }
    for (uint32_t i = 0, count = between(1, 12); i < count; i++) {
        put_byte(i % 2 == 0 ? s : t);
        put_byte(x);
        put_byte(y);
        put_byte(in_hundred(2) ? word() : z);
    }
    if (in_hundred(80))
        put_byte(s);
}

static void fill(uint8_t s, uint8_t t)
{
    bytes = below(MOST + 1);
    length = 0;
    while (length < 8 * bytes) {
        uint32_t bits = between(1, 200);
        switch (below(5)) {
        case 0: put_run(bits, 1); break;
        case 1: put_run(bits, 0); break;
        case 2:
            while (bits-- > 0)
                put_bit((uint32_t)(next() >> 63));
            break;
        default: put_balise(s, t);
        }
    }
    for (uint32_t flips = in_hundred(50) ? below(8) : 0; flips > 0 && bytes > 0; flips--) {
        uint32_t at = below((uint32_t)(8 * bytes));
        buffer[at / 8] ^= (uint8_t)(1 << at % 8);
    }
}

/* A number that a stretch may be asked with: mostly inside, now and then at or past an edge. */
static uint64_t edged(uint64_t most)
{
    uint32_t part = below((uint32_t)most + 1), little = below(20);
    switch (below(20)) {
    case 0: return most + little;
    case 1: return 16777216 + little;
    case 2: return UINT64_MAX - little;
    case 3: return next();
    default: return part;
    }
}

/* ---- The searches on it ---- */

static uint64_t before[3];

static void lend(uint64_t ours[3], uint64_t theirs[3])
{
    memcpy(ours, before, sizeof before);
    memcpy(theirs, before, sizeof before);
}

static bool same_arrays(const uint64_t a[3], const uint64_t b[3])
{
    return memcmp(a, b, sizeof before) == 0;
}

static void compare_stretch_with(const struct side *other, uint64_t i, size_t start, size_t len, uint8_t s, uint8_t t)
{
    uint64_t a[3], b[3];
    lend(a, b);
    int32_t ours = proved.find(buffer, bytes, start, len, s, t, a), theirs = other->find(buffer, bytes, start, len, s, t, b);
    same(ours == theirs && same_arrays(a, b), "atc2_find", i);
    met[FIND][ours + 9]++;
    same(ours == 0 || same_arrays(a, before), "atc2_find leaves out", i);
    lend(a, b);
    ours = proved.judge(buffer, bytes, start, len, s, t, a);
    theirs = other->judge(buffer, bytes, start, len, s, t, b);
    same(ours == theirs && same_arrays(a, b), "atc2_judge", i);
    met[JUDGE][ours + 9]++;
    same(ours == 1 || same_arrays(a, before), "atc2_judge leaves out", i);
    lend(a, b);
    ours = proved.begin(buffer, bytes, start, len, a);
    theirs = other->begin(buffer, bytes, start, len, b);
    same(ours == theirs && same_arrays(a, b), "atc2_begin", i);
    met[BEGIN][ours + 9]++;
    same(ours == 0 || same_arrays(a, before), "atc2_begin leaves search", i);
}

static void compare_stretch(uint64_t i, size_t start, size_t len, uint8_t s, uint8_t t)
{
    compare_stretch_with(&other, i, start, len, s, t);
    compare_stretch_with(&wide, i, start, len, s, t);
}

/* Contact after contact, each judged, from a search that is begun or invented. */
static void compare_contacts(uint64_t i, size_t start, size_t len, uint8_t s, uint8_t t)
{
    uint64_t a[3] = {start, len, 65535}, b[3], c[3], was[3], out_a[3], out_b[3];
    if (in_hundred(30))
        a[2] = in_hundred(50) ? below(65536) : next();
    memcpy(b, a, sizeof a);
    memcpy(c, a, sizeof a);
    for (int32_t ours = 1; ours == 1;) {
        memcpy(was, a, sizeof a);
        lend(out_a, out_b);
        ours = proved.next_contact(buffer, bytes, a, out_a);
        int32_t theirs = other.next_contact(buffer, bytes, b, out_b);
        same(ours == theirs && same_arrays(a, b) && same_arrays(out_a, out_b), "atc2_next_contact", i);
        memcpy(out_b, before, sizeof before);
        theirs = wide.next_contact(buffer, bytes, c, out_b);
        same(ours == theirs && same_arrays(a, c) && same_arrays(out_a, out_b), "wide_next_contact", i);
        met[NEXT][ours + 9]++;
        same(ours == 1 || (same_arrays(a, was) && same_arrays(out_a, before)), "atc2_next_contact leaves both", i);
        if (ours == 1)
            compare_stretch(i, (size_t)out_a[0], (size_t)out_a[1], s, t);
    }
}

static void compare_case(uint64_t i)
{
    uint8_t s = BENCH_S, t = BENCH_T;
    if (in_hundred(50)) {
        s = (uint8_t)below(256);
        t = (uint8_t)(~s ^ 1 << below(8));
    }
    fill(s, t);
    if (in_hundred(10))
        t = (uint8_t)below(256);
    for (int k = 0; k < 3; k++)
        before[k] = next();
    size_t start = (size_t)edged(8 * bytes), left = start < 8 * bytes ? 8 * bytes - start : 0, len = (size_t)edged(left);
    compare_stretch(i, start, len, s, t);
    compare_contacts(i, start, len, s, t);
    uint8_t x = word(), y = word(), z = word();
    same(atc2_read_telegram(x, y, z) == plain_read_telegram(x, y, z), "atc2_read_telegram", i);
}

int main(int argc, char **argv)
{
    if (argc != 3) {
        fprintf(stderr, "compare CASES SEED\n");
        return 2;
    }
    uint64_t cases = strtoull(argv[1], NULL, 10);
    chance_state = strtoull(argv[2], NULL, 10);
    compare_words();
    for (uint64_t i = 1; i <= cases; i++)
        compare_case(i);
    tally();
    printf("%" PRIu64 " cases from seed %s: %" PRIu64 " answers alike\n", cases, argv[2], alike);
    return 0;
}
