#include "atc2_wide.h"

#include "atc2_plain.h"

#include <string.h>

/* The 64 bits from byte i on; zeroes beyond the end. */
static inline uint64_t word_at(const uint8_t *buf, size_t n, size_t i)
{
    uint64_t word = 0;
    if (i + 8 <= n) {
        memcpy(&word, buf + i, 8);
        return __builtin_bswap64(word);
    }
    for (size_t k = i; k < i + 8; k++)
        word = word << 8 | (k < n ? buf[k] : 0);
    return word;
}

/* The n bits from bit at on, at most 56. */
static inline uint64_t bits_at(const uint8_t *buf, size_t n, size_t at, int many)
{
    return word_at(buf, n, at / 8) << at % 8 >> (64 - many);
}

/* ---- Places ---- */

/* What bit j of a byte is to be flipped by so that it is set where the byte is the exclusive or
   of the sync pair; highest first. */
static void flips(uint8_t s, uint8_t t, uint64_t flip[8])
{
    for (int j = 0; j < 8; j++)
        flip[j] = (uint64_t)((s ^ t) >> (7 - j) & 1) - 1;
}

/* A bit for each of the 64 offsets from byte i on, the first highest: set where two bytes 32
   bits apart differ as the pair does. */
static inline uint64_t marks(const uint8_t *buf, size_t n, size_t i, const uint64_t flip[8])
{
    uint64_t differ = word_at(buf, n, i) ^ word_at(buf, n, i + 4);
    uint64_t next = word_at(buf, n, i + 8) ^ word_at(buf, n, i + 12);
    uint64_t marked = differ ^ flip[0];
    for (int j = 1; j < 8; j++)
        marked &= (differ << j | next >> (64 - j)) ^ flip[j];
    return marked;
}

/* The telegram at an offset, or a negative number. */
static inline int32_t telegram_at(const uint8_t *buf, size_t n, size_t at, uint8_t s, uint8_t t)
{
    uint64_t window = bits_at(buf, n, at, 40), outer = window & 0xFF000000FF;
    if (outer != ((uint64_t)s << 32 | t) && outer != ((uint64_t)t << 32 | s))
        return -1;
    return plain_read_telegram((uint8_t)(window >> 24), (uint8_t)(window >> 16), (uint8_t)(window >> 8));
}

/* Goes over the places of a good stretch: where *at stands on one word's marks, on to the next
   place; its telegram, or -1 past the last. */
struct walk {
    size_t i, stop; /* the byte of the marks, the offset after the last */
    uint64_t marked, flip[8];
};

static void walk_from(struct walk *walk, const uint8_t *buf, size_t n, size_t start, size_t len, uint8_t s, uint8_t t)
{
    flips(s, t, walk->flip);
    walk->i = start / 8;
    walk->stop = start + len - 39;
    walk->marked = marks(buf, n, walk->i, walk->flip) & UINT64_MAX >> start % 8;
}

static inline int32_t next_place(struct walk *walk, const uint8_t *buf, size_t n, uint8_t s, uint8_t t, size_t *place)
{
    for (;;) {
        while (walk->marked == 0) {
            walk->i += 8;
            if (8 * walk->i >= walk->stop)
                return -1;
            walk->marked = marks(buf, n, walk->i, walk->flip);
        }
        int k = __builtin_clzll(walk->marked);
        size_t at = 8 * walk->i + (size_t)k;
        if (at >= walk->stop)
            return -1;
        walk->marked &= ~(UINT64_C(1) << 63 >> k);
        int32_t telegram = telegram_at(buf, n, at, s, t);
        if (telegram >= 0) {
            *place = at;
            return telegram;
        }
    }
}

int32_t wide_find(const uint8_t *buf, size_t n, size_t start, size_t len, uint8_t s, uint8_t t, uint64_t out[2])
{
    if (!plain_is_good_pair(s, t))
        return -4;
    if (!plain_is_good_stretch(n, start, len))
        return -5;
    if (len < 40)
        return -6;
    struct walk walk;
    size_t place;
    walk_from(&walk, buf, n, start, len, s, t);
    int32_t telegram = next_place(&walk, buf, n, s, t, &place);
    if (telegram < 0)
        return -6;
    out[0] = place;
    out[1] = (uint64_t)telegram;
    return 0;
}

int32_t wide_judge(const uint8_t *buf, size_t n, size_t start, size_t len, uint8_t s, uint8_t t, uint64_t out[3])
{
    if (!plain_is_good_pair(s, t))
        return -4;
    if (!plain_is_good_stretch(n, start, len))
        return -5;
    int32_t read = -1;
    uint64_t places = 0;
    size_t first = 0;
    if (len >= 40) {
        struct walk walk;
        size_t place;
        walk_from(&walk, buf, n, start, len, s, t);
        read = next_place(&walk, buf, n, s, t, &first);
        for (int32_t telegram = read; telegram >= 0; telegram = next_place(&walk, buf, n, s, t, &place)) {
            if (telegram != read)
                return -7;
            places++;
        }
    }
    if (places >= 2) {
        out[0] = (uint64_t)read;
        out[1] = first;
        out[2] = places;
        return 1;
    }
    return plain_is_marker(buf, start, len) ? 2 : -8;
}

/* ---- Contacts ---- */

/* The zeroes among sixteen bits, counted from each bit of a word upwards: bit k of each digit
   belongs to the bits from k on. */
struct digits {
    uint64_t a, b, c, d, e;
};

static inline struct digits zeroes(uint64_t word)
{
    uint64_t one = ~word, next = one >> 1;
    uint64_t a = one ^ next, b = one & next; /* of two bits */
    uint64_t x = a >> 2, y = b >> 2, p = a & x, q = b ^ y;
    uint64_t a4 = a ^ x, b4 = q ^ p, c4 = (b & y) | (q & p); /* of four */
    x = a4 >> 4, y = b4 >> 4, p = a4 & x, q = b4 ^ y;
    uint64_t z = c4 >> 4, r = (b4 & y) | (q & p), u = c4 ^ z;
    uint64_t a8 = a4 ^ x, b8 = q ^ p, c8 = u ^ r, d8 = (c4 & z) | (u & r); /* of eight */
    x = a8 >> 8, y = b8 >> 8, z = c8 >> 8, p = a8 & x, q = b8 ^ y;
    uint64_t v = d8 >> 8, f = d8 ^ v;
    r = (b8 & y) | (q & p), u = c8 ^ z;
    uint64_t g = (c8 & z) | (u & r);
    return (struct digits){a8 ^ x, q ^ p, u ^ r, f ^ g, (d8 & v) | (f & g)};
}

/* The first of the next 48 bits after which at least eight, or at most four, of the latest
   sixteen are zeroes; 48 if there is none. */
static inline unsigned opens(uint64_t word)
{
    struct digits n = zeroes(word);
    uint64_t many = (n.d | n.e) << 16;
    return many == 0 ? 48 : (unsigned)__builtin_clzll(many);
}

static inline unsigned closes(uint64_t word)
{
    struct digits n = zeroes(word);
    uint64_t few = ~(n.d | n.e | (n.c & (n.a | n.b))) << 16;
    return few == 0 ? 48 : (unsigned)__builtin_clzll(few);
}

int32_t wide_next_contact(const uint8_t *buf, size_t n, uint64_t search[3], uint64_t out[2])
{
    if (!plain_is_good_stretch(n, search[0], search[1]))
        return -5;
    uint64_t at = search[0], end = search[0] + search[1], word = search[2] & 0xFFFF;
    unsigned on = 48;
    for (; at < end; at += 48) {
        word = (word & 0xFFFF) << 48 | bits_at(buf, n, at, 48);
        on = opens(word);
        if (on < 48)
            break;
    }
    if (at + on >= end)
        return 0;
    uint64_t start = at + on;
    word >>= 47 - on;
    for (at = start + 1; at < end; at += 48) {
        word = (word & 0xFFFF) << 48 | bits_at(buf, n, at, 48);
        on = closes(word);
        if (on < 48)
            break;
    }
    if (at + on >= end)
        return -9;
    at += on;
    out[0] = start;
    out[1] = at - start;
    search[0] = at + 1;
    search[1] = end - (at + 1);
    search[2] = word >> (47 - on) & 0xFFFF;
    return 1;
}
