/* What is sure to be heard, counted by plain C from document 01's sentences: every telegram with
   every ordered good pair. Prints a line for each count, and at last what came of passes that
   were run bit by bit. Nothing of the library is used. */
#include <stdint.h>
#include <stdio.h>

static int odd(unsigned w) { return __builtin_popcount(w) & 1; }

static unsigned exchange(unsigned w, int a, int b) {
    unsigned x = (w >> a & 1) ^ (w >> b & 1);
    return w ^ (x << a | x << b);
}

/* A code word of n bits: every check finds an even number of ones. */
static int is_code(unsigned w, int n) {
    unsigned h = exchange(w, 3, 4);
    if (n == 16) h = exchange(h, 11, 12);
    if (odd(h)) return 0;
    for (int k = 1; k < n; k *= 2) {
        unsigned m = 0;
        for (int i = 0; i < n; i++) if (i & k) m |= 1u << i;
        if (odd(h & m)) return 0;
    }
    return 1;
}

static uint8_t short_word[256], long_word[65536];
static unsigned telegrams[6000];
static int many, broken_with[6000], broken_by[256][256];

static int is_telegram(unsigned d) {
    unsigned x = d >> 16, y = d >> 8 & 255, z = d & 255;
    if (!short_word[x]) return 0;
    return x == 0xC3 ? long_word[y << 8 | z] : short_word[y] && short_word[z];
}

static uint64_t turned(uint64_t w, int r) { return r ? w << r | w >> (64 - r) : w; }

/* Some sixteen bits in a row of the 64 that repeat have four zeroes or fewer. */
static int is_broken(uint64_t line) {
    for (int r = 0; r < 64; r++) if (16 - __builtin_popcount((unsigned)(turned(line, r) >> 48)) <= 4) return 1;
    return 0;
}

/* False places: those that end in 1 to 11 ones after the line's bits, however these end, and
   begin where no telegram does. */
static int false_places(uint64_t line, unsigned s, unsigned t) {
    int n = 0;
    for (int end = 0; end < 64; end++) {
        uint64_t last = turned(line, end); /* the latest 64 bits, of which the lowest is the last */
        for (int ones = 1; ones <= 11; ones++) {
            uint64_t w = (last << ones | ((1u << ones) - 1)) & 0xFFFFFFFFFFu;
            unsigned a = w >> 32, z = w & 255;
            if (!((a == s && z == t) || (a == t && z == s))) continue;
            if ((end + ones - 40 + 128) % 32 == 0) continue;
            if (is_telegram(w >> 8 & 0xFFFFFF)) n++;
        }
    }
    return n;
}

/* The detector: the latest sixteen bits (at first ones), whether a contact is open, and its
   first bit. */
struct detector { unsigned history; int zeroes, open, start; };

/* Bit i comes. Whether it closes a contact. */
static int closes(struct detector *d, unsigned bit, int i) {
    d->zeroes += !bit - !(d->history >> 15 & 1);
    d->history = (d->history << 1 | bit) & 0xFFFF;
    if (!d->open && d->zeroes >= 8) { d->open = 1; d->start = i; }
    else if (d->open && d->zeroes <= 4) { d->open = 0; return 1; }
    return 0;
}

/* What came of the passes over one pair's balises. */
struct heard { int lines; long passes, contacts, longest, with_place, with_false, differ, read; };

/* The contact from bit `start` up to bit `end` is judged: two or more places with one telegram
   are a reading, places that differ a refusal. A place is false if it begins where no telegram
   does; bit 0 is the line's bit `phase`. */
static void judge(struct heard *h, const uint8_t *bits, int phase, int start, int end, unsigned s, unsigned t) {
    uint64_t w = 0;
    unsigned first = 0;
    int places = 0, differ = 0, wrong = 0;
    h->contacts++;
    if (end - start > h->longest) h->longest = end - start;
    for (int i = start; i < end; i++) {
        w = (w << 1 | bits[i]) & 0xFFFFFFFFFFu;
        unsigned a = w >> 32, z = w & 255, d = w >> 8 & 0xFFFFFF;
        if (i - start < 39 || !((a == s && z == t) || (a == t && z == s)) || !is_telegram(d)) continue;
        if ((phase + i - 39) % 32) wrong = 1;
        if (!places++) first = d;
        else if (d != first) differ = 1;
    }
    h->with_place += places > 0;
    h->with_false += wrong;
    h->differ += differ;
    h->read += places > 1 && !differ;
}

/* The line is heard from each of its 64 bits on, for each length from `least` to `most` bits
   (256 or fewer), and then ones come: they open no contact, and the twelfth at the latest closes
   one that is open. */
static void pass(struct heard *h, uint64_t line, unsigned s, unsigned t, int least, int most) {
    uint8_t bits[256 + 12];
    h->lines++;
    for (int phase = 0; phase < 64; phase++) {
        struct detector d = { 0xFFFF, 0, 0, 0 };
        for (int i = 0; i <= most; i++) {
            if (i >= least) {
                struct detector e = d;
                h->passes++;
                for (int k = i; e.open && k < i + 12; k++) { bits[k] = 1; if (closes(&e, 1, k)) judge(h, bits, phase, e.start, k, s, t); }
            }
            bits[i] = turned(line, phase) >> (63 - i % 64) & 1;
            if (closes(&d, bits[i], i) && i < most) judge(h, bits, phase, d.start, i, s, t);
        }
    }
}

/* All broken, or all audible, lines of the pair. */
static void pass_all(int broken, unsigned s, unsigned t, int least, int most) {
    struct heard h = { 0, 0, 0, 0, 0, 0, 0, 0 };
    for (int i = 0; i < many; i++) {
        uint64_t d = telegrams[i], line = (uint64_t)s << 56 | d << 32 | (uint64_t)t << 24 | d;
        if (is_broken(line) == broken) pass(&h, line, s, t, least, most);
    }
    printf("%s lines with %02X %02X: %d, from each of 64 bits on, %d to %d bits: %ld passes, %ld contacts, longest %ld bits, %ld with a place, %ld with a false one; %ld refused 7, %ld read\n",
        broken ? "broken" : "audible", s, t, h.lines, least, most, h.passes, h.contacts, h.longest, h.with_place, h.with_false, h.differ, h.read);
}

int main(void) {
    long lines = 0, broken = 0;
    int always = 0, fewest = 1 << 30, most = 0, pairs = 0, none = 0, tried = 0, with_false = 0;
    int as_few = 0, as_many = 0, thousand = 0, either = 0, middle = 0, middle_thousand = 0;
    unsigned least_pair = 0, most_pair = 0;
    for (unsigned w = 0; w < 256; w++) short_word[w] = is_code(w, 8) && w != 0xFF;
    for (unsigned w = 0; w < 65536; w++) long_word[w] = is_code(w, 16);
    for (unsigned d = 0; d < 1u << 24; d++) if (is_telegram(d)) telegrams[many++] = d;
    for (unsigned s = 0; s < 256; s++) for (int bit = 0; bit < 8; bit++) {
        unsigned t = s ^ 0xFF ^ 1u << bit;
        int here = 0, figures = 0, ends = s % 16 == 15 || t % 16 == 15, wrong = 0;
        for (int i = 0; i < many; i++) {
            uint64_t d = telegrams[i], line = (uint64_t)s << 56 | d << 32 | (uint64_t)t << 24 | d;
            lines++;
            if (is_broken(line)) { here++; broken_with[i]++; if (d >> 16 != 0xC3) figures++; }
            if (ends) wrong += false_places(line, s, t);
        }
        pairs++; broken += here; broken_by[s][t] = here;
        if (!figures) none++;
        if (here < fewest) { fewest = here; least_pair = s << 8 | t; }
        if (here > most) { most = here; most_pair = s << 8 | t; }
        if (ends) { tried++; if (wrong) { with_false++; printf("false places with %02X %02X\n", s, t); } }
    }
    for (int i = 0; i < many; i++) if (broken_with[i] == pairs) always++;
    printf("telegrams %d, ordered pairs %d, lines %ld\n", many, pairs, lines);
    printf("broken %ld, audible %ld\n", broken, lines - broken);
    printf("broken with every pair %d\n", always);
    printf("fewest broken with %02X %02X: %d\n", least_pair >> 8, least_pair & 255, fewest);
    printf("most broken with %02X %02X: %d\n", most_pair >> 8, most_pair & 255, most);
    for (unsigned s = 0; s < 256; s++) for (int bit = 0; bit < 8; bit++) {
        unsigned t = s ^ 0xFF ^ 1u << bit;
        int here = broken_by[s][t], inner = bit >= 2 && bit <= 5;
        if (here >= 1000) thousand++;
        if (s > t) continue;
        if (here >= 1000) either++;
        if (here == fewest) as_few++;
        if (here == most) as_many++;
        if (inner) middle++;
        if (inner && here >= 1000) middle_thousand++;
    }
    printf("pairs in either order that break as few %d, as many %d\n", as_few, as_many);
    printf("ordered pairs that break 1000 or more %d, in either order %d\n", thousand, either);
    printf("pairs in either order with the equal bit third to sixth %d, that break 1000 or more %d\n", middle, middle_thousand);
    printf("broken with 49 96: %d, with 72 0D: %d, with 35 DA: %d, with 00 7F: %d\n", broken_by[0x49][0x96], broken_by[0x72][0x0D], broken_by[0x35][0xDA], broken_by[0x00][0x7F]);
    printf("pairs that break no three figures %d\n", none);
    printf("pairs with a word that ends in four ones %d, with false places %d\n", tried, with_false);
    /* The pair with false places. Some sixteen bits of a broken line, which end with one of its
       first 79, leave no contact open; so after 79 bits the detector stands as it does 64 bits
       later, and passes of more than 143 bits bring nothing new. */
    pass_all(1, 0x00, 0x7F, 1, 143);
    pass_all(1, 0x7F, 0x00, 1, 143);
    /* What the same detector and judge find otherwise: audible balises of that pair, of which
       some are refused with 7; and of another pair, where 167 bits always do and 166 do not. */
    pass_all(0, 0x00, 0x7F, 192, 192);
    pass_all(0, 0x17, 0xEA, 167, 167);
    pass_all(0, 0x17, 0xEA, 166, 166);
    return 0;
}
