/* Tests of atc2_plain.c: the examples and the edges of document 01. Writes each check that
   fails, and a count. */
#include "atc2_plain.h"

#include <inttypes.h>
#include <stdio.h>
#include <stdlib.h>
#include <string.h>

static int passed, failed;

static void check(bool holds, const char *what, int line)
{
    if (holds) {
        passed++;
    } else {
        failed++;
        printf("plain_test.c:%d: %s\n", line, what);
    }
}
#define CHECK(what) check(what, #what, __LINE__)

/* Document 01's table of M(8,4), for 0 to 15. */
static const uint8_t M8[16] = {0x00, 0x17, 0x2B, 0x3C, 0x4D, 0x5A, 0x66, 0x71, 0x8E, 0x99, 0xA5, 0xB2, 0xC3, 0xD4, 0xE8, 0xFF};

/* ---- Words ---- */

/* The sent word's bit at the plain word's position. */
static int plain_bit(uint32_t sent, int position)
{
    switch (position) {
    case 3: return sent >> 4 & 1;
    case 4: return sent >> 3 & 1;
    case 11: return sent >> 12 & 1;
    case 12: return sent >> 11 & 1;
    default: return sent >> position & 1;
    }
}

/* What a word of so many bits reads, position by position. */
static int32_t read_slowly(uint32_t sent, int bits)
{
    static const int checks[5] = {8, 4, 2, 1, 0};
    int32_t figure = 0;
    for (int c = 0; c < 5; c++) {
        int ones = 0;
        for (int i = 0; i < bits; i++)
            if (checks[c] == 0 || (i & checks[c]) != 0)
                ones += plain_bit(sent, i);
        if (ones % 2 != 0)
            return -1;
    }
    for (int i = bits - 1; i >= 0; i--)
        if (i != 8 && i != 4 && i != 2 && i != 1 && i != 0)
            figure = figure * 2 + plain_bit(sent, i);
    return figure;
}

static void test_words(void)
{
    int shorts = 0, longs = 0, alike = 0;
    for (int f = 0; f < 16; f++) {
        CHECK(plain_write_short((uint8_t)f) == M8[f]);
        CHECK(plain_read_short(M8[f]) == f);
    }
    for (uint32_t w = 0; w < 65536; w++) {
        int32_t f = plain_read_long((uint16_t)w);
        alike += f == read_slowly(w, 16);
        longs += f >= 0 && plain_write_long((uint16_t)f) == (int32_t)w;
        if (w > 255)
            continue;
        f = plain_read_short((uint8_t)w);
        alike += f == read_slowly(w, 8);
        shorts += f >= 0 && plain_write_short((uint8_t)f) == (int32_t)w;
    }
    CHECK(shorts == 16 && longs == 2048 && alike == 65536 + 256);
    CHECK(plain_read_short(0x18) == -1);
    CHECK(plain_write_long(1152) == 0x8806 && plain_read_long(0x8806) == 1152);
    CHECK(plain_write_long(1216) == 0x9900 && plain_read_long(0x9900) == 1216);
    CHECK(plain_write_long(1612) == 0xD1C6 && plain_read_long(0xD1C6) == 1612);
    CHECK(plain_read_long(0x8807) == -1);
    CHECK(plain_write_short(16) == -2 && plain_write_short(255) == -2);
    CHECK(plain_write_long(2047) == 0xFFFF && plain_write_long(2048) == -2 && plain_write_long(65535) == -2);
    for (int flip = 0; flip < 8; flip++) /* nothing is mended */
        CHECK(plain_read_short((uint8_t)(0x99 ^ 1 << flip)) == -1);
}

static void test_telegram(void)
{
    CHECK(plain_read_telegram(0x17, 0x8E, 0x5A) == 1 * 65536 + 8 * 256 + 5);
    CHECK(plain_read_telegram(0xC3, 0x88, 0x06) == 12 * 65536 + 1152);
    CHECK(plain_read_telegram(0xC3, 0x88, 0x07) == -1);
    CHECK(plain_read_telegram(0xC3, 0xFF, 0xFF) == 12 * 65536 + 2047);
    CHECK(plain_read_telegram(0x17, 0x88, 0x06) == -1); /* a long word only after 12 */
    CHECK(plain_read_telegram(0x18, 0xFF, 0xFF) == -1); /* the first bad word decides */
    CHECK(plain_read_telegram(0xFF, 0x18, 0x18) == -3);
    CHECK(plain_read_telegram(0x17, 0xFF, 0x18) == -3);
    CHECK(plain_read_telegram(0x17, 0x18, 0xFF) == -1);
    CHECK(plain_read_telegram(0x17, 0x17, 0xFF) == -3);
    CHECK(plain_read_telegram(0x17, 0x17, 0x18) == -1);
    CHECK(plain_read_telegram(0x00, 0x00, 0x00) == 0 && plain_read_telegram(0x00, 0x17, 0x2B) == 256 + 2);
    CHECK(plain_read_telegram(0xC3, 0x00, 0x00) == 12 * 65536);
}

/* ---- Stretches of bits ---- */

#define S 0x1E
#define T 0xE0 /* differs from S in seven bits */

struct bits {
    uint8_t buf[4096];
    size_t n;
};

static void run(struct bits *b, size_t count, int bit)
{
    for (size_t i = 0; i < count; i++, b->n++)
        if (bit)
            b->buf[b->n / 8] = (uint8_t)(b->buf[b->n / 8] | 0x80 >> b->n % 8);
}

static void byte(struct bits *b, uint8_t value)
{
    for (int i = 7; i >= 0; i--)
        run(b, 1, value >> i & 1);
}

/* So many telegrams of one balise, each sharing a sync word with the next; the last sync word is
   not among the bits. */
static void telegrams(struct bits *b, int count, uint8_t x, uint8_t y, uint8_t z)
{
    for (int i = 0; i < count; i++) {
        byte(b, i % 2 == 0 ? S : T);
        byte(b, x), byte(b, y), byte(b, z);
    }
}

static struct bits *fresh_bits(void)
{
    static struct bits b;
    memset(&b, 0, sizeof b);
    return &b;
}

static void test_find(void)
{
    struct bits *b = fresh_bits();
    uint64_t out[2] = {77, 78};
    run(b, 3, 1);
    telegrams(b, 2, 0x17, 0x8E, 0x5A);
    byte(b, S); /* places 3 and 35 share the sync word at 35 */
    run(b, 5, 1);
    size_t n = sizeof b->buf;
    CHECK(plain_find(b->buf, n, 0, b->n, S, T, out) == 0 && out[0] == 3 && out[1] == 65536 + 8 * 256 + 5);
    CHECK(plain_find(b->buf, n, 4, b->n - 4, S, T, out) == 0 && out[0] == 35);
    CHECK(plain_find(b->buf, n, 36, b->n - 36, S, T, out) == -6 && out[0] == 35);
    CHECK(plain_find(b->buf, n, 0, b->n, T, S, out) == 0 && out[0] == 3);
    CHECK(plain_find(b->buf, n, 3, 40, S, T, out) == 0 && out[0] == 3);
    CHECK(plain_find(b->buf, n, 3, 39, S, T, out) == -6);
    CHECK(plain_find(b->buf, n, 2, 40, S, T, out) == -6); /* the place's last bit lies beyond */
    CHECK(plain_find(b->buf, n, 3, 0, S, T, out) == -6);
    CHECK(plain_find(b->buf, n, 0, b->n, S, S ^ 0x7F, out) == -6); /* another good pair */
    CHECK(plain_find(b->buf, n, 0, b->n, S, S ^ 0x3F, out) == -4); /* six bits */
    CHECK(plain_find(b->buf, n, 0, b->n, S, S ^ 0xFF, out) == -4); /* eight bits */
    CHECK(plain_find(b->buf, n, 0, b->n, S, S, out) == -4);
    CHECK(plain_find(b->buf, n, 8 * n, 0, S, T, out) == -6);
    CHECK(plain_find(b->buf, n, 8 * n + 1, 0, S, T, out) == -5);
    CHECK(plain_find(b->buf, n, 8 * n - 40, 40, S, T, out) == -6);
    CHECK(plain_find(b->buf, n, 8 * n - 40, 41, S, T, out) == -5);
    CHECK(plain_find(b->buf, n, SIZE_MAX, 1, S, T, out) == -5);
    CHECK(plain_find(b->buf, n, SIZE_MAX - 20, 41, S, T, out) == -5);
    CHECK(plain_find(b->buf, n, 0, 16777217, S, S, out) == -4); /* 4 before 5 */
    CHECK(out[0] == 3);

    b = fresh_bits(); /* S at both ends is no telegram */
    byte(b, S), byte(b, 0x17), byte(b, 0x17), byte(b, 0x17), byte(b, S);
    CHECK(plain_find(b->buf, n, 0, b->n, S, T, out) == -6);
    b = fresh_bits(); /* a 15 is refused */
    byte(b, T), byte(b, 0x17), byte(b, 0x17), byte(b, 0xFF), byte(b, S);
    CHECK(plain_find(b->buf, n, 0, b->n, S, T, out) == -6);
}

static void test_long_stretch(void)
{
    size_t n = 2097152 + 8;
    uint8_t *buf = calloc(n, 1);
    uint64_t out[2], search[3] = {7, 8, 9};
    static const uint8_t telegram[5] = {T, 0x2B, 0x3C, 0x4D, S};
    memcpy(buf + 2097152 - 5, telegram, 5);
    CHECK(plain_find(buf, n, 0, 16777216, S, T, out) == 0 && out[0] == 16777216 - 40);
    CHECK(plain_find(buf, n, 0, 16777217, S, T, out) == -5);
    CHECK(plain_find(buf, n, 64, 16777216, S, T, out) == 0); /* the start may lie anywhere */
    CHECK(plain_begin(buf, n, 0, 16777217, search) == -5 && search[0] == 7 && search[2] == 9);
    CHECK(plain_begin(buf, n, 1, 16777216, search) == 0 && search[0] == 1 && search[1] == 16777216 && search[2] == 65535);
    free(buf);
}

/* ---- Contacts ---- */

static void test_detector(void)
{
    size_t n = sizeof(struct bits) - sizeof(size_t);
    struct bits *b = fresh_bits();
    uint64_t search[3], out[2] = {77, 78};
    run(b, 20, 1), run(b, 7, 0), run(b, 20, 1); /* seven zeroes in sixteen open none */
    plain_begin(b->buf, n, 0, b->n, search);
    CHECK(plain_next_contact(b->buf, n, search, out) == 0);
    CHECK(search[0] == 0 && search[1] == 47 && search[2] == 65535 && out[0] == 77 && out[1] == 78);

    b = fresh_bits(); /* the eighth opens; sixteen bits on, the fourth that is left closes */
    run(b, 20, 1), run(b, 8, 0), run(b, 40, 1);
    plain_begin(b->buf, n, 0, b->n, search);
    CHECK(plain_next_contact(b->buf, n, search, out) == 1 && out[0] == 27 && out[1] == 12);
    CHECK(search[0] == 40 && search[1] == b->n - 40 && search[2] == 0x0FFF);
    CHECK(plain_next_contact(b->buf, n, search, out) == 0 && search[0] == 40 && search[2] == 0x0FFF);

    /* the same with the closing bit cut off, and with it the last */
    plain_begin(b->buf, n, 0, 39, search);
    CHECK(plain_next_contact(b->buf, n, search, out) == -9 && search[0] == 0 && search[1] == 39 && search[2] == 65535);
    plain_begin(b->buf, n, 0, 40, search);
    CHECK(plain_next_contact(b->buf, n, search, out) == 1 && search[0] == 40 && search[1] == 0);
    CHECK(plain_next_contact(b->buf, n, search, out) == 0);
    plain_begin(b->buf, n, 21, 7, search); /* a stretch begins with sixteen ones */
    CHECK(plain_next_contact(b->buf, n, search, out) == 0);
    plain_begin(b->buf, n, 20, 8, search);
    CHECK(plain_next_contact(b->buf, n, search, out) == -9);

    b = fresh_bits(); /* the history runs on: four zeroes are left, four more open */
    run(b, 16, 1), run(b, 8, 0), run(b, 12, 1), run(b, 4, 0), run(b, 30, 1);
    plain_begin(b->buf, n, 0, b->n, search);
    CHECK(plain_next_contact(b->buf, n, search, out) == 1 && out[0] == 23 && out[1] == 12 && search[0] == 36);
    /* each new zero pushes an old one out */
    CHECK(plain_next_contact(b->buf, n, search, out) == 0);
    /* here none is pushed out before eight */
    search[0] = 36, search[1] = b->n - 36, search[2] = 0xFFF0;
    CHECK(plain_next_contact(b->buf, n, search, out) == 1 && out[0] == 39);
    search[0] = 36, search[1] = b->n - 36, search[2] = 0xABCDFFF0;
    CHECK(plain_next_contact(b->buf, n, search, out) == 1 && out[0] == 39 && search[2] < 65536);
    search[0] = 0, search[1] = b->n, search[2] = 0; /* the count after the bit decides */
    CHECK(plain_next_contact(b->buf, n, search, out) == 1 && out[0] == 0 && out[1] == 11);

    search[0] = 8 * n - 3, search[1] = 4, search[2] = 5;
    CHECK(plain_next_contact(b->buf, n, search, out) == -5 && search[2] == 5);
    search[0] = UINT64_MAX, search[1] = 2;
    CHECK(plain_next_contact(b->buf, n, search, out) == -5);
    CHECK(plain_begin(b->buf, n, 8 * n, 0, search) == 0 && plain_begin(b->buf, n, 8 * n, 1, search) == -5);
}

/* What judging says of so many zeroes followed by so many ones. */
static int32_t judged_run(size_t zeroes, size_t ones)
{
    struct bits *b = fresh_bits();
    uint64_t out[3] = {7, 8, 9};
    run(b, 5, 1), run(b, zeroes, 0), run(b, ones, 1);
    int32_t said = plain_judge(b->buf, sizeof b->buf, 5, b->n - 5, S, T, out);
    CHECK(out[0] == 7 && out[1] == 8 && out[2] == 9);
    return said;
}

static void test_judge(void)
{
    struct bits *b = fresh_bits();
    size_t n = sizeof b->buf;
    uint64_t out[3] = {7, 8, 9};
    run(b, 6, 0);
    telegrams(b, 3, 0x17, 0x8E, 0x5A);
    byte(b, T), run(b, 4, 1);
    CHECK(plain_judge(b->buf, n, 1, b->n - 1, S, T, out) == 1);
    CHECK(out[0] == 65536 + 8 * 256 + 5 && out[1] == 6 && out[2] == 3);
    CHECK(plain_judge(b->buf, n, 7, b->n - 7, S, T, out) == 1 && out[1] == 38 && out[2] == 2);
    /* one place alone is no reading */
    CHECK(plain_judge(b->buf, n, 39, b->n - 39, S, T, out) == -8);
    CHECK(plain_judge(b->buf, n, 71, b->n - 71, S, T, out) == -8);
    CHECK(plain_judge(b->buf, n, 0, b->n, S, S, out) == -4 && plain_judge(b->buf, n, 8 * n, 1, S, T, out) == -5);

    b = fresh_bits(); /* two places that differ, in Z alone */
    telegrams(b, 2, 0x17, 0x8E, 0x5A);
    byte(b, S), byte(b, 0x17), byte(b, 0x8E), byte(b, 0x66), byte(b, T);
    CHECK(plain_judge(b->buf, n, 0, b->n, S, T, out) == -7);
    CHECK(plain_judge(b->buf, n, 0, b->n - 1, S, T, out) == 1 && out[2] == 2);

    CHECK(judged_run(63, 0) == -8 && judged_run(64, 0) == 2 && judged_run(65, 0) == 2);
    CHECK(judged_run(52, 11) == -8 && judged_run(53, 11) == 2 && judged_run(53, 12) == -8);
    CHECK(judged_run(64, 11) == 2 && judged_run(64, 12) == -8);
    CHECK(judged_run(0, 64) == -8 && judged_run(0, 0) == -8 && judged_run(39, 0) == -8 && judged_run(40, 0) == -8);

    b = fresh_bits(); /* the figures 0, 0, 0 are figures */
    telegrams(b, 2, 0, 0, 0);
    byte(b, S);
    CHECK(plain_judge(b->buf, n, 0, b->n, S, T, out) == 1 && out[0] == 0 && out[2] == 2);
    CHECK(plain_judge(b->buf, n, 0, b->n - 1, S, T, out) == -8);

    b = fresh_bits(); /* a one before the zeroes */
    run(b, 1, 1), run(b, 70, 0);
    CHECK(plain_judge(b->buf, n, 0, b->n, S, T, out) == -8);
    b = fresh_bits(); /* zeroes, ones and zeroes again */
    run(b, 70, 0), run(b, 3, 1), run(b, 1, 0), run(b, 2, 1);
    CHECK(plain_judge(b->buf, n, 0, b->n, S, T, out) == -8);
    b = fresh_bits(); /* one place in the shape of a marker: 00, 00 00 00, 7F */
    run(b, 57, 0), run(b, 7, 1);
    CHECK(plain_judge(b->buf, n, 0, b->n, 0x00, 0x7F, out) == 2);
    CHECK(plain_find(b->buf, n, 0, b->n, 0x00, 0x7F, out) == 0 && out[0] == 24 && out[1] == 0);
}

static void test_distance(void)
{
    CHECK(plain_distance(0, 1) == 125 && plain_distance(13, 14) == 119000);
    CHECK(plain_distance(14, 1) == 7000 && plain_distance(14, 14) == 500);
    CHECK(plain_distance(2, 4) == 4000);
    int32_t last = 0; /* columns 0 to 13 run on without a break */
    for (int by = 0; by <= 13; by++)
        for (int figure = 1; figure <= 14; figure++) {
            last += by <= 3 ? 125 : by <= 5 ? 250 : by == 6 ? 500 : 1000;
            CHECK(plain_distance((uint8_t)by, (uint8_t)figure) == last);
        }
    for (int figure = 1; figure <= 14; figure++)
        CHECK(plain_distance(14, (uint8_t)figure) == 7500 - 500 * figure);
    CHECK(plain_distance(0, 0) == -15 && plain_distance(0, 15) == -15 && plain_distance(15, 1) == -15);
    CHECK(plain_distance(255, 255) == -15);
}

/* ---- Rides ----
   A trace is written as a text of records, `1000:1,8,5` with a balise's figures, `1000:12,1152`
   with its number, `1000:M` a marker, `1000:U` unreadable, `1000:-` position only,
   `1000:#00178E5A` with bytes 4 to 7 as they are. */

static size_t words_of(const char *text, uint8_t *record)
{
    unsigned x, y, z, raw;
    int used;
    memset(record + 4, 0, 4);
    if (sscanf(text, "#%8x%n", &raw, &used) == 1) {
        for (int i = 0; i < 4; i++)
            record[4 + i] = (uint8_t)(raw >> (24 - 8 * i));
    } else if (sscanf(text, "%u,%u,%u%n", &x, &y, &z, &used) == 3) {
        record[5] = M8[x], record[6] = M8[y], record[7] = M8[z];
    } else if (sscanf(text, "%u,%u%n", &x, &y, &used) == 2) {
        int32_t word = plain_write_long((uint16_t)y);
        record[5] = M8[x], record[6] = (uint8_t)(word >> 8), record[7] = (uint8_t)word;
    } else {
        record[4] = *text == 'M' ? 1 : *text == 'U' ? 2 : 3;
        used = 1;
    }
    return (size_t)used;
}

static size_t trace_of(const char *text, uint8_t *trace)
{
    size_t n = 0;
    while (*text != 0) {
        uint64_t place;
        int used;
        if (sscanf(text, "%" SCNu64 ":%n", &place, &used) != 1)
            abort();
        for (int i = 0; i < 4; i++)
            trace[n + (size_t)i] = (uint8_t)(place >> (24 - 8 * i));
        text += used;
        text += words_of(text, trace + n);
        text += *text == ' ';
        n += 8;
    }
    return n;
}

static uint8_t trace[8 * 256];
static char wrote[PLAIN_ROOM * 257 + 1];

static bool lists_at(uint32_t gap, const char *records, const char *lines)
{
    int64_t n = plain_check(gap, trace, trace_of(records, trace), wrote);
    wrote[n < 0 ? 0 : n] = 0;
    if (strcmp(wrote, lines) == 0)
        return true;
    printf("of %s\nwrote\n%s", records, wrote);
    return false;
}

static bool lists(const char *records, const char *lines)
{
    return lists_at(40, records, lines);
}

/* The state that the records leave, before the ending. */
static struct plain_ride ridden(const char *records)
{
    struct plain_ride ride;
    size_t taken;
    plain_fresh(&ride);
    plain_list(&ride, 40, trace, trace_of(records, trace) / 8, wrote, sizeof wrote, &taken);
    return ride;
}

static bool leaves(const char *records, bool linked, int main_speed, int target)
{
    struct plain_ride ride = ridden(records);
    return ride.linked == linked && ride.main_speed == main_speed && ride.target == target;
}

static void test_document_ride(void)
{
    CHECK(lists("1000:#00178E5A 1030:#00992B4D 6000:#03000000", "1000 present signal first\n5800 missed\n"));
    CHECK(lists("1000:1,8,5 1030:9,2,4 6000:-", "1000 present signal first\n5800 missed\n"));
    CHECK(leaves("1000:1,8,5 1030:9,2,4 6000:-", false, 130, 80));
    CHECK(leaves("1000:1,8,5 1030:9,2,4 5800:-", true, 130, 80));
    CHECK(lists("1000:1,8,5 1030:9,2,4 5800:-", "1000 present signal first\n"));
    CHECK(lists("1000:1,8,5 1030:9,2,4 5801:-", "1000 present signal first\n5800 missed\n"));
    CHECK(lists("", ""));
    CHECK(lists("7:- 8:- 4000000000:-", ""));
    CHECK(plain_check(40, trace, 7, wrote) == 17 && memcmp(wrote, "trace refused 16\n", 17) == 0);
    CHECK(plain_check(0, trace, 7, wrote) == -19 && plain_check(201, trace, 8, wrote) == -19);
    CHECK(plain_check(1, trace, 0, wrote) == 0 && plain_check(200, trace, 0, wrote) == 0);
}

static void test_refused_records(void)
{
    CHECK(lists("10:#04000000", "record 1 refused 16\n") && lists("10:#FF000000", "record 1 refused 16\n"));
    CHECK(lists("10:#01000001", "record 1 refused 16\n") && lists("10:#02000100", "record 1 refused 16\n"));
    CHECK(lists("10:#03010000", "record 1 refused 16\n"));
    CHECK(lists("4000000001:-", "record 1 refused 18\n") && lists("4000000000:-", ""));
    CHECK(lists("10:- 9:- 10:-", "record 2 refused 17\n"));
    CHECK(lists("10:- 9:#01000001 4294967295:#04000000", "record 2 refused 16\nrecord 3 refused 16\n"));
    /* a refused record does none of the steps, and is not the last accepted one */
    CHECK(lists("1000:1,8,5 1030:9,2,4 9999:#04000000 1070:14,1,0", "record 3 refused 16\n1000 fault 15\n"));
    CHECK(lists("10:- 4294967295:- 11:- 9:-", "record 2 refused 18\nrecord 4 refused 17\n"));
}

static void test_group_sizes(void)
{
    CHECK(lists("1000:1,8,5", "1000 fault 10\n") && lists("1000:U", "1000 fault 10\n"));
    CHECK(lists("1000:1,8,5 1040:9,2,4", "1000 present signal first\n")); /* at the gap */
    CHECK(lists("1000:1,8,5 1041:9,2,4", "1000 fault 10\n1041 fault 10\n")); /* and 1 dm past it */
    CHECK(lists_at(1, "5:1,8,5 6:9,2,4", "5 present signal first\n"));
    CHECK(lists_at(200, "5:1,8,5 205:9,2,4", "5 present signal first\n"));
    CHECK(lists_at(200, "5:1,8,5 206:9,2,4", "5 fault 10\n206 fault 10\n"));
    /* five */
    CHECK(lists("0:12,7 1:8,1,1 2:1,8,5 3:9,2,0 4:14,1,0", "2 present signal first n7\n"));
    CHECK(lists("0:12,7 1:8,1,1 2:1,8,5 3:9,2,0 4:14,1,0 5:12,7", "0 fault 11\n")); /* six */
    CHECK(lists("900:U 910:U 920:U 930:U 940:U 950:U 960:U", "900 fault 11\n")); /* 11 before 12 */
    CHECK(lists("900:U 910:U 920:U 930:U 940:U 980:M 1020:M 1061:M", "900 fault 11\n1061 fault 10\n"));
    /* a position is no balise */
    CHECK(lists("0:1,8,5 20:- 40:- 60:- 60:9,2,4", "0 fault 10\n60 fault 10\n"));
    CHECK(lists("0:1,8,5 20:- 40:- 40:9,2,4 80:14,0,0", "0 fault 15\n"));
    CHECK(lists("0:1,8,5 0:9,2,4", "0 present signal first\n"));
    /* what the end of a record's group leaves, and the next group */
    CHECK(lists("0:1,8,5 30:9,14,4 100:2,1,1 130:9,1,1", "0 present signal first\n100 present warning\n"));
}

static void test_unreadable(void)
{
    CHECK(lists("1000:1,8,5 1030:U", "1000 fault 12\n") && lists("1000:U 1030:9,2,4", "1000 fault 12\n"));
    CHECK(lists("1000:#00188E5A 1030:9,2,4", "1000 fault 12\n"));
    CHECK(lists("1000:1,8,15 1030:9,2,4", "1000 fault 12\n")); /* a short word that reads 15 */
    CHECK(lists("1000:12,1152 1010:1,8,5 1030:9,2,4", "1010 present signal first n1152\n"));
    CHECK(lists("1000:#00C38807 1010:1,8,5 1030:9,2,4", "1000 fault 12\n"));
    CHECK(lists("1000:12,2047 1010:1,8,5 1030:9,2,4", "1010 present signal first n2047\n"));
}

/* The line that a group of balises 10 dm apart gives, the first at 0. */
static bool group_gives(const char *balises, const char *line)
{
    char records[256];
    size_t n = 0;
    for (int place = 0; *balises != 0; place += 10) {
        size_t length = strcspn(balises, " ");
        n += (size_t)snprintf(records + n, sizeof records - n, "%s%d:%.*s", n == 0 ? "" : " ", place, (int)length, balises);
        balises += length + (balises[length] == ' ');
    }
    return lists(records, line);
}

static void test_present_rows(void)
{
    CHECK(group_gives("1,0,0 9,0,1", "0 present signal first\n") && group_gives("4,0,0 9,0,1", "0 present signal first\n"));
    CHECK(group_gives("8,0,0 1,0,0 9,0,1 12,5", "10 present signal first n5\n"));
    CHECK(group_gives("12,5 4,0,0 9,0,0 14,1,0", "10 present signal first n5\n"));
    CHECK(group_gives("12,5 8,0,0 4,0,0 9,0,1", "20 present signal first n5\n"));
    CHECK(group_gives("8,0,0 12,5 4,0,0 9,0,1", "0 fault 13\n")); /* the order passed */
    CHECK(group_gives("1,0,0 9,0,0 12,5 14,1,0", "0 fault 13\n"));
    CHECK(group_gives("12,5 1,0,0 9,0,1 12,5", "0 fault 13\n")); /* 12 at most once */
    CHECK(group_gives("1,0,0 1,0,0", "0 fault 13\n") && group_gives("9,0,1 9,0,1", "0 fault 13\n"));
    CHECK(group_gives("0,0,0 0,0,0", "0 fault 13\n") && group_gives("6,2,0 3,0,0", "0 fault 13\n"));
    CHECK(group_gives("1,0,0 8,0,0", "0 fault 13\n") && group_gives("1,0,0 12,5", "0 fault 13\n"));
    CHECK(group_gives("1,0,0 M", "0 fault 13\n") && group_gives("1,0,0 9,0,1 M", "0 fault 13\n"));
    CHECK(group_gives("2,0,0 9,0,1", "0 present warning\n") && group_gives("8,0,0 2,0,13 9,13,0 14,1,0 12,5", "10 present warning\n"));
    CHECK(group_gives("2,0,14 9,0,1", "0 fault 13\n") && group_gives("2,0,0 9,14,1", "0 fault 13\n"));
    CHECK(group_gives("2,0,0 9,14,0", "0 fault 13\n")); /* the row's limit, before the distance */
    /* a warning board has no number before it */
    CHECK(group_gives("12,5 2,0,0 9,0,1", "0 fault 13\n"));
    CHECK(group_gives("10,0,0 9,0,0", "0 present annulled\n") && group_gives("12,5 8,0,0 10,0,0 9,0,0 14,0,0", "20 present annulled\n"));
    CHECK(group_gives("3,0,0 5,0,0", "0 present line\n") && group_gives("3,8,13 5,0,0", "0 present line\n"));
    CHECK(group_gives("3,9,0 5,0,0", "0 fault 13\n") && group_gives("3,8,14 5,0,0", "0 fault 13\n"));
    CHECK(group_gives("3,9,13 M", "0 present line\n") && group_gives("3,14,0 M", "0 present line\n"));
    CHECK(group_gives("3,8,0 M", "0 fault 13\n") && group_gives("3,9,14 M", "0 fault 13\n"));
    CHECK(group_gives("5,2,0 3,0,0", "0 present route\n") && group_gives("5,2,13 5,0,0", "0 present route\n"));
    CHECK(group_gives("5,2,5 7,0,0", "0 present route\n") && group_gives("5,4,10 3,0,0", "0 present route\n"));
    CHECK(group_gives("5,2,14 3,0,0", "0 fault 13\n") && group_gives("5,4,9 5,0,0", "0 fault 13\n"));
    CHECK(group_gives("5,3,10 3,0,0", "0 fault 13\n") && group_gives("5,2,0 9,0,0", "0 fault 13\n"));
    CHECK(group_gives("5,2,0 3,0,0 3,0,0", "0 fault 13\n") && group_gives("3,0,0 5,2,0 5,0,0", "0 fault 13\n"));
}

static void test_opposite_rows(void)
{
    CHECK(group_gives("9,0,0 1,0,0", "10 opposite signal\n") && group_gives("9,0,0 4,0,0", "10 opposite signal\n"));
    CHECK(group_gives("12,5 14,0,0 9,0,0 1,0,0 8,0,0", "30 opposite signal n5\n"));
    CHECK(group_gives("14,0,0 9,0,0 1,0,0 8,0,0 12,5", "20 opposite signal n5\n"));
    CHECK(group_gives("9,0,0 10,0,0", "10 opposite annulled\n") && group_gives("9,0,0 10,0,0 12,5", "10 opposite annulled\n"));
    CHECK(group_gives("14,0,0 12,5 9,0,0 1,0,0", "0 fault 13\n") && group_gives("9,0,0 1,0,0 12,5 8,0,0", "0 fault 13\n"));
    CHECK(group_gives("12,5 9,0,0 1,0,0 12,5", "0 fault 13\n"));
    CHECK(group_gives("9,0,0 2,0,0", "10 opposite warning\n") && group_gives("12,5 14,0,0 9,14,0 2,0,14", "30 opposite warning\n"));
    CHECK(group_gives("9,0,0 2,0,0 8,0,0", "0 fault 13\n") && group_gives("9,0,0 2,0,0 12,5", "0 fault 13\n"));
    CHECK(group_gives("M 2,0,0", "10 opposite warning\n") && group_gives("12,5 M 2,0,14", "20 opposite warning\n"));
    CHECK(group_gives("14,0,0 M 2,0,0", "0 fault 13\n") && group_gives("M 2,0,0 12,5", "0 fault 13\n"));
    CHECK(group_gives("M 3,9,0", "10 opposite line\n") && group_gives("M 3,14,14", "10 opposite line\n"));
    CHECK(group_gives("M 3,8,0", "0 fault 13\n") && group_gives("12,5 M 3,9,0", "0 fault 13\n"));
    CHECK(group_gives("9,0,0 14,0,0 1,0,0", "0 fault 13\n") && group_gives("M M 2,0,0", "0 fault 13\n"));
    CHECK(group_gives("12,5 2,0,0", "0 fault 13\n") && group_gives("12,5 1,0,0", "0 fault 13\n"));
    CHECK(group_gives("M M", "0 fault 13\n") && group_gives("M 1,0,0", "0 fault 13\n"));
    CHECK(group_gives("5,0,0 3,0,0", "0 fault 13\n") && group_gives("M 5,2,0", "0 fault 13\n"));
}

static void test_distances_judged(void)
{
    CHECK(group_gives("1,0,0 9,0,0", "0 fault 15\n") && group_gives("2,0,0 9,0,0", "0 fault 15\n"));
    CHECK(group_gives("1,0,2 9,14,0", "0 fault 15\n") && group_gives("1,0,2 9,14,14", "0 present signal first\n"));
    /* a preset point with AZ 0, 1 or 13, with a 14 or without; a prefix does not come before it */
    CHECK(group_gives("1,8,0 9,14,1", "0 fault 15\n") && group_gives("4,8,1 9,14,1", "0 fault 15\n"));
    CHECK(group_gives("1,8,13 9,14,14", "0 fault 15\n") && group_gives("1,8,13 9,14,0 14,1,0", "0 fault 15\n"));
    CHECK(group_gives("1,8,0 9,14,0 14,1,0", "0 fault 15\n") && group_gives("8,7,1 1,8,1 9,14,0 14,1,0", "0 fault 15\n"));
    CHECK(group_gives("1,8,12 9,14,1", "0 present signal first\n") && group_gives("1,8,14 9,14,0 14,1,0", "0 present signal first\n"));
    CHECK(group_gives("1,8,13 9,13,1", "0 present signal first\n") && group_gives("9,14,1 1,8,0", "10 opposite signal\n"));
    CHECK(group_gives("1,0,0 9,0,1 14,1,0", "0 fault 15\n") && group_gives("1,0,0 9,0,0 14,0,1", "0 fault 15\n"));
    CHECK(group_gives("1,0,0 9,0,0 14,14,14", "0 present signal first\n") && group_gives("2,0,0 9,0,0 14,0,0", "0 fault 15\n"));
    CHECK(ridden("0:1,0,0 9:9,2,0 18:14,4,0 999:-").distance == 4000);
    CHECK(ridden("0:1,0,0 9:9,13,14 999:-").distance == 119000);
}

static void test_marks(void)
{
    /* D is 4 x 125 = 500 from 1000: 4D is at 1400, 6D at 1600 */
    const char *first = "1000:1,8,5 1030:9,0,4";
    char records[200];
    static const struct { int place; const char *mark; } cases[] = {
        {1399, "early"}, {1400, "good"}, {1500, "good"}, {1600, "good"},
    };
    for (size_t i = 0; i < sizeof cases / sizeof cases[0]; i++) {
        char lines[100];
        snprintf(records, sizeof records, "%s %d:1,8,5 %d:9,0,4", first, cases[i].place, cases[i].place + 30);
        snprintf(lines, sizeof lines, "1000 present signal first\n%d present signal %s\n", cases[i].place, cases[i].mark);
        CHECK(lists(records, lines));
    }
    CHECK(lists("1000:1,8,5 1030:9,0,4 1601:1,8,5 1630:9,0,4", "1000 present signal first\n1600 missed\n1601 present signal first\n"));
    /* late only if the group opens before 6D: a prefix at 1600, A past it */
    CHECK(lists("1000:1,8,5 1030:9,0,4 1600:8,0,0 1601:1,8,5 1630:9,0,4", "1000 present signal first\n1601 present signal late\n"));
    /* the group that holds the expected signal closes before missed is looked at */
    CHECK(lists("1000:1,8,5 1030:9,0,4 1600:1,8,5 1630:9,0,4 2200:-", "1000 present signal first\n1600 present signal good\n"));
    CHECK(lists("1000:1,8,5 1030:9,0,4 1600:1,8,5 1630:9,0,4 2201:-",
                "1000 present signal first\n1600 present signal good\n2200 missed\n"));
    /* no missed while a group is open, and none at the end */
    CHECK(lists("1000:1,8,5 1030:9,0,1 1140:M 1180:M", "1000 present signal first\n1140 fault 13\n"));
    CHECK(lists("1000:1,8,5 1030:9,0,1 1140:M 1180:M 1221:-", "1000 present signal first\n1140 fault 13\n"));
    CHECK(lists("1000:1,8,5 1030:9,0,1", "1000 present signal first\n"));
    CHECK(lists("1000:1,8,5 1030:9,0,1 1140:3,0,0 1151:5,0,0 1200:-", "1000 present signal first\n1140 present line\n1150 missed\n"));
    /* BY 14 ends linking; a refused group does too; others leave it */
    CHECK(lists("1000:1,8,5 1030:9,14,1 9000:1,8,5 9030:9,0,4", "1000 present signal first\n9000 present signal first\n"));
    CHECK(lists("1000:1,8,5 1030:9,0,4 1200:M 1500:1,8,5 1530:9,0,4",
                "1000 present signal first\n1200 fault 10\n1500 present signal first\n"));
    CHECK(lists("1000:1,8,5 1030:9,0,4 1200:M 1210:2,0,0 1500:1,8,5 1530:9,0,4",
                "1000 present signal first\n1210 opposite warning\n1500 present signal good\n"));
    CHECK(lists("1000:1,8,5 1030:9,0,4 1200:9,0,0 1210:1,0,0 1500:1,8,5 1530:9,0,4",
                "1000 present signal first\n1210 opposite signal\n1500 present signal good\n"));
}

static void test_speeds(void)
{
    static const int kmh[14] = {0, 40, 50, 60, 70, 80, 90, 100, 130, 160, 190, 220, 270, 0};
    char records[100];
    for (int f = 0; f < 14; f++) {
        snprintf(records, sizeof records, "0:1,%d,%d 9:9,2,4 99:-", f, 13 - f);
        CHECK(leaves(records, true, kmh[f], kmh[13 - f]));
    }
    CHECK(leaves("0:1,8,5 9:9,2,4 99:1,14,14 109:9,14,4 199:-", false, 130, PLAIN_UNKNOWN));
    CHECK(leaves("0:1,14,5 9:9,2,4 99:-", true, PLAIN_UNKNOWN, 80));
    CHECK(leaves("0:1,8,5 9:9,2,4 99:M 199:-", false, PLAIN_UNKNOWN, PLAIN_UNKNOWN));
    CHECK(leaves("0:1,8,5 9:9,2,4 99:10,1,1 109:9,2,4 199:-", true, 130, 80));
    CHECK(leaves("0:8,7,1 9:1,8,1 18:9,2,4 99:-", true, 130, 0)); /* the prefix rule */
    CHECK(leaves("0:8,14,14 9:4,14,1 18:9,2,4 99:-", true, PLAIN_UNKNOWN, 0));
    CHECK(leaves("0:8,6,1 9:1,8,1 18:9,2,4 99:-", true, 130, 40) && leaves("0:8,7,0 9:1,8,1 18:9,2,4 99:-", true, 130, 40));
    CHECK(leaves("0:8,7,1 9:1,0,1 18:9,2,4 99:-", true, 0, 40) && leaves("0:8,7,1 9:1,13,1 18:9,2,4 99:-", true, 0, 40));
    CHECK(leaves("0:8,7,1 9:1,1,1 18:9,2,4 99:-", true, 40, 0) && leaves("0:8,7,1 9:1,12,1 18:9,2,4 99:-", true, 270, 0));
    CHECK(leaves("0:8,7,1 9:1,8,2 18:9,2,4 99:-", true, 130, 50));
    CHECK(leaves("0:12,2047 9:1,8,1 18:9,2,4 99:-", true, 130, 40)); /* a number is no prefix */
}

/* The number that the records leave, before the ending. */
static bool keeps(const char *records, int number)
{
    return ridden(records).number == number;
}

static void test_numbers(void)
{
    CHECK(keeps("", PLAIN_UNKNOWN) && keeps("0:1,8,5 9:9,2,4 99:-", PLAIN_UNKNOWN));
    CHECK(keeps("0:12,17 9:1,8,5 18:9,2,4 99:-", 17) && keeps("0:4,8,5 9:9,2,4 18:12,0 99:-", 0));
    /* a present signal without a 12 */
    CHECK(keeps("0:12,17 9:1,8,5 18:9,2,4 99:1,8,5 108:9,2,4 199:-", PLAIN_UNKNOWN));
    /* an opposite one */
    CHECK(keeps("0:12,17 9:1,8,5 18:9,2,4 99:12,5 108:9,2,4 117:1,8,5 199:-", 17));
    /* a warning board */
    CHECK(keeps("0:12,17 9:1,8,5 18:9,2,4 99:2,1,1 108:9,2,4 117:12,5 199:-", 17));
    /* an annulled one */
    CHECK(keeps("0:12,17 9:1,8,5 18:9,2,4 99:12,5 108:10,1,1 117:9,2,4 199:-", 17));
    CHECK(keeps("0:12,17 9:1,8,5 18:9,2,4 99:M 199:-", PLAIN_UNKNOWN)); /* a fault */
    CHECK(keeps("0:12,17 9:1,8,5 18:9,2,4 9000:-", 17)); /* missed */
    CHECK(lists("0:12,17 9:1,8,5 18:9,2,4 99:1,8,5 108:9,2,4", "9 present signal first n17\n99 present signal early\n"));
}

/* Lines come out the same whatever the room. */
static void test_room(void)
{
    static char whole[sizeof wrote], parts[sizeof wrote];
    size_t n = trace_of("1000:1,8,5 1030:9,2,4 1100:M 1000:- 6000:- 6001:M 7000:9,1,1 7001:1,1,1", trace), used = 0;
    int64_t length = plain_check(40, trace, n, whole);
    struct plain_ride ride;
    plain_fresh(&ride);
    for (size_t done = 0; done < n / 8;) {
        size_t taken;
        used += plain_list(&ride, 40, trace + 8 * done, n / 8 - done, parts + used, PLAIN_ROOM, &taken);
        done += taken;
    }
    used += plain_end(&ride, parts + used);
    CHECK((int64_t)used == length && memcmp(whole, parts, used) == 0);
    size_t taken = 9;
    CHECK(plain_list(&ride, 40, trace, 1, parts, PLAIN_ROOM - 1, &taken) == 0 && taken == 0);
}

/* ---- Smaller traces ---- */

/* Whether the trace, compacted, is the other one, its bytes beyond the new length as they were. */
static bool compacts(const char *from, const char *to)
{
    static uint8_t before[sizeof trace], wanted[sizeof trace];
    size_t n = trace_of(from, before), m = trace_of(to, wanted);
    memcpy(trace, before, n);
    return plain_compact(40, trace, n) == (int64_t)m && memcmp(trace, wanted, m) == 0 && memcmp(trace + m, before + m, n - m) == 0;
}

static void test_compact(void)
{
    CHECK(compacts("", ""));
    CHECK(compacts("5:-", "5:-"));
    CHECK(compacts("5:- 6:- 7:-", "7:-"));
    CHECK(compacts("5:- 6:- 5:- 7:- 7:-", "6:- 5:- 7:-"));
    CHECK(compacts("1000:1,8,5 1010:- 1030:9,2,4 1060:- 6000:- 6001:- 6002:-", "1000:1,8,5 1030:9,2,4 6000:- 6002:-"));
    CHECK(compacts("5:M 6:- 45:- 46:- 47:-", "5:M 46:- 47:-"));
    uint8_t one[8] = {0, 0, 0, 5, 3, 0, 0, 0};
    CHECK(plain_compact(0, one, 7) == -19 && plain_compact(201, one, 8) == -19 && plain_compact(40, one, 7) == -16);
}

int main(void)
{
    test_words();
    test_telegram();
    test_find();
    test_long_stretch();
    test_detector();
    test_judge();
    test_distance();
    test_document_ride();
    test_refused_records();
    test_group_sizes();
    test_unreadable();
    test_present_rows();
    test_opposite_rows();
    test_distances_judged();
    test_marks();
    test_speeds();
    test_numbers();
    test_room();
    test_compact();
    printf("%d passed, %d failed\n", passed, failed);
    return failed != 0;
}
