/* Calls every function of include/atc2.h: readings, every refusal, and what is left in lent
   arrays. What is wanted is worked out from document 01 by hand. It is also a sample of how the
   library is used from C; tests/abi/run builds and runs it. Its last line is 'N passed, M
   failed'. */
#include "atc2.h"
#include <stdio.h>

static unsigned passed, failed;

static void same(const char *what, int64_t got, int64_t wanted)
{
    if (got == wanted) {
        passed++;
    } else {
        failed++;
        printf("FAILED %s: %lld, wanted %lld\n", what, (long long)got, (long long)wanted);
    }
}

/* ---- Words */

static void words(void)
{
    static const uint8_t m8[16] = {0x00, 0x17, 0x2B, 0x3C, 0x4D, 0x5A, 0x66, 0x71, 0x8E, 0x99, 0xA5, 0xB2, 0xC3, 0xD4, 0xE8, 0xFF};
    for (int x = 0; x < 16; x++) {
        same("write_short of a figure", atc2_write_short((uint8_t)x), m8[x]);
        same("read_short of its word", atc2_read_short(m8[x]), x);
    }
    same("write_short 16", atc2_write_short(16), ATC2_TOO_LARGE);
    same("write_short 255", atc2_write_short(255), ATC2_TOO_LARGE);
    same("read_short 18", atc2_read_short(0x18), ATC2_NOT_CODE);
    same("write_long 1152", atc2_write_long(1152), 0x8806);
    same("write_long 1216", atc2_write_long(1216), 0x9900);
    same("write_long 1612", atc2_write_long(1612), 0xD1C6);
    same("write_long 2048", atc2_write_long(2048), ATC2_TOO_LARGE);
    same("write_long 65535", atc2_write_long(65535), ATC2_TOO_LARGE);
    same("read_long 88/06", atc2_read_long(0x8806), 1152);
    same("read_long D1/C6", atc2_read_long(0xD1C6), 1612);
    same("read_long 88/07", atc2_read_long(0x8807), ATC2_NOT_CODE);
}

/* ---- Telegrams */

static int32_t why(int32_t number, int32_t letter, int32_t parity)
{
    return number + ATC2_WHY_LETTER * letter + ATC2_WHY_PARITY * parity;
}

static void telegrams(void)
{
    same("read_telegram 1 8 5", atc2_read_telegram(0x17, 0x8E, 0x5A), 1 * 65536 + 8 * 256 + 5);
    same("read_telegram number 1612", atc2_read_telegram(0xC3, 0xD1, 0xC6), 12 * 65536 + 1612);
    same("read_telegram X no code word", atc2_read_telegram(0x18, 0x8E, 0x5A), ATC2_NOT_CODE);
    same("read_telegram Y is 15", atc2_read_telegram(0x17, 0xFF, 0x5A), ATC2_FIFTEEN);
    same("read_telegram Y is 15, Z no code word", atc2_read_telegram(0x17, 0xFF, 0x18), ATC2_FIFTEEN);
    same("read_telegram Y no code word, Z is 15", atc2_read_telegram(0x17, 0x18, 0xFF), ATC2_NOT_CODE);
    same("read_telegram YZ no code word", atc2_read_telegram(0xC3, 0x88, 0x07), ATC2_NOT_CODE);

    same("why_telegram 1 8 5", atc2_why_telegram(0x17, 0x8E, 0x5A), 0);
    same("why_telegram number 1612", atc2_why_telegram(0xC3, 0xD1, 0xC6), 0);
    same("why_telegram X even", atc2_why_telegram(0x18, 0x8E, 0x5A), why(1, ATC2_LETTER_X, ATC2_PARITY_EVEN));
    same("why_telegram X odd, Y no code word", atc2_why_telegram(0x16, 0x18, 0x5A), why(1, ATC2_LETTER_X, ATC2_PARITY_ODD));
    same("why_telegram X is 15", atc2_why_telegram(0xFF, 0x18, 0x18), why(3, ATC2_LETTER_X, ATC2_PARITY_NONE));
    same("why_telegram Y odd", atc2_why_telegram(0x17, 0x8F, 0x5A), why(1, ATC2_LETTER_Y, ATC2_PARITY_ODD));
    same("why_telegram Y is 15, Z no code word", atc2_why_telegram(0x17, 0xFF, 0x18), why(3, ATC2_LETTER_Y, ATC2_PARITY_NONE));
    same("why_telegram Z odd", atc2_why_telegram(0x17, 0x8E, 0x5B), why(1, ATC2_LETTER_Z, ATC2_PARITY_ODD));
    same("why_telegram Z even", atc2_why_telegram(0x17, 0x8E, 0x59), why(1, ATC2_LETTER_Z, ATC2_PARITY_EVEN));
    same("why_telegram Z is 15", atc2_why_telegram(0x17, 0x8E, 0xFF), why(3, ATC2_LETTER_Z, ATC2_PARITY_NONE));
    same("why_telegram YZ odd", atc2_why_telegram(0xC3, 0x88, 0x07), why(1, ATC2_LETTER_YZ, ATC2_PARITY_ODD));
    same("why_telegram YZ even", atc2_why_telegram(0xC3, 0x89, 0x07), why(1, ATC2_LETTER_YZ, ATC2_PARITY_EVEN));
}

/* ---- Places. The pair 1E/E0 differs in seven bits. Two telegrams 1 8 5 that share a sync word,
   from bit 4 on. */

enum { S = 0x1E, T = 0xE0 };

static const uint8_t two[11] = {0xF1, 0xE1, 0x78, 0xE5, 0xAE, 0x01, 0x78, 0xE5, 0xA1, 0xEF, 0xFF};
static const uint8_t differing[11] = {0xF1, 0xE1, 0x78, 0xE5, 0xAE, 0x01, 0x78, 0xE4, 0xD1, 0xEF, 0xFF};

static void places(void)
{
    uint64_t out[2] = {7, 8};
    same("find a pair of eight bits", atc2_find(two, 11, 0, 88, 0x1E, 0xE1, out), ATC2_NOT_SEVEN);
    same("find a pair of six bits", atc2_find(two, 11, 0, 88, 0x1E, 0xE2, out), ATC2_NOT_SEVEN);
    same("find a bit beyond", atc2_find(two, 11, 1, 88, S, T, out), ATC2_BEYOND);
    same("find a bad pair and beyond", atc2_find(two, 11, 1, 88, 0x1E, 0xE1, out), ATC2_NOT_SEVEN);
    same("find 39 bits", atc2_find(two, 11, 4, 39, S, T, out), ATC2_NO_PLACE);
    same("find refused leaves out[0]", (int64_t)out[0], 7);
    same("find refused leaves out[1]", (int64_t)out[1], 8);
    same("find 40 bits", atc2_find(two, 11, 4, 40, S, T, out), 0);
    same("find place", (int64_t)out[0], 4);
    same("find telegram", (int64_t)out[1], 1 * 65536 + 8 * 256 + 5);
    same("find again", atc2_find(two, 11, 5, 83, T, S, out), 0);
    same("find the second place", (int64_t)out[0], 36);
    same("find no third", atc2_find(two, 11, 37, 51, S, T, out), ATC2_NO_PLACE);
}

static void judging(void)
{
    uint64_t out[3] = {7, 8, 9};
    static const uint8_t zeroes[10] = {0};
    same("judge a bad pair", atc2_judge(two, 11, 4, 72, 0, 0, out), ATC2_NOT_SEVEN);
    same("judge beyond", atc2_judge(two, 11, 88, 1, S, T, out), ATC2_BEYOND);
    same("judge one place", atc2_judge(two, 11, 4, 40, S, T, out), ATC2_NEITHER);
    same("judge places that differ", atc2_judge(differing, 11, 4, 72, S, T, out), ATC2_DIFFER);
    same("judge 63 zeroes", atc2_judge(zeroes, 10, 0, 63, S, T, out), ATC2_NEITHER);
    same("judge 64 zeroes", atc2_judge(zeroes, 10, 0, 64, S, T, out), ATC2_MARKER);
    same("judge leaves out[0]", (int64_t)out[0], 7);
    same("judge leaves out[1]", (int64_t)out[1], 8);
    same("judge leaves out[2]", (int64_t)out[2], 9);
    same("judge two places", atc2_judge(two, 11, 4, 72, S, T, out), ATC2_TELEGRAM);
    same("judge telegram", (int64_t)out[0], 1 * 65536 + 8 * 256 + 5);
    same("judge first place", (int64_t)out[1], 4);
    same("judge number of places", (int64_t)out[2], 2);
}

/* ---- Contacts. Ones, then twelve zeroes from bit 24 on, then ones: the eighth zero, bit 31,
   brings the zeroes to 8; with bits 24 to 35 zero, the bit that brings them to 4 is the twelfth
   one after the eighth last zero: bit 47. */

static void contacts(void)
{
    static const uint8_t line[8] = {0xFF, 0xFF, 0xFF, 0x00, 0x0F, 0xFF, 0xFF, 0xFF};
    struct atc2_search search = {1, 2, 3};
    uint64_t out[2] = {7, 8};
    same("begin beyond", atc2_begin(line, 8, 1, 64, &search), ATC2_BEYOND);
    same("begin beyond leaves next", (int64_t)search.next, 1);
    same("begin beyond leaves left", (int64_t)search.left, 2);
    same("begin beyond leaves history", (int64_t)search.history, 3);
    same("begin", atc2_begin(line, 8, 0, 64, &search), 0);
    same("begin next", (int64_t)search.next, 0);
    same("begin left", (int64_t)search.left, 64);
    same("begin history", (int64_t)search.history, 65535);
    same("next_contact", atc2_next_contact(line, 8, &search, out), ATC2_CONTACT);
    same("its start", (int64_t)out[0], 31);
    same("its length", (int64_t)out[1], 16);
    same("search after it", (int64_t)search.next, 48);
    same("bits left after it", (int64_t)search.left, 16);
    same("history after it", (int64_t)search.history, 0x0FFF);
    same("no further contact", atc2_next_contact(line, 8, &search, out), ATC2_NO_FURTHER);
    same("no further leaves next", (int64_t)search.next, 48);
    same("no further leaves out", (int64_t)out[0], 31);
    atc2_begin(line, 8, 0, 47, &search);
    same("a contact cut", atc2_next_contact(line, 8, &search, out), ATC2_CUT);
    same("cut leaves next", (int64_t)search.next, 0);
    same("cut leaves out", (int64_t)out[1], 16);
    search.left = 65;
    same("a search beyond", atc2_next_contact(line, 8, &search, out), ATC2_BEYOND);
}

static void balises(void)
{
    uint8_t buf[18] = {0};
    static const uint8_t figures[9] = {S, 0x17, 0x8E, 0x5A, T, 0x17, 0x8E, 0x5A, S};
    static const uint8_t number[9] = {S, 0xC3, 0xD1, 0xC6, T, 0xC3, 0xD1, 0xC6, S};
    uint64_t out[3] = {0, 0, 0};
    buf[9] = 77;
    same("write_balise 1 8 5", atc2_write_balise(1, 8, 5, S, T, 2, buf, 9), 9);
    for (int i = 0; i < 9; i++) same("its bytes", buf[i], figures[i]);
    same("the byte after them", buf[9], 77);
    same("judge of it", atc2_judge(buf, 9, 0, 72, S, T, out), ATC2_TELEGRAM);
    same("its figures", (int64_t)out[0], 1 * 65536 + 8 * 256 + 5);
    same("its first place", (int64_t)out[1], 0);
    same("its places", (int64_t)out[2], 2);
    same("write_balise number 1612", atc2_write_balise(12, 1612, 200, S, T, 2, buf, 18), 9);
    for (int i = 0; i < 9; i++) same("its bytes", buf[i], number[i]);
    same("the byte after them", buf[9], 77);
    same("write_balise figure 16", atc2_write_balise(15, 16, 0, S, S, 1, buf, 8), ATC2_TOO_LARGE);
    same("write_balise Y 256", atc2_write_balise(1, 256, 0, S, T, 2, buf, 18), ATC2_TOO_LARGE);
    same("write_balise number 2048", atc2_write_balise(12, 2048, 0, S, T, 2, buf, 18), ATC2_TOO_LARGE);
    same("write_balise figure 15", atc2_write_balise(15, 14, 0, S, S, 1, buf, 8), ATC2_FIFTEEN);
    same("write_balise S twice", atc2_write_balise(14, 14, 0, S, S, 1, buf, 8), ATC2_NOT_SEVEN);
    same("write_balise one telegram", atc2_write_balise(14, 14, 0, S, T, 1, buf, 8), ATC2_COUNT);
    same("write_balise 1001 telegrams", atc2_write_balise(14, 14, 0, S, T, 1001, buf, 8), ATC2_COUNT);
    same("write_balise into 8 bytes", atc2_write_balise(14, 14, 0, S, T, 2, buf, 8), ATC2_SHORT);
    for (int i = 0; i < 9; i++) same("its bytes as they were", buf[i], number[i]);
}

/* Whether a test balise of four telegrams, between three bytes of quiet line, is read by the
   detector, and as the telegram sent; 2: as another. */
static int heard(uint8_t x, uint16_t y, uint8_t z, uint8_t s, uint8_t t, uint64_t telegram)
{
    uint8_t cable[23];
    struct atc2_search search;
    uint64_t contact[2], out[3];
    int is_read = 0;
    for (int i = 0; i < 23; i++) cable[i] = 0xFF;
    if (atc2_write_balise(x, y, z, s, t, 4, cable + 3, 16) != ATC2_SHORT || atc2_write_balise(x, y, z, s, t, 4, cable + 3, 17) != 17) return 2;
    if (atc2_judge(cable, 23, 24, 136, s, t, out) != ATC2_TELEGRAM || out[0] != telegram || out[1] != 24 || out[2] != 4) return 2;
    if (atc2_begin(cable, 23, 0, 184, &search) != 0) return 2;
    while (atc2_next_contact(cable, 23, &search, contact) == ATC2_CONTACT)
        if (atc2_judge(cable, 23, contact[0], contact[1], s, t, out) == ATC2_TELEGRAM) {
            if (out[0] != telegram || out[2] > 4) return 2;
            is_read = 1;
        }
    return is_read;
}

/* Whether some good pair lets the detector read this number. */
static int heard_with_some_pair(uint16_t number)
{
    for (int s = 0; s < 256; s++)
        for (int bit = 0; bit < 8; bit++)
            if (heard(12, number, 0, (uint8_t)s, (uint8_t)(s ^ 0xFF ^ 1 << bit), 12 * 65536 + number) == 1) return 1;
    return 0;
}

/* Every number and every telegram of three figures, written with the sync words 72 and 0D and
   listened to. */
static void all_balises(void)
{
    int count[3] = {0, 0, 0}, never = 0, first = -1;
    for (uint16_t number = 0; number < 2048; number++) {
        count[heard(12, number, 0, 0x72, 0x0D, 12 * 65536 + number)]++;
        if (!heard_with_some_pair(number)) {
            never++;
            if (first < 0) first = number;
        }
    }
    same("numbers read on a cable", count[1], 1789);
    same("numbers that close the contact", count[0], 259);
    same("numbers read otherwise", count[2], 0);
    same("numbers never read, whatever the pair", never, 215);
    same("the first of them", first, 15);
    count[0] = count[1] = count[2] = 0;
    for (uint8_t x = 0; x < 15; x++)
        for (uint8_t y = 0; y < 15 && x != 12; y++)
            for (uint8_t z = 0; z < 15; z++) count[heard(x, y, z, 0x72, 0x0D, x * 65536u + y * 256u + z)]++;
    same("telegrams of three figures read on a cable", count[1], 3150);
    same("telegrams of three figures read otherwise", count[0] + count[2], 0);
    printf("2048 numbers and 3150 telegrams of three figures written and listened to\n");
}

static void distances(void)
{
    same("distance 0, 1", atc2_distance(0, 1), 125);
    same("distance 13, 14", atc2_distance(13, 14), 119000);
    same("distance 14, 1", atc2_distance(14, 1), 7000);
    same("distance 14, 14", atc2_distance(14, 14), 500);
    same("distance 0, 0", atc2_distance(0, 0), ATC2_NOT_ALLOWED);
    same("distance 0, 15", atc2_distance(0, 15), ATC2_NOT_ALLOWED);
    same("distance 15, 1", atc2_distance(15, 1), ATC2_NOT_ALLOWED);
}

/* A position record, or one with a telegram. */
static size_t record(uint8_t *trace, size_t at, uint32_t odometer, int kind, uint8_t x, uint8_t y, uint8_t z)
{
    uint8_t bytes[8] = {(uint8_t)(odometer >> 24), (uint8_t)(odometer >> 16), (uint8_t)(odometer >> 8), (uint8_t)odometer, (uint8_t)kind, x, y, z};
    for (int i = 0; i < 8; i++) trace[at + i] = bytes[i];
    return at + 8;
}

/* Document 01's ride with positions between its records, compacted. */
static void traces(void)
{
    uint8_t trace[56], before[56], kept[32];
    size_t n = 0, k = 0;
    int alike = 0, stayed = 0, untouched = 0;
    n = record(trace, n, 1000, 0, 0x17, 0x8E, 0x5A);
    n = record(trace, n, 1010, 3, 0, 0, 0);
    n = record(trace, n, 1030, 0, 0x99, 0x2B, 0x4D);
    n = record(trace, n, 1060, 3, 0, 0, 0);
    n = record(trace, n, 6000, 3, 0, 0, 0);
    n = record(trace, n, 6001, 3, 0, 0, 0);
    n = record(trace, n, 6002, 3, 0, 0, 0);
    k = record(kept, k, 1000, 0, 0x17, 0x8E, 0x5A);
    k = record(kept, k, 1030, 0, 0x99, 0x2B, 0x4D);
    k = record(kept, k, 6000, 3, 0, 0, 0);
    k = record(kept, k, 6002, 3, 0, 0, 0);
    for (size_t i = 0; i < n; i++) before[i] = trace[i];
    same("compact gap 0", atc2_compact(0, trace, n - 1), ATC2_GAP);
    same("compact gap 201", atc2_compact(201, trace, n), ATC2_GAP);
    same("compact half a record", atc2_compact(40, trace, n - 4), ATC2_LENGTH);
    for (size_t i = 0; i < n; i++) untouched += trace[i] == before[i];
    same("compact refused leaves all bytes", untouched, (int)n);
    same("compact nothing", atc2_compact(40, trace, 0), 0);
    same("compact", atc2_compact(40, trace, n), 32);
    for (size_t i = 0; i < k; i++) alike += trace[i] == kept[i];
    for (size_t i = k; i < n; i++) stayed += trace[i] == before[i];
    same("compact keeps four records", alike, (int)k);
    same("compact leaves the bytes beyond", stayed, (int)(n - k));
    same("compact once more", atc2_compact(40, trace, k), 32);
}

/* ---- Why a word is refused */

static void why_words(void)
{
    same("why_word short 17", atc2_why_word(0x17, 0), 0);
    same("why_word short 18, even", atc2_why_word(0x18, 0), 1 + ATC2_WHY_PARITY * ATC2_PARITY_EVEN);
    same("why_word short 19, odd", atc2_why_word(0x19, 0), 1 + ATC2_WHY_PARITY * ATC2_PARITY_ODD);
    same("why_word the low byte of a wider one", atc2_why_word(0xFF17, 0), 0);
    same("why_word long 88/06", atc2_why_word(0x8806, 1), 0);
    same("why_word long 88/06, any mark but 0", atc2_why_word(0x8806, 255), 0);
    same("why_word long 88/07, odd", atc2_why_word(0x8807, 1), 1 + ATC2_WHY_PARITY * ATC2_PARITY_ODD);
    for (int w = 0; w < 65536; w++) {
        int32_t r = atc2_read_long((uint16_t)w), y = atc2_why_word((uint16_t)w, 1);
        if ((r < 0) != (y != 0) || (y != 0 && y / ATC2_WHY_PARITY != (__builtin_popcount((unsigned)w) % 2 ? ATC2_PARITY_ODD : ATC2_PARITY_EVEN)))
            same("why_word of every long word", y, r);
    }
    passed++;
}

/* ---- Settings */

static int alike(const uint8_t *a, const uint8_t *b)
{
    int n = 0;
    for (int i = 0; i < ATC2_STORE; i++) n += a[i] == b[i];
    return n;
}

static int32_t settings_of(const char *text, uint8_t *store)
{
    uint64_t n = 0;
    while (text[n]) n++;
    return atc2_settings_read((const uint8_t *)text, n, store);
}

static int64_t line_of(const char *text)
{
    uint64_t n = 0;
    while (text[n]) n++;
    return atc2_settings_line((const uint8_t *)text, n);
}

static void settings(void)
{
    uint8_t store[ATC2_STORE], other[ATC2_STORE], before[ATC2_STORE];
    for (int i = 0; i < ATC2_STORE; i++) store[i] = before[i] = (uint8_t)(i * 7 + 1);
    same("settings_begin bad pair and bad gap", atc2_settings_begin(0, 0x00, 0x0F, store), ATC2_NOT_SEVEN);
    same("settings_begin gap 0", atc2_settings_begin(0, 0x72, 0x0D, store), ATC2_GAP);
    same("settings_begin gap 201", atc2_settings_begin(201, 0x72, 0x0D, store), ATC2_GAP);
    same("settings_add to bytes that are no store", atc2_settings_add(store, 1, 40, 0x72, 0x0D), ATC2_FULL);
    same("settings_read no version", settings_of("# nothing\n", store), ATC2_GAP);
    same("settings_read unreadable", settings_of("0 40 72\n", store), ATC2_UNREADABLE);
    same("settings_read first place not 0", settings_of("1 40 72 0D\n", store), ATC2_FIRST_PLACE);
    same("settings refused leave all bytes", alike(store, before), ATC2_STORE);
    same("settings_begin", atc2_settings_begin(40, 0x72, 0x0D, store), 0);
    for (int i = 0; i < ATC2_STORE; i++) before[i] = store[i];
    same("settings_add bad pair first", atc2_settings_add(store, 4000000001u, 0, 1, 1), ATC2_NOT_SEVEN);
    same("settings_add then the gap", atc2_settings_add(store, 4000000001u, 0, 0x72, 0x0D), ATC2_GAP);
    same("settings_add then the place", atc2_settings_add(store, 4000000001u, 60, 0x72, 0x0D), ATC2_TOO_HIGH);
    same("settings_add a place not above", atc2_settings_add(store, 0, 60, 0x72, 0x0D), ATC2_NOT_ABOVE);
    same("settings_add refused leaves all bytes", alike(store, before), ATC2_STORE);
    for (uint32_t i = 1; i < 32; i++) same("settings_add", atc2_settings_add(store, i * 100, 1 + i, 0x72, 0x0D), 0);
    for (int i = 0; i < ATC2_STORE; i++) before[i] = store[i];
    same("settings_add a 33rd", atc2_settings_add(store, 4000000000u, 60, 0x72, 0x0D), ATC2_FULL);
    same("settings_add a 33rd leaves all bytes", alike(store, before), ATC2_STORE);

    same("settings_begin 40", atc2_settings_begin(40, 0x72, 0x0D, store), 0);
    same("settings_add 5200", atc2_settings_add(store, 5200, 60, 0x72, 0x0D), 0);
    same("settings_read the same", settings_of("# place gap S S*\n0 40 72 0D\n\n5200 60 72 0d # more\n", other), 0);
    same("settings_read makes the bytes that begin and add make", alike(store, other), ATC2_STORE);
    same("settings_line of a good text", line_of("0 40 72 0D\n"), 0);
    same("settings_line of the third", line_of("0 40 72 0D\n\n0 40 72 0D\n"), 3);
    same("settings_read 24 in the third", settings_of("0 40 72 0D\n\n0 40 72 0D\n", other), ATC2_NOT_ABOVE);
    same("settings_line where none is named", line_of(""), 0);
}

/* Any bytes are some store: adding answers, and a refusal leaves them. */
static void any_store(void)
{
    uint8_t store[ATC2_STORE], before[ATC2_STORE];
    uint32_t seed = 1;
    int kept = 0;
    for (int turn = 0; turn < 2000; turn++) {
        if (turn % 2) atc2_settings_begin(1 + (uint32_t)turn % 200, 0x72, 0x0D, store);
        for (int i = turn % 2 ? ATC2_STORE - 1 - turn % 40 : 0; i < ATC2_STORE; i++) {
            seed = seed * 1664525u + 1013904223u;
            store[i] = (uint8_t)(seed >> 24);
        }
        for (int i = 0; i < ATC2_STORE; i++) before[i] = store[i];
        int32_t r = atc2_settings_add(store, 4000000000u, 40, 0x72, 0x0D);
        if (r != 0 && r != ATC2_FULL && r != ATC2_GAP && r != ATC2_NOT_ABOVE && r != ATC2_NOT_SEVEN && r != ATC2_TOO_HIGH) same("settings_add to any bytes", r, 0);
        if (r < 0 && alike(store, before) != ATC2_STORE) same("settings_add refused changed any bytes", r, 0);
        kept += r <= 0;
    }
    same("settings_add to any bytes answers", kept, 2000);
}

/* ---- Rides: a present signal, a position, and a group that the end closes */

static void rides(void)
{
    static const uint8_t trace[32] = {0, 0, 3, 0xE8, 0, 0x17, 0x8E, 0x5A, 0, 0, 4, 6, 0, 0x99, 0x2B, 0x4D, 0, 0, 7, 0xD0, 3, 0, 0, 0, 0, 0, 0x0B, 0xB8, 2, 0, 0, 0};
    static const char first[] = "1000 present signal first\n", last[] = "3000 fault 10\n", reason[] = "3000 fault 10: 1 balise\n";
    uint8_t ride[ATC2_RIDE], store[ATC2_STORE], text[1000];
    uint64_t out[2] = {7, 7}, known[6];
    for (int i = 0; i < 1000; i++) text[i] = 0xEE;
    for (int i = 0; i < ATC2_RIDE; i++) ride[i] = (uint8_t)(i * 7 + 1);
    for (int i = 0; i < ATC2_STORE; i++) store[i] = 0xEE;
    same("ride_begin", atc2_ride_begin(ride), 0);
    same("ride_known", atc2_ride_known(ride, known), 0);
    same("a fresh ride at 0", (int64_t)known[0], 0);
    for (int i = 1; i < 6; i++) same("a fresh ride knows nothing", known[i] == ATC2_NONE, 1);
    same("ride_list with bytes that are no store", atc2_ride_list(ride, store, trace, 31, 1, 0, text, 1000, out), ATC2_FULL);
    same("settings_begin for it", atc2_settings_begin(40, 0x72, 0x0D, store), 0);
    same("ride_list of half a record", atc2_ride_list(ride, store, trace, 31, 1, 0, text, 1000, out), ATC2_LENGTH);
    same("ride_list refused leaves out and text", (int64_t)(out[0] + out[1] + text[0]), 14 + 0xEE);
    same("ride_list without room", atc2_ride_list(ride, store, trace, 24, 1, 0, text, ATC2_ROOM - 1, out), 0);
    same("ride_list without room takes none", (int64_t)(out[0] + out[1]), 0);
    same("ride_list of two records", atc2_ride_list(ride, store, trace, 16, 1, 0, text, 1000, out), 0);
    same("ride_list takes two, without a line", (int64_t)(out[0] * 100 + out[1]), 200);
    same("ride_end while the group is open", atc2_ride_end(ride, 0, text + 500, 100), sizeof first - 1);
    same("ride_list of the third", atc2_ride_list(ride, store, trace + 16, 8, 3, 0, text, 1000, out), 0);
    same("ride_list's bytes", (int64_t)out[1], sizeof first - 1);
    for (unsigned i = 0; i < sizeof first - 1; i++) same("ride_list's text", text[i], first[i]);
    same("ride_list's text ends", text[sizeof first - 1], 0xEE);
    same("ride_end with no open group", atc2_ride_end(ride, 1, text, 0), 0);
    same("ride_known after it", atc2_ride_known(ride, known), 0);
    same("the odometer", (int64_t)known[0], 2000);
    same("linking", (int64_t)(known[1] * 10000 + known[2]), 4000 * 10000 + 1000);
    same("main speed, target", (int64_t)(known[3] * 1000 + known[4]), 130080);
    same("no number", known[5] == ATC2_NONE, 1);
    same("ride_list of the fourth", atc2_ride_list(ride, store, trace + 24, 8, 4, 1, text, 1000, out), 0);
    same("ride_end without room", atc2_ride_end(ride, 0, text, sizeof last - 2), ATC2_SHORT);
    same("ride_end", atc2_ride_end(ride, 0, text, sizeof last - 1), sizeof last - 1);
    for (unsigned i = 0; i < sizeof last - 1; i++) same("ride_end's text", text[i], last[i]);
    same("ride_end with reasons", atc2_ride_end(ride, 1, text, 1000), sizeof reason - 1);
    for (unsigned i = 0; i < sizeof reason - 1; i++) same("ride_end's reason", text[i], reason[i]);
}

/* ---- Leads: a frame with a position, one without a record, and the end's position */

static void leads(void)
{
    static const uint8_t lead[32] = {0, 0, 0, 100, 255, 255, 255, 255, 255, 255, 255, 255, 255, 255, 255, 255, 0, 0, 0, 105, 255, 255, 255, 255, 255, 255, 255, 255, 255, 255, 255, 255};
    static const uint8_t first[8] = {0, 0, 0, 100, 3, 0, 0, 0}, last[8] = {0, 0, 0, 105, 3, 0, 0, 0};
    uint8_t ear[ATC2_EAR], begun[ATC2_EAR], store[ATC2_STORE], records[24];
    uint64_t out[2] = {7, 9};
    for (int i = 0; i < ATC2_EAR; i++) ear[i] = (uint8_t)(i * 7 + 1);
    for (int i = 0; i < 24; i++) records[i] = 0xEE;
    same("record_begin", atc2_record_begin(ear), 0);
    for (int i = 0; i < ATC2_EAR; i++) begun[i] = ear[i];
    atc2_settings_begin(40, 0x72, 0x0D, store);
    store[ATC2_STORE - 1] = 33;
    same("record under bytes that are no store", atc2_record(ear, store, lead, 16, records, 24, out), ATC2_FULL);
    same("record refused leaves out", (int64_t)(out[0] * 10 + out[1]), 79);
    store[ATC2_STORE - 1] = 1;
    for (uint64_t room = 0; room < 8; room += 7) {
        same("record without room", atc2_record(ear, store, lead, 16, records, room, out), 0);
        same("record without room uses and writes nothing", (int64_t)(out[0] + out[1]), 0);
    }
    for (int i = 0; i < ATC2_EAR; i++) same("refused or without room, the ear stays", ear[i], begun[i]);
    for (int i = 0; i < 24; i++) same("refused or without room, the records stay", records[i], 0xEE);
    same("record with room for one", atc2_record(ear, store, lead, 31, records, 8, out), 0);
    same("record uses the frame and writes one", (int64_t)(out[0] * 100 + out[1]), 1608);
    for (int i = 0; i < 8; i++) same("record's position", records[i], first[i]);
    for (int i = 8; i < 24; i++) same("bytes after it stay", records[i], 0xEE);
    same("record of a frame without a record", atc2_record(ear, store, lead + 16, 16, records, 24, out), 0);
    same("record uses it", (int64_t)(out[0] * 100 + out[1]), 1600);
    same("record_end without room", atc2_record_end(ear, records, 7, out), 0);
    same("record_end without room writes nothing", (int64_t)out[0], 0);
    same("record_end", atc2_record_end(ear, records, 24, out), 0);
    same("record_end writes one", (int64_t)out[0], 8);
    for (int i = 0; i < 8; i++) same("record_end's position", records[i], last[i]);
    for (int i = 8; i < 24; i++) same("bytes after the end's stay", records[i], 0xEE);
    same("record_end again", atc2_record_end(ear, records, 24, out), 0);
    same("record_end has no further one", (int64_t)out[0], 0);
}

int main(void)
{
    leads();
    rides();
    why_words();
    settings();
    any_store();
    words();
    telegrams();
    places();
    judging();
    contacts();
    balises();
    all_balises();
    distances();
    traces();
    printf("%u passed, %u failed\n", passed, failed);
    return failed != 0;
}
