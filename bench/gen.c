/* gen KIND SEED [RECORDS]: inputs for the bench, to standard output; the same seed gives the same
   bytes.

   trace          a ride of so many records (a million where none are named): groups of every row,
                  most of them good, with marks of every kind, positions, unreadable balises, broken
                  groups, refused records
   damaged        such a ride with some of its bytes changed, and one in ten cut within a record
   positions      so many position records, one each metre
   none           16,777,216 bits in which no contact opens and neither sync word stands: single
                  zeroes among ones
   telegrams      16,777,216 bits of one balise, telegram after telegram
   noise          16,777,216 bits by chance
   line           16,777,216 bits as a vehicle hears them: ones, balises with some flipped bits,
                  markers, bursts of noise
   quiet-lead     so many frames of a lead on which nothing is heard, a decimetre each
   ridden-lead    so many frames of a lead as a vehicle hears it: such balises, markers and noise,
                  with more quiet line between; some odometers wild
   standing-lead  so many frames of a vehicle that stands over a balise */
#include "atc2_plain.h"
#include "chance.h"
#include "pair.h"

#include <stdio.h>
#include <stdlib.h>
#include <string.h>

/* ---- Stretches ---- */

#define BITS 16777216

static uint8_t stretch[BITS / 8];
static size_t length;

static void put_bit(uint32_t bit)
{
    if (length < BITS) {
        stretch[length / 8] = (uint8_t)(stretch[length / 8] << 1 | bit);
        length++;
    }
}

static void put_run(uint32_t count, uint32_t bit)
{
    while (count-- > 0)
        put_bit(bit);
}

/* A byte, each of whose bits is flipped in so many cases of a thousand. */
static void put_byte(uint8_t byte, uint32_t flips)
{
    for (int i = 7; i >= 0; i--)
        put_bit((uint32_t)(byte >> i & 1) ^ (flips != 0 && below(1000) < flips));
}

/* A balise's words: three short ones other than 0 and 15, or 12 and a long one. */
static void choose_words(uint8_t words[3])
{
    for (int i = 0; i < 3; i++)
        words[i] = (uint8_t)plain_write_short((uint8_t)between(1, 14));
    if (plain_read_short(words[0]) == 12) {
        int32_t number = plain_write_long((uint16_t)below(2048));
        words[1] = (uint8_t)(number >> 8);
        words[2] = (uint8_t)number;
    }
}

static void put_telegrams(uint32_t count, uint32_t flips)
{
    uint8_t words[3];
    choose_words(words);
    for (uint32_t i = 0; i < count && length < BITS; i++) {
        put_byte(i % 2 == 0 ? BENCH_S : BENCH_T, flips);
        for (int k = 0; k < 3; k++)
            put_byte(words[k], flips);
    }
}

static void put_noise(uint32_t bits)
{
    while (bits-- > 0)
        put_bit((uint32_t)(next() >> 63));
}

static void put_passage(void)
{
    uint32_t flips = 0;
    put_run(between(40, 300), 1);
    switch (below(6)) {
    case 0:
        put_run(between(50, 400), 0);
        break;
    case 1:
        put_noise(between(20, 200));
        break;
    default:
        if (in_hundred(30))
            flips = between(1, 20);
        put_telegrams(between(2, 60), flips);
    }
}

static bool make_stretch(const char *kind)
{
    if (strcmp(kind, "telegrams") == 0)
        put_telegrams(BITS / 32, 0);
    else if (strcmp(kind, "noise") == 0)
        put_noise(BITS);
    else if (strcmp(kind, "none") == 0)
        while (length < BITS)
            put_run(between(2, 20), 1), put_bit(0);
    else if (strcmp(kind, "line") == 0)
        while (length < BITS)
            put_passage();
    else
        return false;
    return fwrite(stretch, 1, sizeof stretch, stdout) == sizeof stretch;
}

/* ---- A trace ---- */

#define MARKER 16
#define MOST_DM 4000000000

/* The rows of document 01 by categories, an optional member negative. */
static const int8_t rows[][7] = {
    {-12, -8, 1, 9, -14, -12}, {-12, -8, 4, 9, -14, -12}, {-8, 2, 9, -14, -12}, {-12, -8, 10, 9, -14, -12},
    {3, 5}, {3, MARKER}, {5, 3}, {5, 5}, {5, 7},
    {-12, -14, 9, 1, -8, -12}, {-12, -14, 9, 4, -8, -12}, {-12, -14, 9, 10, -8, -12},
    {-12, -14, 9, 2}, {-12, MARKER, 2}, {MARKER, 3},
};
#define ROWS (sizeof rows / sizeof rows[0])

static uint64_t odometer;
static uint64_t written, wanted;
static uint32_t expected; /* the distance that the last present signal gave */

static bool is_damaged;

/* A record; of a damaged ride some bytes have one bit changed, those of the odometer seldom. */
static void put_record(uint64_t dm, uint8_t kind, uint8_t x, uint8_t y, uint8_t z)
{
    uint8_t record[8] = {(uint8_t)(dm >> 24), (uint8_t)(dm >> 16), (uint8_t)(dm >> 8), (uint8_t)dm, kind, x, y, z};
    size_t bytes = 8;
    if (written == wanted)
        return;
    written++;
    for (int i = 0; is_damaged && i < 8; i++)
        if (below(1000) < (i < 4 ? 2 : 10))
            record[i] ^= (uint8_t)(1 << below(8));
    if (is_damaged && written == wanted && in_hundred(10))
        bytes = below(8);
    fwrite(record, 1, bytes, stdout);
}

static void advance(uint32_t dm)
{
    odometer = odometer + dm < MOST_DM ? odometer + dm : MOST_DM;
}

static void put_short(uint8_t x, uint8_t y, uint8_t z)
{
    put_record(odometer, 0, (uint8_t)plain_write_short(x), (uint8_t)plain_write_short(y), (uint8_t)plain_write_short(z));
}

/* A balise of the category with figures that mostly fit its row. is_marked: the row has a
   marker; has_14: it has a 14. */
static void put_balise(uint8_t category, bool is_marked, bool has_14)
{
    uint8_t y = (uint8_t)below(15), z = (uint8_t)below(15);
    switch (category) {
    case MARKER:
        put_record(odometer, 1, 0, 0, 0);
        return;
    case 12: {
        int32_t number = plain_write_long((uint16_t)below(2048));
        put_record(odometer, 0, 0xC3, (uint8_t)(number >> 8), (uint8_t)number);
        return;
    }
    case 3:
        y = (uint8_t)(is_marked ? between(9, 14) : below(9));
        z = (uint8_t)below(14);
        break;
    case 5:
        y = in_hundred(70) ? 2 : 4;
        z = y == 2 ? (uint8_t)below(14) : 10;
        break;
    case 9:
        y = (uint8_t)(in_hundred(80) ? below(5) : below(15));
        z = (uint8_t)(has_14 ? 0 : between(1, 14));
        expected = (uint32_t)(plain_distance(y, z) > 0 ? plain_distance(y, z) : 4000);
        break;
    case 14:
        y = (uint8_t)between(1, 14);
        break;
    default:
        break;
    }
    put_short(category, y, z);
}

/* The categories of a group: a row with some of its optional members, sometimes damaged. */
static size_t choose_group(uint8_t group[12])
{
    const int8_t *row = rows[in_hundred(40) ? below(2) : below(ROWS)];
    bool has_number = false;
    size_t n = 0;
    for (int i = 0; i < 7 && row[i] != 0; i++) {
        uint8_t category = (uint8_t)abs(row[i]);
        bool is_in = row[i] > 0 || (in_hundred(40) && !(category == 12 && has_number));
        has_number |= is_in && category == 12;
        if (is_in)
            group[n++] = category;
    }
    if (in_hundred(6)) {
        uint32_t i = below((uint32_t)n);
        group[i] = (uint8_t)below(17);
    }
    if (in_hundred(3))
        n = 1;
    while (in_hundred(3) && n < 9)
        group[n++] = (uint8_t)below(17);
    return n;
}

static void put_chance_words(void)
{
    uint32_t words = below(1 << 24);
    put_record(odometer, 0, (uint8_t)(words >> 16), (uint8_t)(words >> 8), (uint8_t)words);
}

static void put_group(void)
{
    uint8_t group[12];
    size_t n = choose_group(group);
    bool is_marked = memchr(group, MARKER, n) != NULL, has_14 = memchr(group, 14, n) != NULL;
    for (size_t i = 0; i < n; i++) {
        if (i > 0)
            advance(in_hundred(98) ? between(0, 40) : 41);
        if (in_hundred(1))
            put_record(odometer, 2, 0, 0, 0);
        else if (in_hundred(1))
            put_chance_words();
        else
            put_balise(group[i], is_marked, has_14);
    }
}

/* A record that is refused: its kind, a byte that must be zero, or its odometer too high or too
   low. */
static void put_refused(void)
{
    uint32_t chance = below(1 << 24);
    uint8_t kind = (uint8_t)between(1, 3);
    switch (below(4)) {
    case 0: put_record(odometer, (uint8_t)(4 + chance % 252), 0, 0, 0); break;
    case 1: put_record(odometer, kind, 0, (uint8_t)chance, 1); break;
    case 2: put_record(MOST_DM + 1 + chance, kind, 0, 0, 0); break;
    default: put_record(odometer > 0 ? chance % odometer : 0, 3, 0, 0, 0); break;
    }
}

static void make_trace(void)
{
    while (written < wanted) {
        put_group();
        uint32_t way = in_hundred(70) ? expected * between(70, 125) / 100 % 20000 : between(0, 3000);
        for (uint32_t positions = below(3); positions > 0; positions--) {
            uint32_t part = below(way + 1);
            advance(part);
            way -= part;
            put_record(odometer, 3, 0, 0, 0);
        }
        if (in_hundred(5))
            put_refused();
        advance(way);
    }
}

/* Position records, one each metre. */
static void make_positions(uint64_t count)
{
    for (uint64_t i = 1; i <= count; i++) {
        uint32_t o = (uint32_t)(10 * i % MOST_DM);
        uint8_t record[8] = {(uint8_t)(o >> 24), (uint8_t)(o >> 16), (uint8_t)(o >> 8), (uint8_t)o, 3, 0, 0, 0};
        fwrite(record, 1, sizeof record, stdout);
    }
}

/* ---- A lead ---- */

/* A frame with its odometer and twelve bytes of line. */
static void put_frame(uint64_t dm, const uint8_t *line)
{
    uint8_t frame[16] = {(uint8_t)(dm >> 24), (uint8_t)(dm >> 16), (uint8_t)(dm >> 8), (uint8_t)dm};
    memcpy(frame + 4, line, 12);
    fwrite(frame, 1, sizeof frame, stdout);
}

static bool is_lead(const char *kind)
{
    return strcmp(kind, "quiet-lead") == 0 || strcmp(kind, "ridden-lead") == 0 || strcmp(kind, "standing-lead") == 0;
}

/* The line of a lead is the stretch, again and again. As a vehicle hears it, of ten thousand
   frames one has a wild odometer, too high or too low. */
static void make_lead(const char *kind, uint64_t count)
{
    bool is_ridden = strcmp(kind, "ridden-lead") == 0, is_standing = strcmp(kind, "standing-lead") == 0;
    while (length < BITS)
        if (is_standing) {
            put_telegrams(BITS / 32, 0);
        } else {
            put_run(between(2000, 12000), 1);
            if (is_ridden)
                put_passage();
        }
    size_t at = 0;
    for (uint64_t i = 0; i < count; i++) {
        uint64_t dm = is_standing ? 1000 : 1000 + i;
        if (is_ridden && i > 0 && below(10000) == 0)
            dm = in_hundred(50) ? dm / 2 : 4100000000;
        put_frame(dm, stretch + at);
        at = at + 24 <= sizeof stretch ? at + 12 : 0;
    }
}

int main(int argc, char **argv)
{
    if (argc < 3) {
        fprintf(stderr, "gen trace|damaged|positions|none|telegrams|noise|line|quiet-lead|ridden-lead|standing-lead SEED [RECORDS]\n");
        return 2;
    }
    chance_state = strtoull(argv[2], NULL, 10);
    is_damaged = strcmp(argv[1], "damaged") == 0;
    wanted = argc > 3 ? strtoull(argv[3], NULL, 10) : 1000000;
    if (strcmp(argv[1], "positions") == 0) {
        make_positions(wanted);
        return 0;
    }
    if (is_lead(argv[1])) {
        make_lead(argv[1], wanted);
        return 0;
    }
    if (strcmp(argv[1], "trace") != 0 && !is_damaged)
        return make_stretch(argv[1]) ? 0 : 2;
    make_trace();
    return 0;
}
