/* plain_record S S* [LEAD]: the trace of a lead, the program `record` in plain C with one sync
   pair, written from the rules of docs/LEAD.md and document 01. It takes one bit of the line
   after the other, in constant memory, and reads and writes in blocks of 64 KiB. */
#include "atc2_plain.h"
#include "blocks.h"

#include <fcntl.h>
#include <stdio.h>
#include <stdlib.h>

#define FRAME 16
#define MOST_DM 4000000000
#define MOST_BITS 16777216

static uint8_t sync_s, sync_t;

/* The line: the latest sixteen bits, the zeroes among them, and the open contact. */
static uint32_t history = 0xFFFF, zeroes;
static bool is_inside;
/* Of the contact: how many, how many ones it ends with, places so far. */
static uint64_t bits, ones, places;
static uint64_t latest; /* its latest 64 bits */
static bool is_plain, differs; /* zeroes and then ones so far; two places differ */
static uint32_t words; /* X, Y and Z of the first place */

/* The odometer in force, that of the open contact's first frame, the last record's. */
static uint32_t odometer, opened, last;
static bool is_recorded;

static uint64_t frames, refused, contacts, read_ones, markers, unreadable, records;
static uint8_t out[BLOCK];
static size_t used;

static void flush(void)
{
    write_all(out, used);
    used = 0;
}

static void put_record(uint32_t dm, uint8_t kind, uint32_t three)
{
    uint8_t record[8] = {(uint8_t)(dm >> 24), (uint8_t)(dm >> 16), (uint8_t)(dm >> 8), (uint8_t)dm, kind, (uint8_t)(three >> 16), (uint8_t)(three >> 8), (uint8_t)three};
    if (used == BLOCK)
        flush();
    for (int i = 0; i < 8; i++)
        out[used + (size_t)i] = record[i];
    used += 8;
    last = dm;
    is_recorded = true;
    records++;
}

static void put_contact(bool is_closed)
{
    contacts++;
    if (is_closed && bits <= MOST_BITS && places >= 2 && !differs) {
        read_ones++;
        put_record(opened, 0, words);
    } else if (is_closed && bits <= MOST_BITS && places < 2 && bits >= 64 && is_plain && ones <= 11) {
        markers++;
        put_record(opened, 1, 0);
    } else {
        unreadable++;
        put_record(opened, 2, 0);
    }
}

/* One bit more of the open contact. */
static void take_bit(uint32_t bit)
{
    bits++;
    latest = latest << 1 | bit;
    if (bit == 0) {
        is_plain &= ones == 0;
        ones = 0;
    } else {
        ones++;
    }
    uint8_t after = (uint8_t)latest, before = (uint8_t)(latest >> 32);
    if (!((before == sync_s && after == sync_t) || (before == sync_t && after == sync_s)) || bits < 40)
        return;
    uint32_t three = (uint32_t)(latest >> 8) & 0xFFFFFF;
    if (plain_read_telegram((uint8_t)(three >> 16), (uint8_t)(three >> 8), (uint8_t)three) < 0)
        return;
    if (places == 0)
        words = three;
    differs |= three != words;
    places++;
}

static void open_contact(void)
{
    is_inside = is_plain = true;
    differs = false;
    bits = ones = places = latest = 0;
    opened = odometer;
}

static void take_frame(const uint8_t *frame)
{
    uint32_t given = (uint32_t)frame[0] << 24 | (uint32_t)frame[1] << 16 | (uint32_t)frame[2] << 8 | frame[3];
    frames++;
    if (given > MOST_DM || given < odometer) {
        if (refused++ == 0)
            fprintf(stderr, "record: frame %llu refused %s\n", (unsigned long long)frames,
                    given > MOST_DM ? "18: odometer above 4,000,000,000" : "17: odometer below the last accepted one");
    } else {
        odometer = given;
    }
    for (int i = 0; i < 96; i++) {
        uint32_t bit = frame[4 + i / 8] >> (7 - i % 8) & 1;
        zeroes += (history >> 15) - bit;
        history = (history << 1 | bit) & 0xFFFF;
        if (is_inside && zeroes <= 4) {
            is_inside = false;
            put_contact(true);
        } else if (is_inside) {
            take_bit(bit);
        } else if (zeroes >= 8) {
            open_contact();
            take_bit(bit);
        }
    }
    if (!is_inside && (!is_recorded || odometer >= (uint64_t)last + 10))
        put_record(odometer, 3, 0);
}

static void say_end(size_t kept)
{
    if (refused > 0)
        fprintf(stderr, "record: frames refused %llu\n", (unsigned long long)refused);
    if (kept > 0)
        fprintf(stderr, "record: bytes after the last frame %llu\n", (unsigned long long)kept);
    fprintf(stderr, "record: frames %llu, contacts %llu, read %llu, markers %llu, unreadable %llu, records %llu\n",
        (unsigned long long)frames, (unsigned long long)contacts, (unsigned long long)read_ones, (unsigned long long)markers,
        (unsigned long long)unreadable, (unsigned long long)records);
}

int main(int argc, char **argv)
{
    static uint8_t block[BLOCK];
    size_t kept = 0;
    ssize_t got;
    int file = argc > 3 ? open(argv[3], O_RDONLY) : STDIN_FILENO;
    if (argc < 3 || file < 0)
        return 2;
    sync_s = (uint8_t)strtoull(argv[1], NULL, 16);
    sync_t = (uint8_t)strtoull(argv[2], NULL, 16);
    while ((got = read(file, block + kept, BLOCK - kept)) > 0) {
        size_t have = kept + (size_t)got, done = 0;
        for (; done + FRAME <= have; done += FRAME)
            take_frame(block + done);
        kept = have - done;
        for (size_t i = 0; i < kept; i++)
            block[i] = block[done + i];
        flush();
    }
    if (is_inside) {
        is_inside = false;
        put_contact(false);
    }
    if (is_recorded && odometer > last)
        put_record(odometer, 3, 0);
    flush();
    say_end(kept);
    close(file);
    return 0;
}
