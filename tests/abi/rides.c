/* Rides from C over a trace: rides FILE compares pieces of every length and every room with the
   listing of the whole, and lends garbage; rides FILE STYLE SETTINGS writes that listing in
   pieces of 3 records. tests/abi/run builds it, and compares the listing with what checker and
   explain write. Its last line is 'N passed, M failed'. */
#include "atc2.h"
#include <stdio.h>
#include <string.h>

enum { MOST = 65536 };
static unsigned passed, failed;
static uint8_t trace[MOST], whole[MOST], text[MOST], store[ATC2_STORE];
static uint64_t size;
static uint32_t seed = 1;

static void same(const char *what, int64_t got, int64_t wanted)
{
    if (got == wanted) {
        passed++;
    } else {
        failed++;
        printf("FAILED %s: %lld, wanted %lld\n", what, (long long)got, (long long)wanted);
    }
}

static uint8_t any(void)
{
    seed = seed * 1664525u + 1013904223u;
    return (uint8_t)(seed >> 24);
}

static uint64_t load(const char *name, uint8_t *into, uint64_t most)
{
    FILE *file = fopen(name, "rb");
    uint64_t n = file ? fread(into, 1, most, file) : 0;
    if (file) fclose(file);
    return n;
}

/* Lists the trace from a fresh ride in pieces of so many records with so much room, and ends it:
   the bytes of text in `into`, or -1 if a call took nothing that it should have. */
static int64_t list(uint8_t style, uint64_t records, uint64_t room, uint8_t *ride, uint8_t *into)
{
    uint64_t number = 1, at = 0, n = 0, out[2];
    static uint8_t part[MOST];
    atc2_ride_begin(ride);
    while (at < size) {
        uint64_t piece = size - at < 8 * records ? size - at : 8 * records;
        memset(part, 0xEE, sizeof part);
        if (atc2_ride_list(ride, store, trace + at, piece, number, style, part, room, out) != 0 || out[0] == 0) return -1;
        if (out[1] > room || part[room] != 0xEE) return -2;
        memcpy(into + n, part, out[1]);
        n += out[1], at += 8 * out[0], number += out[0];
    }
    int32_t r = atc2_ride_end(ride, style, into + n, MOST - n);
    return r < 0 ? r : (int64_t)(n + (uint64_t)r);
}

/* Every piece, every room. */
static void pieces(uint8_t style)
{
    uint8_t ride[ATC2_RIDE], last[ATC2_RIDE], fresh[ATC2_RIDE];
    uint64_t least = style ? ATC2_ROOM_REASONS : ATC2_ROOM, out[2];
    int64_t n = list(style, size / 8, 32768, last, whole);
    same("the whole is listed", n > 0, 1);
    for (uint64_t records = 1; records <= size / 8 + 1; records++) {
        int64_t m = list(style, records, 32768, ride, text);
        same("a piece of so many records", m == n && memcmp(text, whole, (size_t)n) == 0 && memcmp(ride, last, ATC2_RIDE) == 0, 1);
    }
    for (uint64_t room = 0; room <= least + 200; room++) {
        int64_t m = list(style, 3, room, ride, text);
        if (room < least) {
            same("no room for a record's lines takes none", m, -1);
            atc2_ride_begin(fresh), atc2_ride_begin(ride);
            memset(text, 0xEE, MOST);
            out[0] = out[1] = 7;
            same("a listing without room", atc2_ride_list(ride, store, trace, size, 1, style, text, room, out), 0);
            same("which takes nothing", (int64_t)(out[0] + out[1]), 0);
            same("and leaves the ride and the text", memcmp(ride, fresh, ATC2_RIDE) == 0 && text[0] == 0xEE && memcmp(text, text + 1, MOST - 1) == 0, 1);
        } else {
            same("so much room", m == n && memcmp(text, whole, (size_t)n) == 0 && memcmp(ride, last, ATC2_RIDE) == 0, 1);
        }
    }
    int32_t bytes = atc2_ride_end(last, style, text, MOST);
    for (int32_t room = 0; room < bytes + 3; room++) {
        memset(text, 0xEE, MOST);
        same("the end in so much room", atc2_ride_end(last, style, text, (uint64_t)room), room < bytes ? ATC2_SHORT : bytes);
        same("writes its line or nothing", memcmp(text, whole + n - bytes, room < bytes ? 0 : (size_t)bytes) == 0 && text[room < bytes ? 0 : bytes] == 0xEE, 1);
    }
}

/* Refusals, and what they leave. */
static void refusals(void)
{
    uint8_t ride[ATC2_RIDE], before[ATC2_RIDE], bad[ATC2_STORE];
    uint64_t out[2] = {7, 7};
    for (int turn = 0; turn < 300; turn++) {
        for (int i = 0; i < ATC2_RIDE; i++) before[i] = ride[i] = any();
        for (int i = 0; i < ATC2_STORE; i++) bad[i] = any();
        if (turn % 2) { /* a count that a store may have, so that its versions are looked at */
            memset(bad + 1024, 0, 7);
            bad[1031] %= 40;
        }
        memset(text, 0xEE, MOST);
        int32_t r = atc2_ride_list(ride, bad, trace, size, 1, any(), text, MOST, out);
        same("a store of any bytes is refused", r == ATC2_FULL || r == ATC2_GAP || r == ATC2_NOT_ABOVE || r == ATC2_NOT_SEVEN || r == ATC2_TOO_HIGH, 1);
        same("a length that is no multiple of 8", atc2_ride_list(ride, store, trace, 1 + any() % 7, 1, any(), text, MOST, out), ATC2_LENGTH);
        same("both: the store's refusal", atc2_ride_list(ride, bad, trace, 1, 1, any(), text, MOST, out), r);
        same("a refusal leaves all", memcmp(ride, before, ATC2_RIDE) == 0 && out[0] == 7 && out[1] == 7 && text[0] == 0xEE && memcmp(text, text + 1, MOST - 1) == 0, 1);
    }
}

/* Any bytes are some ride: it is listed, ended and known, and what the library made of it stays
   the same ride. */
static void any_ride(void)
{
    uint8_t ride[ATC2_RIDE], again[ATC2_RIDE];
    uint64_t out[2], known[6], then[6];
    for (int turn = 0; turn < 2000; turn++) {
        for (int i = 0; i < ATC2_RIDE; i++) ride[i] = turn % 3 ? any() : any() % 2 ? 0 : any();
        same("known of any bytes", atc2_ride_known(ride, known), 0);
        same("within their limits", known[0] < 4294967296u && (known[1] == ATC2_NONE ? known[2] == ATC2_NONE : known[1] < 4294967296u && known[2] < 4294967296u)
            && (known[3] < 65536 || known[3] == ATC2_NONE) && (known[4] < 65536 || known[4] == ATC2_NONE) && (known[5] < 65536 || known[5] == ATC2_NONE), 1);
        same("any bytes moved on by no record", atc2_ride_list(ride, store, trace, 0, 1, 0, text, MOST, out), 0);
        memcpy(again, ride, ATC2_RIDE);
        same("once more", atc2_ride_list(again, store, trace, 0, 1, 0, text, MOST, out), 0);
        same("are the same ride", memcmp(ride, again, ATC2_RIDE) == 0 && atc2_ride_known(again, then) == 0 && memcmp(known, then, sizeof then) == 0, 1);
        same("any ride is listed", atc2_ride_list(ride, store, trace, size, 1, (uint8_t)(turn % 2), text, MOST, out), 0);
        same("to the last record", (int64_t)out[0], (int64_t)(size / 8));
        int32_t r = atc2_ride_end(ride, (uint8_t)(turn % 2), text, MOST);
        same("any ride ends", r >= 0 && r <= (turn % 2 ? ATC2_ROOM_REASONS : ATC2_ROOM), 1);
    }
}

int main(int argc, char **argv)
{
    uint8_t ride[ATC2_RIDE];
    size = argc > 1 ? load(argv[1], trace, MOST) : 0;
    if (argc == 4) {
        uint64_t n = load(argv[3], text, MOST);
        if (atc2_settings_read(text, n, store) != 0) return 2;
        int64_t m = list(argv[2][0] != '0', 3, 4096, ride, whole);
        return m < 0 ? 1 : fwrite(whole, 1, (size_t)m, stdout) != (size_t)m;
    }
    if (size == 0 || atc2_settings_begin(40, 0x72, 0x0D, store) != 0) return 2;
    pieces(0);
    pieces(1);
    refusals();
    any_ride();
    printf("%u passed, %u failed\n", passed, failed);
    return failed != 0;
}
