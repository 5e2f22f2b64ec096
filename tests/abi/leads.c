/* Hears leads through C in every kind of piece and room: leads LEAD TRACE S S*. What is wanted
   is TRACE, as the program record writes it of LEAD. `leads make` writes a lead of its own
   instead, with contacts of all lengths, many in a frame, and frames whose odometer is refused.
   Its last line is 'N passed, M failed'. */
#include "atc2.h"
#include <stdio.h>
#include <stdlib.h>
#include <string.h>

static unsigned passed, failed;
static uint8_t lead[65536], trace[65536], got[131072], store[ATC2_STORE];
static uint64_t n, wanted;

static void same(const char *what, uint64_t which, int64_t is, int64_t should)
{
    if (is == should) {
        passed++;
    } else {
        failed++;
        printf("FAILED %s %llu: %lld, wanted %lld\n", what, (unsigned long long)which, (long long)is, (long long)should);
    }
}

static uint32_t x = 1;
static uint32_t any(void) { return x = x * 1103515245u + 12345u, x >> 16; }

static uint64_t read_file(const char *name, uint8_t *to, size_t most)
{
    FILE *file = fopen(name, "rb");
    if (!file) { printf("FAILED %s is not there\n0 passed, 1 failed\n", name); exit(1); }
    uint64_t count = fread(to, 1, most, file);
    fclose(file);
    return count;
}

/* The lead in pieces of so many bytes into rooms of so many, from this ear on; how many bytes of
   records came. */
static uint64_t session(uint8_t *ear, uint64_t piece, uint64_t room)
{
    uint64_t from = 0, to = 0, count = 0, out[2];
    while (to < n || n - from >= 16) {
        to = to + piece < n ? to + piece : n;
        do {
            if (atc2_record(ear, store, lead + from, to - from, got + count, room, out) != 0) return 0;
            from += out[0];
            count += out[1];
        } while (out[0] + out[1] > 0 && to - from >= 16);
    }
    do {
        if (atc2_record_end(ear, got + count, room, out) != 0) return 0;
        count += out[0];
    } while (out[0] > 0);
    return count;
}

static void whole(const char *what, uint64_t piece, uint64_t room)
{
    uint8_t ear[ATC2_EAR];
    for (int i = 0; i < ATC2_EAR; i++) ear[i] = (uint8_t)any();
    same("record_begin", 0, atc2_record_begin(ear), 0);
    same(what, piece * 10000 + room, (int64_t)session(ear, piece, room), (int64_t)wanted);
    same("its bytes", piece * 10000 + room, memcmp(got, trace, (size_t)wanted), 0);
}

/* One call over the whole lead with each room from 0 up: as many records as have room, and no
   byte after them. */
static void rooms(void)
{
    for (uint64_t room = 0; room <= wanted + 24; room++) {
        uint8_t ear[ATC2_EAR];
        uint64_t out[2] = {7, 7}, left = 0;
        memset(got, 0xA5, sizeof got);
        atc2_record_begin(ear);
        same("a room", room, atc2_record(ear, store, lead, n, got, room, out), 0);
        uint64_t all = room / 8 * 8 < wanted ? room / 8 * 8 : wanted;
        same("a room is filled", room, (int64_t)out[1] <= (int64_t)all && (out[1] == room / 8 * 8 || out[0] == n / 16 * 16), 1);
        same("its records", room, memcmp(got, trace, (size_t)out[1]), 0);
        same("whole frames", room, (int64_t)(out[0] % 16), 0);
        for (uint64_t i = out[1]; i < room + 8; i++) left += got[i] == 0xA5;
        same("bytes after them stay", room, (int64_t)left, (int64_t)(room + 8 - out[1]));
    }
}

/* The lead's end with each room from 0 up: as many of its records as have room, and no byte
   after them; without room for one the ear stays. */
static void end_rooms(void)
{
    uint8_t heard[ATC2_EAR];
    uint64_t out[2];
    atc2_record_begin(heard);
    same("the whole lead", 0, atc2_record(heard, store, lead, n, got, sizeof got, out), 0);
    uint64_t before = out[1], last = wanted - before;
    for (uint64_t room = 0; room <= 24; room++) {
        uint8_t ear[ATC2_EAR];
        uint64_t end[1] = {7}, left = 0, all = room / 8 * 8 < last ? room / 8 * 8 : last;
        memcpy(ear, heard, sizeof ear);
        memset(got, 0xA5, 64);
        same("an end with so much room", room, atc2_record_end(ear, got, room, end), 0);
        same("as many of its records as have room", room, (int64_t)end[0], (int64_t)all);
        same("they are the trace's last", room, memcmp(got, trace + before, (size_t)all), 0);
        for (uint64_t i = all; i < 64; i++) left += got[i] == 0xA5;
        same("bytes after the end's records stay", room, (int64_t)left, (int64_t)(64 - all));
        if (room < 8) same("without room the ear stays", room, memcmp(ear, heard, sizeof ear), 0);
    }
}

/* Lent garbage as an ear: every call answers, and pieces and rooms make no difference from there
   on either. */
static void garbage(void)
{
    static uint8_t once[131072];
    for (int turn = 0; turn < 300; turn++) {
        uint8_t ear[ATC2_EAR], kept[ATC2_EAR];
        for (int i = 0; i < ATC2_EAR; i++) ear[i] = turn % 3 == 0 ? (uint8_t)any() : i % 8 == 7 ? (uint8_t)(any() % 4) : (uint8_t)(any() % 9 == 0 ? any() : 0);
        memcpy(kept, ear, sizeof ear);
        uint64_t first = session(ear, n, sizeof got / 2);
        memcpy(once, got, (size_t)first);
        uint8_t last[ATC2_EAR];
        memcpy(last, ear, sizeof ear);
        memcpy(ear, kept, sizeof ear);
        same("garbage in pieces", (uint64_t)turn, (int64_t)session(ear, 1 + any() % 50, 8 + any() % 40), (int64_t)first);
        same("its bytes", (uint64_t)turn, memcmp(got, once, (size_t)first), 0);
        same("the ear then", (uint64_t)turn, memcmp(ear, last, sizeof ear), 0);
    }
}

/* A store that is not in order: its own number, and every lent array as it was. */
static void refused(void)
{
    static const struct { int at; uint8_t byte; int32_t number; } bad[] = {{1031, 33, ATC2_FULL}, {1031, 0, ATC2_GAP}, {7, 1, ATC2_NOT_ABOVE}, {23, 0x0C, ATC2_NOT_SEVEN}, {15, 0, ATC2_GAP}, {39, 1, ATC2_TOO_HIGH}};
    uint8_t two[ATC2_STORE];
    memcpy(two, store, sizeof two);
    same("a second version", 0, atc2_settings_add(two, 4000000000u, 60, 0x72, 0x0D), 0);
    for (unsigned i = 0; i < sizeof bad / sizeof *bad; i++) {
        uint8_t ear[ATC2_EAR], kept[ATC2_EAR], broken[ATC2_STORE];
        uint64_t out[2] = {7, 9};
        memcpy(broken, two, sizeof broken);
        broken[bad[i].at] = bad[i].byte;
        for (int k = 0; k < ATC2_EAR; k++) kept[k] = ear[k] = (uint8_t)any();
        memset(got, 0x5A, 4096);
        same("a store refused", i, atc2_record(ear, broken, lead, n, got, 4096, out), bad[i].number);
        same("the ear stays", i, memcmp(ear, kept, sizeof ear), 0);
        uint64_t left = 0;
        for (int k = 0; k < 4096; k++) left += got[k] == 0x5A;
        same("the room stays", i, (int64_t)left, 4096);
        same("out stays", i, out[0] == 7 && out[1] == 9, 1);
    }
}

static int make(void)
{
    uint32_t odometer = 100;
    for (int k = 0; k < 120; k++) {
        uint8_t frame[16];
        odometer += any() % 9;
        uint32_t o = k % 17 == 5 ? 4000000001u : k % 17 == 9 ? odometer - 20 : odometer;
        for (int i = 0; i < 4; i++) frame[i] = (uint8_t)(o >> (24 - 8 * i));
        for (int i = 4; i < 16; i++) frame[i] = k % 11 == 3 ? 0 : k % 11 == 4 || any() % 3 ? 0xFF : (uint8_t)(any() % 2 ? 0 : any());
        fwrite(frame, 1, 16, stdout);
    }
    for (int k = 0; k < 2; k++) { /* a contact that the end cuts, and a position after it */
        uint8_t frame[16] = {0};
        odometer += 3;
        for (int i = 0; i < 4; i++) frame[i] = (uint8_t)(odometer >> (24 - 8 * i));
        fwrite(frame, 1, 16, stdout);
    }
    fwrite("rest", 1, 4, stdout);
    return 0;
}

int main(int argc, char **argv)
{
    if (argc == 2) return make();
    if (argc != 5) return 2;
    n = read_file(argv[1], lead, sizeof lead);
    wanted = read_file(argv[2], trace, sizeof trace);
    same("settings", 0, atc2_settings_begin(40, (uint8_t)strtoul(argv[3], NULL, 16), (uint8_t)strtoul(argv[4], NULL, 16), store), 0);
    for (uint64_t piece = 1; piece <= (n < 400 ? n : 400); piece++) {
        whole("pieces of every length up to 400 bytes", piece, 8);
        whole("pieces of every length up to 400 bytes, more room", piece, 37);
    }
    for (uint64_t piece = 401; piece <= n + 16; piece += 97) whole("longer pieces", piece, 8 + piece % 60);
    for (uint64_t room = 8; room <= 100; room++) {
        whole("every room, small pieces", 17, room);
        whole("every room, the whole lead", n, room);
    }
    rooms();
    end_rooms();
    garbage();
    refused();
    printf("%u passed, %u failed\n", passed, failed);
    return failed != 0;
}
