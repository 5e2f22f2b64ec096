/* The checker's jobs in plain C, written from document 01: what the proved ones are measured
   against, and a second opinion on their answers. Each answers as the function of include/atc2.h
   that has the same name; a refusal leaves every lent array as it was. */
#ifndef ATC2_PLAIN_H
#define ATC2_PLAIN_H

#include <stdbool.h>
#include <stddef.h>
#include <stdint.h>

/* The figure of a short word M(8,4) or of a long word M(16,11), or -1. */
int32_t plain_read_short(uint8_t word);
int32_t plain_read_long(uint16_t word);

/* The word of a figure, or -2. */
int32_t plain_write_short(uint8_t figure);
int32_t plain_write_long(uint16_t figure);

/* The figures X*65536 + Y*256 + Z, or 12*65536 + the number; -1, -3. */
int32_t plain_read_telegram(uint8_t x, uint8_t y, uint8_t z);

/* Whether a sync pair is good; whether a stretch lies in a buffer of n bytes and has at most
   16,777,216 bits; whether it is a marker's. */
bool plain_is_good_pair(uint8_t s, uint8_t t);
bool plain_is_good_stretch(size_t n, uint64_t start, uint64_t len);
bool plain_is_marker(const uint8_t *buf, size_t start, size_t len);

/* 0: out = the first place of the stretch, its telegram as above; -4, -5, -6. The buffer has n
   bytes. */
int32_t plain_find(const uint8_t *buf, size_t n, size_t start, size_t len, uint8_t s, uint8_t t, uint64_t out[2]);

/* 1: out = telegram, first place, number of places; 2: a marker, out as it was; -4, -5, -7, -8. */
int32_t plain_judge(const uint8_t *buf, size_t n, size_t start, size_t len, uint8_t s, uint8_t t, uint64_t out[3]);

/* 0: search = next bit, bits left, history (65535); -5. */
int32_t plain_begin(const uint8_t *buf, size_t n, size_t start, size_t len, uint64_t search[3]);

/* 1: out = the next contact's start and length, and search moves on; 0: none; -5, -9. */
int32_t plain_next_contact(const uint8_t *buf, size_t n, uint64_t search[3], uint64_t out[2]);

/* The distance of table DF in dm, or -15. */
int32_t plain_distance(uint8_t by, uint8_t figure);

/* A ride: what is kept from record to record. */
struct plain_balise {
    uint32_t place;
    uint8_t kind; /* of the record: 0 information, 1 marker, 2 unreadable */
    uint8_t x, y, z; /* as received */
};

struct plain_group {
    struct plain_balise kept[5];
    uint32_t count; /* 6 stands for more than five */
    uint32_t last; /* the last balise's place */
};

#define PLAIN_UNKNOWN (-1) /* a speed that is not known, a number that is none */

struct plain_ride {
    uint64_t records; /* how many it has been handed */
    uint32_t odometer; /* the last accepted one */
    struct plain_group group; /* open unless its count is 0 */
    bool linked;
    uint32_t distance, from; /* where linked: D and a */
    int main_speed, target; /* km/h */
    int number; /* of the last present signal */
};

/* No lines of one record, and none of the ending, take more bytes than this. */
#define PLAIN_ROOM 64

void plain_fresh(struct plain_ride *ride);

/* Takes records of the trace while their lines are sure to fit into out, puts those there and
   answers how many bytes they are; *taken is how many records it took. */
size_t plain_list(struct plain_ride *ride, uint32_t gap, const uint8_t *trace, size_t records, char *out, size_t room,
                  size_t *taken);

/* Ends the ride: puts the line of an open group into out, of PLAIN_ROOM bytes, and answers how
   many bytes it is. */
size_t plain_end(struct plain_ride *ride, char *out);

/* The checker's whole job on a trace of n bytes: how many bytes of text stand in out, or -19.
   out has PLAIN_ROOM bytes for each record, and as many again for the ending. */
int64_t plain_check(uint32_t gap, const uint8_t *trace, size_t n, char *out);

/* A trace in blocks on the way to a smaller one: the record that waits for the next, if one
   does, and the ride before it. */
struct plain_waiting {
    struct plain_ride ride;
    uint8_t record[8];
    bool waits;
};

/* Settles the record that waits, and all of the block's but the last, which then waits itself:
   what is kept goes to the block's start; answers how many records it is. */
size_t plain_compact_block(struct plain_waiting *waiting, uint32_t gap, uint8_t *block, size_t records);

/* Compacts a trace of n bytes in place, for a fresh ride: its new length, or -19, -16. */
int64_t plain_compact(uint32_t gap, uint8_t *trace, size_t n);

/* The only line for a trace whose length is no multiple of 8. */
#define PLAIN_BAD_TRACE "trace refused 16\n"

#endif
