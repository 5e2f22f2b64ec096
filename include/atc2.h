/*
 * The balise bench checker's libraries for C and C++, by what one wants to do: words, telegrams,
 * contacts, test balises, settings, leads, rides, traces.
 *
 * Link with target/staticlib/libabi.a (./run --library; x86-64 Linux), or with what ./install puts
 * down; port/README.md has other processors, with the code and stack of the larger calls. Each
 * function is total: whatever numbers and bytes are passed, it returns one of the values listed,
 * and a refusal, -N for the number N of documents 01 and 02, leaves every lent array as it was.
 * Lengths and places have 64 bits on every processor, results 32 or 64. A buffer is used only while
 * the call runs. The caller keeps: a pointer points to as many bytes or numbers as is said beside
 * it and is not NULL, even where there are none; and no two of them overlap.
 *
 * A store of settings is ATC2_STORE bytes that the caller lends and keeps; what stands in them is
 * ours. Any other bytes are read as some store too; one that is not in order is refused: 25, 19,
 * 24, 4 or 18. A ride is ATC2_RIDE bytes and an ear at a lead ATC2_EAR bytes likewise; any bytes
 * at all are some ride and some ear. samples/settings.c, ride.c, hear.c and balise.cpp and
 * bindings/atc2.py show how it is used; tests/abi/calls.c, rides.c and leads.c call every function.
 */
#ifndef ATC2_H
#define ATC2_H

#include <stdint.h>

#ifdef __cplusplus
extern "C" {
#endif

/* The refusals that these functions give: minus the documents' number. */
enum {
    ATC2_NOT_CODE = -1,      /* not a code word */
    ATC2_TOO_LARGE = -2,     /* figure to write above 15 or above 2,047 */
    ATC2_FIFTEEN = -3,       /* a short word of a telegram reads 15 */
    ATC2_NOT_SEVEN = -4,     /* sync pair doesn't differ in seven bits */
    ATC2_BEYOND = -5,        /* stretch beyond the buffer, or above 16,777,216 bits */
    ATC2_NO_PLACE = -6,      /* no place in the stretch */
    ATC2_DIFFER = -7,        /* places differ */
    ATC2_NEITHER = -8,       /* contact neither telegram nor marker */
    ATC2_CUT = -9,           /* contact cut by the end of the record */
    ATC2_NOT_ALLOWED = -15,  /* distance not allowed */
    ATC2_LENGTH = -16,       /* trace length not a multiple of 8 */
    ATC2_TOO_HIGH = -18,     /* place above 4,000,000,000 */
    ATC2_GAP = -19,          /* gap outside 1 to 200, or no version at all */
    ATC2_COUNT = -20,        /* number of telegrams to write outside 2 to 1,000 */
    ATC2_SHORT = -21,        /* buffer too short for what is to be written */
    ATC2_NOT_ABOVE = -24,    /* place of a version not above the last one */
    ATC2_FULL = -25,         /* more than 32 versions */
    ATC2_UNREADABLE = -100,  /* ours: a line of a text that is no line of settings */
    ATC2_TEXT_LONG = -101,   /* ours: a text of more than 1,048,576 bytes */
    ATC2_FIRST_PLACE = -102  /* ours: the first version of a text is not at place 0 */
};

/* What atc2_judge and atc2_next_contact answer where they do not refuse. */
enum {
    ATC2_NO_FURTHER = 0, /* next_contact: no further contact opens */
    ATC2_CONTACT = 1,    /* next_contact: a contact */
    ATC2_TELEGRAM = 1,   /* judge: two or more places, all alike */
    ATC2_MARKER = 2      /* judge: a marker */
};

/* What atc2_why_telegram and atc2_why_word put together, and how its parts are taken out:
 * w % 16, w / 16 % 16, w / 256. */
enum {
    ATC2_WHY_LETTER = 16,  /* times the letter of the bad word; 0 in atc2_why_word */
    ATC2_WHY_PARITY = 256, /* times the parity of its ones */
    ATC2_LETTER_X = 1,
    ATC2_LETTER_Y = 2,
    ATC2_LETTER_Z = 3,
    ATC2_LETTER_YZ = 4, /* Y and Z as one long word */
    ATC2_PARITY_NONE = 0,
    ATC2_PARITY_ODD = 1,
    ATC2_PARITY_EVEN = 2
};

/* The size of a store of settings in bytes. */
enum { ATC2_STORE = 1032 };

/* The size of a ride in bytes, and the room that the lines of a record may need, without and with
 * reasons. */
enum { ATC2_RIDE = 144, ATC2_ROOM = 128, ATC2_ROOM_REASONS = 320 };

/* What atc2_ride_known puts where nothing is set. */
#define ATC2_NONE UINT64_MAX

/* The size of an ear at a lead in bytes. */
enum { ATC2_EAR = 184 };

/* A search for contacts, as atc2_begin makes it and atc2_next_contact moves it on: the next bit,
 * the bits left, the latest sixteen bits. */
struct atc2_search {
    uint64_t next;
    uint64_t left;
    uint64_t history;
};

/* ---- Words: read one, write one, and why one is refused */

/* The figure of a received short word, 0 to 15; -1 if it is not a code word.
 * Nothing is mended. */
int32_t atc2_read_short(uint8_t word);

/* The short word to send for a figure 0 to 15; -2 for a larger one.
 * Read back, it is the figure. */
int32_t atc2_write_short(uint8_t figure);

/* The figure of a received long word, 0 to 2047; -1 if it is not a code word.
 * Y is the high byte, Z the low one. */
int32_t atc2_read_long(uint16_t word);

/* The long word to send for a figure 0 to 2047; -2 for a larger one.
 * Read back, it is the figure. */
int32_t atc2_write_long(uint16_t figure);

/* Why a received word is refused: 0 if it reads, else 1 + ATC2_WHY_PARITY * the parity of its ones.
 * The word is a long one; where wide is 0, the short one in its low byte. Every code word is even,
 * so an odd word had an odd number of flipped bits. */
int32_t atc2_why_word(uint16_t word, uint8_t wide);

/* ---- Telegrams: three words, or the first place of a stretch */

/* Three received words as a telegram: X * 65536 + Y * 256 + Z as figures, or 12 * 65536 + the
 * number if X reads 12.
 * -1 if the first bad word is not a code word, -3 if it is a short word that reads 15. */
int32_t atc2_read_telegram(uint8_t x, uint8_t y, uint8_t z);

/* Why three received words are refused: 0 if they read, else number + ATC2_WHY_LETTER * letter +
 * ATC2_WHY_PARITY * parity of the first bad word.
 * The number is document 01's, 1 or 3; with 1 goes the parity of its ones, with 3 there is none. */
int32_t atc2_why_telegram(uint8_t x, uint8_t y, uint8_t z);

/* The first place in the stretch of len bits from bit start on of buf (n bytes), with the sync
 * words s and t: 0, and out = place, telegram as above.
 * -4: the pair does not differ in seven bits; -5: the stretch is not inside the n bytes, or too
 * long; -6: no place. */
int32_t atc2_find(const uint8_t *buf, uint64_t n, uint64_t start, uint64_t len, uint8_t s,
    uint8_t t, uint64_t out[2]);

/* ---- Contacts: find them one after the other, judge one */

/* The beginning of a search for contacts in a stretch of buf (n bytes): 0, and search = next bit,
 * bits left, history (65535).
 * -5: the stretch is not inside the n bytes, or too long. */
int32_t atc2_begin(const uint8_t *buf, uint64_t n, uint64_t start, uint64_t len,
    struct atc2_search *search);

/* The next contact of a search: 1, and out = start, length, and search moves on past its closing
 * bit; 0: no further one opens, both as they were.
 * -5 as above; -9: a contact is cut by the end. A history above 65535 counts by its low sixteen
 * bits. */
int32_t atc2_next_contact(const uint8_t *buf, uint64_t n, struct atc2_search *search,
    uint64_t out[2]);

/* The judgement of one contact: 1, and out = telegram, first place, number of places; 2: a marker,
 * out as it was.
 * -4 and -5 as above; -7: its places differ; -8: neither telegram nor marker. */
int32_t atc2_judge(const uint8_t *buf, uint64_t n, uint64_t start, uint64_t len, uint8_t s,
    uint8_t t, uint64_t out[3]);

/* ---- Test balises and distances */

/* A test balise: n telegrams, 2 to 1000, of the figures x, y, z (for x = 12: of the number y, z not
 * looked at) into buf (len bytes), S first, the sync words in turn, one to close: 4 * n + 1, the
 * bytes written; those after them stay.
 * -2: a figure above 15 or a number above 2047; -3: a figure of 15; -4: the pair; -20: n; -21:
 * fewer than 4 * n + 1 bytes; in this order. */
int32_t atc2_write_balise(uint8_t x, uint16_t y, uint8_t z, uint8_t s, uint8_t t, uint32_t n,
    uint8_t *buf, uint64_t len);

/* The distance in decimetres of a figure 1 to 14 in column BY 0 to 14 of table DF.
 * -15 for any other column or figure. */
int32_t atc2_distance(uint8_t by, uint8_t figure);

/* ---- Settings that change on the way: a store of up to 32 versions of gap in dm, S and S* */

/* A store with its first version, in force from place 0 on: 0, and store (ATC2_STORE bytes) is it.
 * -4: the pair; -19: the gap; in this order. */
int32_t atc2_settings_begin(uint32_t gap, uint8_t s, uint8_t t, uint8_t *store);

/* One version more, in force from this place in dm on: 0, and store holds it too.
 * The store's own refusal, then -4, -19, -18, -24, -25 for the version; in this order. */
int32_t atc2_settings_add(uint8_t *store, uint32_t place, uint32_t gap, uint8_t s, uint8_t t);

/* The settings of a text (n bytes), a line `PLACE GAP S S*` for each version, as the programs read
 * them with -s: 0, and store holds them.
 * The refusal of the first bad line; -100: it is unreadable; -102: the first place is not 0; -101:
 * the text is too long; -19: there is no version. */
int32_t atc2_settings_read(const uint8_t *text, uint64_t n, uint8_t *store);

/* The number of the first bad line of such a text, counted from 1; 0 where all are fine or none is
 * to be named. */
int64_t atc2_settings_line(const uint8_t *text, uint64_t n);

/* ---- Leads: frames of odometer and line in, records of a trace out, as they come (docs/LEAD.md);
 * an ear is ATC2_EAR bytes that the caller lends and keeps */

/* An ear at the beginning of a lead: 0, and ear holds it. Never refused.
 * Any other bytes are some ear too: whatever is lent, the calls below answer. */
int32_t atc2_record_begin(uint8_t *ear);

/* The whole frames of lead (n bytes), 16 bytes each, heard under the settings of store: 0, and
 * their records, 8 bytes each, at the start of records (room bytes); out = bytes of the lead that
 * are used, bytes of records. -25, -19, -24, -4, -18: the store.
 * What is not used is lent again, before what follows it: where fewer than 8 bytes of room are left
 * the call stops, in the middle of a frame too, and that frame is not used. With 8 or more, a
 * record is written or all whole frames are used.
 * A frame refused with 18 or 17 keeps its bits and has the last accepted odometer. */
int32_t atc2_record(uint8_t *ear, const uint8_t *store, const uint8_t *lead, uint64_t n,
    uint8_t *records, uint64_t room, uint64_t out[2]);

/* The records of the lead's end, that of a contact which it cuts and that of the last position, as
 * many as have room: 0, and out = bytes of records.
 * Never refused. Where there was room for one and none is written, there is no further one. */
int32_t atc2_record_end(uint8_t *ear, uint8_t *records, uint64_t room, uint64_t out[1]);

/* ---- Rides: the lines of a trace as text, and what is known on the way */

/* A fresh ride: 0, and ride (ATC2_RIDE bytes) holds it.
 * It is what the others below are handed, and what atc2_ride_list moves on. */
int32_t atc2_ride_begin(uint8_t *ride);

/* The lines of a trace's records (n bytes, the first record with this number) under the settings of
 * store, into text (room bytes): 0, and out = records taken, bytes written.
 * A record is taken while ATC2_ROOM bytes are left (with reasons, style not 0: ATC2_ROOM_REASONS)
 * and its number is below 2^64 - 1; then go on behind what was taken, with number + records taken.
 * The store's own refusal (-25, -19, -24, -4, -18), then -16: n is no multiple of 8. */
int32_t atc2_ride_list(uint8_t *ride, const uint8_t *store, const uint8_t *trace, uint64_t n,
    uint64_t number, uint8_t style, uint8_t *text, uint64_t room, uint64_t out[2]);

/* The line of the group that the end of the ride closes, in a style, into text (room bytes): its
 * bytes, 0 where no group is open. The ride stays as it is: asked between two listings, it tells of
 * the open group as it stands.
 * -21: it has more bytes than there is room; ATC2_ROOM, or with reasons ATC2_ROOM_REASONS, is
 * always enough. */
int32_t atc2_ride_end(const uint8_t *ride, uint8_t style, uint8_t *text, uint64_t room);

/* What is known: 0, and out = odometer in dm, linking's distance and the place from which it is in
 * dm, main speed and target in km/h, number of the last present signal;
 * ATC2_NONE for what is not set. */
int32_t atc2_ride_known(const uint8_t *ride, uint64_t out[6]);

/* ---- Traces */

/* A trace of n bytes made smaller in place, for a fresh ride with this gap in dm: its new length in
 * bytes; bytes beyond it stay. Dropped are position records that were accepted, gave no line, are
 * not the last and have an accepted record after them.
 * -19: the gap; -16: n is no multiple of 8; in this order. */
int64_t atc2_compact(uint32_t gap, uint8_t *trace, uint64_t n);

#ifdef __cplusplus
}
#endif

#endif
