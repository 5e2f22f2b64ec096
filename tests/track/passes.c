/* Every audible balise with every good pair but 00 and 7F hex, sent over three frames as `track`
   sends it, heard by the library: the one contact must be read as the telegram sent. For the
   pairs of which a word ends in four ones this stands in for the proof (crates/track_laws).
   Prints a line of counts; a pass that is heard otherwise is printed too. */
#include <stdint.h>
#include <stdio.h>
#include <string.h>
#include "atc2.h"

static uint8_t words[5198][3];
static int32_t reads[5198];
static int many;

/* The words of a telegram, and what they read as. */
static void add(uint8_t x, uint8_t y, uint8_t z) {
    words[many][0] = x; words[many][1] = y; words[many][2] = z;
    reads[many++] = atc2_read_telegram(x, y, z);
}

/* Some sixteen bits in a row of the 64 that repeat have four zeroes or fewer. */
static int is_broken(const uint8_t line[8]) {
    uint64_t w = 0;
    for (int i = 0; i < 8; i++) w = w << 8 | line[i];
    for (int r = 0; r < 64; r++) {
        uint64_t turned = r ? w << r | w >> (64 - r) : w;
        if (__builtin_popcount((unsigned)(turned >> 48)) >= 12) return 1;
    }
    return 0;
}

/* Whether the pass is heard as one contact that reads the telegram. */
static int is_read(const uint8_t line[8], uint8_t s, uint8_t t, int32_t sent) {
    uint8_t buffer[44];
    struct atc2_search search;
    uint64_t contact[2], out[3];
    memset(buffer, 0xFF, sizeof buffer);
    for (int i = 0; i < 36; i++) buffer[4 + i] = line[i % 8];
    if (atc2_begin(buffer, sizeof buffer, 0, 8 * sizeof buffer, &search) < 0) return 0;
    if (atc2_next_contact(buffer, sizeof buffer, &search, contact) != ATC2_CONTACT) return 0;
    if (atc2_judge(buffer, sizeof buffer, contact[0], contact[1], s, t, out) != ATC2_TELEGRAM || out[0] != (uint64_t)sent) return 0;
    return atc2_next_contact(buffer, sizeof buffer, &search, contact) == ATC2_NO_FURTHER;
}

int main(void) {
    long passes = 0, otherwise = 0, pairs = 0;
    for (int x = 0; x < 15; x++) for (int y = 0; x != 12 && y < 15; y++) for (int z = 0; z < 15; z++)
        add((uint8_t)atc2_write_short((uint8_t)x), (uint8_t)atc2_write_short((uint8_t)y), (uint8_t)atc2_write_short((uint8_t)z));
    for (int n = 0; n < 2048; n++) {
        int32_t word = atc2_write_long((uint16_t)n);
        add((uint8_t)atc2_write_short(12), (uint8_t)(word >> 8), (uint8_t)(word & 255));
    }
    for (unsigned s = 0; s < 256; s++) for (int bit = 0; bit < 8; bit++) {
        unsigned t = s ^ 0xFF ^ 1u << bit;
        if ((s == 0x00 && t == 0x7F) || (s == 0x7F && t == 0x00)) continue;
        pairs++;
        for (int i = 0; i < many; i++) {
            uint8_t line[8] = {(uint8_t)s, words[i][0], words[i][1], words[i][2], (uint8_t)t, words[i][0], words[i][1], words[i][2]};
            if (is_broken(line)) continue;
            passes++;
            if (is_read(line, (uint8_t)s, (uint8_t)t, reads[i])) continue;
            if (otherwise++ < 5) printf("%02X %02X, telegram %d: heard otherwise\n", s, t, (int)reads[i]);
        }
    }
    printf("telegrams %d, ordered pairs %ld, audible passes %ld, heard otherwise %ld\n", many, pairs, passes, otherwise);
    return 0;
}
