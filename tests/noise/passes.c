/* Passes with noise, heard by the library: for each equal bit 100,000 random passes of one
   balise, with as many flips in forty bits as the pair's equal bit allows. Prints for each a
   line of counts; a contact that is read as another telegram than the one sent is printed too,
   with its line. The numbers are drawn by a fixed rule, so every run has the same passes. */
#include <stdint.h>
#include <stdio.h>
#include <string.h>
#include "atc2.h"

enum { PASSES = 100000, LONGEST = 640 };

static const int allowed[8] = {1, 1, 2, 3, 3, 2, 1, 1};
static uint64_t state = 88172645463325252u;

/* A number below n. */
static unsigned draw(unsigned n) {
    state ^= state << 13; state ^= state >> 7; state ^= state << 17;
    return (unsigned)((state >> 11) % n);
}

/* A telegram of three figures, or in one of four a number: its words, and what it reads as. */
static int32_t telegram(uint8_t w[3]) {
    if (draw(4) == 0) {
        unsigned word = (unsigned)atc2_write_long((uint16_t)draw(2048));
        w[0] = (uint8_t)atc2_write_short(12); w[1] = word >> 8; w[2] = word & 255;
    } else {
        unsigned x = draw(14);
        w[0] = (uint8_t)atc2_write_short(x < 12 ? x : x + 1);
        w[1] = (uint8_t)atc2_write_short(draw(15)); w[2] = (uint8_t)atc2_write_short(draw(15));
    }
    return atc2_read_telegram(w[0], w[1], w[2]);
}

/* Whether bit i can flip: no forty bits in a row have more than `most` then. */
static int can_flip(const uint8_t *flips, int n, int i, int most) {
    for (int a = i < 39 ? 0 : i - 39; a <= i && a + 40 <= n; a++) {
        int count = 1;
        for (int j = a; j < a + 40; j++) count += flips[j];
        if (count > most) return 0;
    }
    return 1;
}

int main(void) {
    for (int k = 0; k < 8; k++) {
        long contacts = 0, read = 0, other = 0, markers = 0, refused = 0, flipped = 0, full = 0;
        for (int pass = 0; pass < PASSES; pass++) {
            uint8_t w[3], bits[LONGEST], flips[LONGEST], buffer[LONGEST / 8];
            uint8_t s = (uint8_t)draw(256), t = s ^ 0xFF ^ (0x80 >> k);
            int32_t sent = telegram(w);
            uint8_t line[8] = {s, w[0], w[1], w[2], t, w[0], w[1], w[2]};
            int before = (int)draw(60), len = 1 + (int)draw(400), phase = (int)draw(64), n = (before + len + 40 + (int)draw(60)) / 8 * 8;
            for (int i = 0; i < n; i++) {
                int j = (phase + i - before) % 64;
                bits[i] = i < before || i >= before + len ? 1 : line[j / 8] >> (7 - j % 8) & 1;
            }
            memset(flips, 0, sizeof flips);
            /* Noise all over the pass, half of it near the balise's end;
               or in one or two bursts. */
            for (int burst = pass % 2 ? 1 : 1 + (int)draw(2); burst > 0; burst--) {
                int near = draw(2) ? (int)draw((unsigned)n) : before + len - 40 + (int)draw(40);
                for (int tries = 0; tries < (pass % 2 ? n : 40); tries++) {
                    int i = pass % 2 == 0 ? near + (int)draw(40) : draw(2) ? (int)draw((unsigned)n) : before + len - 40 + (int)draw(60);
                    if (i < 0 || i >= n || flips[i] || !can_flip(flips, n, i, allowed[k])) continue;
                    flips[i] = 1; bits[i] ^= 1; flipped++;
                }
            }
            int most = 0;
            for (int a = 0; a + 40 <= n; a++) {
                int count = 0;
                for (int j = a; j < a + 40; j++) count += flips[j];
                if (count > most) most = count;
            }
            full += most == allowed[k];
            memset(buffer, 0, sizeof buffer);
            for (int i = 0; i < n; i++) buffer[i / 8] |= bits[i] << (7 - i % 8);
            struct atc2_search search;
            uint64_t at[2], out[3];
            if (atc2_begin(buffer, (size_t)n / 8, 0, (size_t)n, &search) != 0) { puts("begin refused"); return 1; }
            while (atc2_next_contact(buffer, (size_t)n / 8, &search, at) == ATC2_CONTACT) {
                contacts++;
                int32_t answer = atc2_judge(buffer, (size_t)n / 8, at[0], at[1], s, t, out);
                if (answer == ATC2_MARKER) markers++;
                else if (answer != ATC2_TELEGRAM) refused++;
                else if ((int32_t)out[0] == sent) read++;
                else {
                    other++;
                    printf("equal bit %d, %02X and %02X: %d is read as %d:", k + 1, s, t, (int)sent, (int)out[0]);
                    for (int i = 0; i < n / 8; i++) printf(" %02x", buffer[i]);
                    puts("");
                }
            }
        }
        printf("equal bit %d: %d passes, %ld with %d flips in some forty bits, %ld flips; %ld contacts, %ld markers, %ld refused, %ld read as sent, %ld read as another\n", k + 1, PASSES, full, allowed[k], flipped, contacts,
            markers, refused, read, other);
    }
    return 0;
}
