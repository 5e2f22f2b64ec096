/* Lists a card with the gap of 40 dm, each fault with its reason: ride FILE. It reads 65,536
   bytes at a time: of a longer card whose length is refused, lines come before `trace refused
   16`; `explain` writes none. */
#include "atc2.h"
#include <stdio.h>

int main(int argc, char **argv)
{
    static uint8_t card[65536], text[65536];
    uint8_t ride[ATC2_RIDE], store[ATC2_STORE];
    uint64_t n, number = 1, out[2];
    FILE *file = argc == 2 ? fopen(argv[1], "rb") : NULL;
    if (!file || atc2_settings_begin(40, 0x72, 0x0D, store) != 0 || atc2_ride_begin(ride) != 0) {
        fprintf(stderr, "usage: ride FILE\n");
        return 2;
    }
    while ((n = fread(card, 1, sizeof card, file)) > 0) {
        for (uint64_t at = 0; at < n; at += 8 * out[0], number += out[0]) {
            int32_t r = atc2_ride_list(ride, store, card + at, n - at, number, 1, text, sizeof text, out);
            if (r < 0) {
                printf("trace refused %d\n", -r);
                return 1;
            }
            fwrite(text, 1, out[1], stdout);
        }
    }
    fwrite(text, 1, (size_t)atc2_ride_end(ride, 1, text, sizeof text), stdout);
    return fclose(file);
}
