/* Reads a text of settings and says what is wrong with it: settings FILE */
#include "atc2.h"
#include <stdio.h>

int main(int argc, char **argv)
{
    static uint8_t text[1048577];
    uint8_t store[ATC2_STORE];
    FILE *file = argc > 1 ? fopen(argv[1], "rb") : NULL;
    if (!file) {
        fprintf(stderr, "usage: settings FILE\n");
        return 2;
    }
    uint64_t n = fread(text, 1, sizeof text, file);
    fclose(file);
    int32_t r = atc2_settings_read(text, n, store);
    if (r == 0) printf("settings fine\n");
    else if (r == ATC2_UNREADABLE) printf("settings line %lld unreadable\n", (long long)atc2_settings_line(text, n));
    else if (r == ATC2_FIRST_PLACE) printf("settings line %lld: the first place is not 0\n", (long long)atc2_settings_line(text, n));
    else printf("settings line %lld refused %d\n", (long long)atc2_settings_line(text, n), -r);
    return r != 0;
}
