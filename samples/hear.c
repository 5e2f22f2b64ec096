/* Hears a lead and writes its trace: hear LEAD S S* >TRACE, the sync words as two hex digits. */
#include "atc2.h"
#include <stdio.h>
#include <stdlib.h>
#include <string.h>

int main(int argc, char **argv)
{
    uint8_t store[ATC2_STORE], ear[ATC2_EAR], lead[4096], records[1024];
    uint64_t out[2] = {0, 0};
    size_t n = 0;
    FILE *file = argc == 4 ? fopen(argv[1], "rb") : NULL;
    if (!file) {
        fprintf(stderr, "usage: hear LEAD S S* >TRACE\n");
        return 2;
    }
    int32_t r = atc2_settings_begin(40, (uint8_t)strtoul(argv[2], NULL, 16), (uint8_t)strtoul(argv[3], NULL, 16), store);
    if (r == 0) r = atc2_record_begin(ear);
    while (r == 0 && (n += fread(lead + n, 1, sizeof lead - n, file)) >= 16) {
        r = atc2_record(ear, store, lead, n, records, sizeof records, out);
        if (r != 0) break;
        fwrite(records, 1, (size_t)out[1], stdout);
        n -= (size_t)out[0];
        memmove(lead, lead + out[0], n);
    }
    fclose(file);
    while (r == 0 && (r = atc2_record_end(ear, records, sizeof records, out)) == 0 && out[0] > 0) fwrite(records, 1, (size_t)out[0], stdout);
    if (r != 0) fprintf(stderr, "hear: settings refused %d\n", (int)-r);
    return r != 0;
}
