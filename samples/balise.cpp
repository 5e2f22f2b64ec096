// Writes a test balise of 1 8 5 and reads its first telegram back.
#include "atc2.h"
#include <cstdio>

int main()
{
    uint8_t bits[41];
    uint64_t out[2] = {0, 0};
    const int32_t n = atc2_write_balise(1, 8, 5, 0x72, 0x0D, 10, bits, sizeof bits);
    if (n < 0) return 1;
    const int32_t r = atc2_find(bits, static_cast<uint64_t>(n), 0, static_cast<uint64_t>(n) * 8, 0x72, 0x0D, out);
    std::printf("%d at bit %u: %u %u %u\n", static_cast<int>(r), static_cast<unsigned>(out[0]), static_cast<unsigned>(out[1] >> 16), static_cast<unsigned>(out[1] >> 8 & 255), static_cast<unsigned>(out[1] & 255));
    return r != 0;
}
