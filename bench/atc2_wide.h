/* The searches once more in C, by words of 64 bits: the mark that the proved ones are held to
   beside plain C. find and judge test 64 offsets at once, next_contact takes 48 bits at once.
   Each answers as the function of atc2_plain.h that has the same name. */
#ifndef ATC2_WIDE_H
#define ATC2_WIDE_H

#include <stddef.h>
#include <stdint.h>

int32_t wide_find(const uint8_t *buf, size_t n, size_t start, size_t len, uint8_t s, uint8_t t, uint64_t out[2]);
int32_t wide_judge(const uint8_t *buf, size_t n, size_t start, size_t len, uint8_t s, uint8_t t, uint64_t out[3]);
int32_t wide_next_contact(const uint8_t *buf, size_t n, uint64_t search[3], uint64_t out[2]);

#endif
