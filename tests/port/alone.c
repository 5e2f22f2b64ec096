/* What tests/abi/calls.c uses of a C library, for processors of which the kit brings none:
   printf, the memory and string functions, 64-bit division for processors that lack it, and how
   a program begins, writes and ends: by Linux' calls under an emulator, or by the two functions
   that tests/port/wasm.js gives it. */
#include "stdarg.h"
#include <stddef.h>
#include <stdint.h>

int main(void);
void *memcpy(void *, const void *, size_t);

#if defined(__wasm__)
void put(const char *, size_t);
static void write_out(const char *text, size_t n) { put(text, n); }
#elif defined(__aarch64__)
static long call(long n, long a, long b, long c)
{
    register long x8 __asm__("x8") = n, x0 __asm__("x0") = a, x1 __asm__("x1") = b, x2 __asm__("x2") = c;
    __asm__ volatile("svc 0" : "+r"(x0) : "r"(x8), "r"(x1), "r"(x2) : "memory");
    return x0;
}
static void write_out(const char *text, size_t n) { call(64, 1, (long)text, (long)n); }
static void end(int status) { for (;;) call(93, status, 0, 0); }
#elif defined(__arm__)
static long call(long n, long a, long b, long c)
{
    long result;
    /* r7 is the frame's register in thumb code: it is kept by hand. */
    __asm__ volatile("push {r7}\n mov r7, %1\n mov r0, %2\n mov r1, %3\n mov r2, %4\n svc 0\n pop {r7}\n mov %0, r0" : "=r"(result) : "r"(n), "r"(a), "r"(b), "r"(c) : "r0", "r1", "r2", "memory");
    return result;
}
static void write_out(const char *text, size_t n) { call(4, 1, (long)text, (long)n); }
static void end(int status) { for (;;) call(1, status, 0, 0); }
#elif defined(__riscv)
static long call(long n, long a, long b, long c)
{
    register long a7 __asm__("a7") = n, a0 __asm__("a0") = a, a1 __asm__("a1") = b, a2 __asm__("a2") = c;
    __asm__ volatile("ecall" : "+r"(a0) : "r"(a7), "r"(a1), "r"(a2) : "memory");
    return a0;
}
static void write_out(const char *text, size_t n) { call(64, 1, (long)text, (long)n); }
static void end(int status) { for (;;) call(93, status, 0, 0); }
#endif

#if !defined(__wasm__)
void _start(void) { end(main()); }
#endif

void *memcpy(void *to, const void *from, size_t n)
{
    for (size_t i = 0; i < n; i++) ((volatile char *)to)[i] = ((const char *)from)[i];
    return to;
}
void *memmove(void *to, const void *from, size_t n)
{
    if ((size_t)to <= (size_t)from) return memcpy(to, from, n);
    for (size_t i = n; i > 0; i--) ((volatile char *)to)[i - 1] = ((const char *)from)[i - 1];
    return to;
}
void *memset(void *to, int byte, size_t n)
{
    for (size_t i = 0; i < n; i++) ((volatile char *)to)[i] = (char)byte;
    return to;
}
int memcmp(const void *a, const void *b, size_t n)
{
    for (size_t i = 0; i < n; i++)
        if (((const unsigned char *)a)[i] != ((const unsigned char *)b)[i]) return ((const unsigned char *)a)[i] - ((const unsigned char *)b)[i];
    return 0;
}
size_t strlen(const char *text)
{
    size_t n = 0;
    while (((volatile const char *)text)[n]) n++;
    return n;
}
int strcmp(const char *a, const char *b)
{
    for (; *a && *a == *b; a++) b++;
    return (unsigned char)*a - (unsigned char)*b;
}

static uint64_t divide(uint64_t a, uint64_t b, uint64_t *rest)
{
    uint64_t quotient = 0, left = 0;
    for (int i = 63; i >= 0; i--) {
        left = left << 1 | (a >> i & 1);
        if (left >= b) {
            left -= b;
            quotient |= (uint64_t)1 << i;
        }
    }
    *rest = left;
    return quotient;
}
#if defined(__arm__)
/* Quotient in r0 and r1, remainder in r2 and r3. */
void divide_into(uint64_t a, uint64_t b, uint64_t *out) { out[0] = divide(a, b, out + 1); }
__attribute__((naked)) void __aeabi_uldivmod(void) { __asm__("push {r4, lr}\n sub sp, #24\n add r4, sp, #8\n str r4, [sp]\n bl divide_into\n ldrd r0, r1, [sp, #8]\n ldrd r2, r3, [sp, #16]\n add sp, #24\n pop {r4, pc}"); }
void __aeabi_memcpy(void *to, const void *from, size_t n) { memcpy(to, from, n); }
void __aeabi_memmove(void *to, const void *from, size_t n) { memmove(to, from, n); }
void __aeabi_memset(void *to, size_t n, int byte) { memset(to, byte, n); }
void __aeabi_memclr(void *to, size_t n) { memset(to, 0, n); }
#define ALSO(name, as) __asm__(".globl " #name "\n.thumb_set " #name ", " #as)
ALSO(__aeabi_memcpy4, __aeabi_memcpy);
ALSO(__aeabi_memcpy8, __aeabi_memcpy);
ALSO(__aeabi_memmove4, __aeabi_memmove);
ALSO(__aeabi_memmove8, __aeabi_memmove);
ALSO(__aeabi_memset4, __aeabi_memset);
ALSO(__aeabi_memset8, __aeabi_memset);
ALSO(__aeabi_memclr4, __aeabi_memclr);
ALSO(__aeabi_memclr8, __aeabi_memclr);
#else
uint64_t __udivdi3(uint64_t a, uint64_t b) { uint64_t rest; return divide(a, b, &rest); }
uint64_t __umoddi3(uint64_t a, uint64_t b) { uint64_t rest; divide(a, b, &rest); return rest; }
#endif

int putchar(int c) { char one = (char)c; write_out(&one, 1); return c; }
int puts(const char *text) { write_out(text, strlen(text)); return putchar('\n'); }

/* %d %u %x %X %lld %llu %s %c %%, with a width that is filled by blanks or zeroes. */
int printf(const char *format, ...)
{
    va_list words;
    va_start(words, format);
    for (const char *at = format; *at; at++) {
        char digits[32], fill = ' ';
        int width = 0, wide = 0, n = 32, negative = 0;
        if (*at != '%') { putchar(*at); continue; }
        at++;
        if (*at == '0') { fill = '0'; at++; }
        for (; *at >= '0' && *at <= '9'; at++) width = 10 * width + *at - '0';
        for (; *at == 'l' || *at == 'z'; at++) wide++;
        if (*at == '%' || *at == 'c') { putchar(*at == '%' ? '%' : va_arg(words, int)); continue; }
        if (*at == 's') { const char *text = va_arg(words, const char *); write_out(text, strlen(text)); continue; }
        uint64_t value, base = *at == 'x' || *at == 'X' ? 16 : 10;
        if (*at == 'd') {
            int64_t given = wide > 1 ? va_arg(words, long long) : wide ? va_arg(words, long) : va_arg(words, int);
            negative = given < 0;
            value = negative ? 0 - (uint64_t)given : (uint64_t)given;
        } else {
            value = wide > 1 ? va_arg(words, unsigned long long) : wide ? va_arg(words, unsigned long) : va_arg(words, unsigned);
        }
        do { uint64_t rest, left = divide(value, base, &rest); digits[--n] = (*at == 'X' ? "0123456789ABCDEF" : "0123456789abcdef")[rest]; value = left; } while (value);
        if (negative) digits[--n] = '-';
        while (32 - n < width) digits[--n] = fill;
        write_out(digits + n, (size_t)(32 - n));
    }
    va_end(words);
    return 0;
}
