/* What the C of bench/ uses of string.h: the kit brings no headers. */
#ifndef KIT_STRING_H
#define KIT_STRING_H
#include <stddef.h>
void *memcpy(void *to, const void *from, size_t size);
void *memset(void *to, int byte, size_t size);
void *memchr(const void *in, int byte, size_t size);
int memcmp(const void *a, const void *b, size_t size);
char *strcpy(char *to, const char *from);
int strcmp(const char *a, const char *b);
size_t strlen(const char *text);
size_t strcspn(const char *text, const char *none);
#endif
