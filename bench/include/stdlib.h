/* What the C of bench/ uses of stdlib.h: the kit brings no headers. */
#ifndef KIT_STDLIB_H
#define KIT_STDLIB_H
#include <stddef.h>
void *malloc(size_t size);
void *calloc(size_t count, size_t size);
void *realloc(void *old, size_t size);
void free(void *room);
_Noreturn void exit(int status);
_Noreturn void abort(void);
int abs(int n);
unsigned long strtoul(const char *text, char **end, int base);
unsigned long long strtoull(const char *text, char **end, int base);
#endif
