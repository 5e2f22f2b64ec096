/* What the C of bench/ and tests/ uses of stddef.h, from the compiler's own types: the kit
   brings no headers. */
#ifndef KIT_STDDEF_H
#define KIT_STDDEF_H
typedef __SIZE_TYPE__ size_t;
#define NULL ((void *)0)
#endif
