/* What the C of bench/ uses of inttypes.h: the kit brings no headers. */
#ifndef KIT_INTTYPES_H
#define KIT_INTTYPES_H
#include <stdint.h>
#define PRIu64 "lu"
#define SCNu64 "lu"
#endif
