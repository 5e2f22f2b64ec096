/* What the C of bench/ uses of fcntl.h on x86-64 Linux: the kit brings no headers. */
#ifndef KIT_FCNTL_H
#define KIT_FCNTL_H
#define O_RDONLY 0
int open(const char *path, int how, ...);
#endif
