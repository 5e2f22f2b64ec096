/* What the C of bench/ uses of unistd.h on x86-64 Linux: the kit brings no headers. */
#ifndef KIT_UNISTD_H
#define KIT_UNISTD_H
#include <stddef.h>
typedef long ssize_t;
typedef long off_t;
#define SEEK_SET 0
#define STDIN_FILENO 0
#define STDOUT_FILENO 1
ssize_t read(int file, void *to, size_t size);
ssize_t write(int file, const void *from, size_t size);
off_t lseek(int file, off_t to, int from);
int close(int file);
#endif
