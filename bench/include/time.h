/* What the C of bench/ uses of time.h on x86-64 Linux: the kit brings no headers. */
#ifndef KIT_TIME_H
#define KIT_TIME_H
struct timespec {
    long tv_sec;
    long tv_nsec;
};
#define CLOCK_PROCESS_CPUTIME_ID 2
int clock_gettime(int clock, struct timespec *now);
#endif
