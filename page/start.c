/* What a program's start asks of x86-64 and of Linux, where there is neither (start.txt has the
   names): whether the processor has what the native code needs, that a pipe which nobody reads does
   not end it, and a word on standard error where the processor has not. */
const void *__x86_get_cpuid_feature_leaf(unsigned leaf) {
    static const unsigned all[8] = {~0u, ~0u, ~0u, ~0u, ~0u, ~0u, ~0u, ~0u};
    (void)leaf;
    return all;
}
long long __sysv_signal(int signal, long long handler) {
    (void)signal;
    (void)handler;
    return 0;
}
long long __write(int fd, const void *bytes, long long n) {
    (void)fd;
    (void)bytes;
    (void)n;
    return -1;
}
