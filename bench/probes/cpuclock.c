/* Preloaded, it gives a program the processor time of its process for the time of the clock, so that other programs are in no
   figure: gcc -shared -fPIC -O2 -o cpuclock.so cpuclock.c */
#define _GNU_SOURCE
#include <dlfcn.h>
#include <time.h>
int clock_gettime(clockid_t id, struct timespec *to) {
    static int (*real)(clockid_t, struct timespec *);
    if (!real) real = (int (*)(clockid_t, struct timespec *))dlsym(RTLD_NEXT, "clock_gettime");
    return real(id == CLOCK_MONOTONIC ? CLOCK_PROCESS_CPUTIME_ID : id, to);
}
