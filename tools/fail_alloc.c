/* Refuses the nth allocation of a program; tools/fail-alloc uses it.
 *
 *   cc -shared -fPIC -fno-optimize-sibling-calls -o fail_alloc.so fail_alloc.c
 *   FAIL_ALLOC=5 LD_PRELOAD=./fail_alloc.so PROGRAM     the fifth is refused
 *   COUNT_ALLOC=1 LD_PRELOAD=./fail_alloc.so PROGRAM    says how many there were
 */
#define _GNU_SOURCE
#include <dlfcn.h>
#include <errno.h>
#include <stdio.h>
#include <stdlib.h>
#include <string.h>
#include <sys/syscall.h>
#include <unistd.h>

static unsigned long seen, wanted;
static void *(*real_malloc)(size_t);
static void *(*real_realloc)(void *, size_t);

static void load(void) {
    const char *text = getenv("FAIL_ALLOC");
    wanted = text ? strtoul(text, 0, 10) : 0;
    real_realloc = dlsym(RTLD_NEXT, "realloc");
    real_malloc = dlsym(RTLD_NEXT, "malloc");
}

/* The program's own calls are counted, and those of the C library are not. */
static int is_refused(void *from) {
    Dl_info info;
    return dladdr(from, &info) && !strcmp(info.dli_fname, program_invocation_name) && ++seen == wanted;
}

void *malloc(size_t size) {
    if (!real_malloc) load();
    return is_refused(__builtin_return_address(0)) ? 0 : real_malloc(size);
}

void *realloc(void *old, size_t size) {
    if (!real_malloc) load();
    return is_refused(__builtin_return_address(0)) ? 0 : real_realloc(old, size);
}

__attribute__((destructor)) static void tell(void) {
    if (getenv("COUNT_ALLOC")) fprintf(stderr, "allocations=%lu\n", seen);
}

/* A program of tests ends so, which runs no destructor. */
void _exit(int status) {
    tell();
    for (;;) syscall(SYS_exit_group, status);
}
