/* refusals.h */
#include "refusals.h"

#include <errno.h>
#include <stdarg.h>
#include <stdatomic.h>
#include <stddef.h>
#include <sys/mman.h>

int refusals_turn;
bool refusals_go_on;

/* Requests until the refused one, that included; 0: none is counted. */
static atomic_int left;
static atomic_bool was_made;

void refusals_begin(void) {
    atomic_store(&was_made, false);
    atomic_store(&left, refusals_turn);
}

bool refusals_end(void) {
    atomic_store(&left, 0);
    return atomic_load(&was_made);
}

static bool is_refused(void) {
    int now = atomic_load(&left);
    while (now && !(now == 1 && refusals_go_on) && !atomic_compare_exchange_weak(&left, &now, now - 1)) {}
    if (now != 1) return false;
    atomic_store(&was_made, true);
    errno = ENOMEM;
    return true;
}

void *__real_malloc(size_t size);
void *__wrap_malloc(size_t size) { return is_refused() ? NULL : __real_malloc(size); }
void *__real_calloc(size_t count, size_t size);
void *__wrap_calloc(size_t count, size_t size) { return is_refused() ? NULL : __real_calloc(count, size); }
void *__real_realloc(void *at, size_t size);
void *__wrap_realloc(void *at, size_t size) { return is_refused() ? NULL : __real_realloc(at, size); }
char *__real_strdup(const char *text);
char *__wrap_strdup(const char *text) { return is_refused() ? NULL : __real_strdup(text); }
char *__real_strndup(const char *text, size_t len);
char *__wrap_strndup(const char *text, size_t len) { return is_refused() ? NULL : __real_strndup(text, len); }

void *__real_mmap(void *at, size_t len, int access, int flags, int fd, off_t from);
void *__wrap_mmap(void *at, size_t len, int access, int flags, int fd, off_t from) {
    return is_refused() ? MAP_FAILED : __real_mmap(at, len, access, flags, fd, from);
}
int __real_mprotect(void *at, size_t len, int access);
int __wrap_mprotect(void *at, size_t len, int access) { return is_refused() ? -1 : __real_mprotect(at, len, access); }

/* The library gives the new place each time. */
void *__real_mremap(void *at, size_t old, size_t len, int flags, ...);
void *__wrap_mremap(void *at, size_t old, size_t len, int flags, ...) {
    va_list rest;
    va_start(rest, flags);
    void *to = flags & MREMAP_FIXED ? va_arg(rest, void *) : NULL;
    va_end(rest);
    return is_refused() ? MAP_FAILED : __real_mremap(at, old, len, flags, to);
}
