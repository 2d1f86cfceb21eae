/* In the place of heap.h for heap_test under tools/heap, which sees these plain calls alone. */
#ifndef HEAP_PLAIN_H
#define HEAP_PLAIN_H

#include <pthread.h>
#include <stdbool.h>
#include <stddef.h>
#include <stdint.h>
#include <stdlib.h>
#include <sys/mman.h>
#include <unistd.h>

struct heap {
    int nothing;
};

struct heap_file {
    int fd;
};

static void *heap_alloc(size_t size) { return malloc(size); }

static void *heap_realloc(void *at, size_t old, size_t size) {
    (void)old;
    return realloc(at, size);
}

static void heap_free(void *at) { free(at); }

static void heap_begin(struct heap *heap, pthread_mutex_t *lock) { (void)heap, (void)lock; }

static void heap_enter(const struct heap *heap) { (void)heap; }

static void heap_leave(void) {}

static void heap_take_up(struct heap_file *file, struct heap *heap, int fd) {
    (void)heap;
    file->fd = fd;
}

static void heap_before_write(struct heap_file *file, uint64_t at, size_t len) {
    (void)file, (void)at, (void)len;
}

static int heap_before_cut(struct heap_file *file, uint64_t size) {
    (void)file, (void)size;
    return 0;
}

static void heap_synced(struct heap_file *file) {
    if (fdatasync(file->fd)) abort();
}

static void heap_let_go(struct heap_file *file) {
    if (fdatasync(file->fd)) abort();
}

static void heap_catch_up(struct heap *heap, struct heap_file *file) { (void)heap, (void)file; }

/* An opening syncs each file before it reads it. */
static void heap_loaded(struct heap *heap, int fd, uint8_t *mapped, size_t len) {
    (void)heap;
    if (fsync(fd) || munmap(mapped, len)) abort();
}

static void heap_page_out(void) {}

#endif
