/* The heap of the proved part, whose large blocks can have files behind them.
 *
 * The proved part keeps each log file whole in one block of memory. Once bytes of the file are
 * synced, and were compared with the block's, the file itself is mapped over that part of the
 * block, privately: it reads as before, the system may take its pages back and read them again
 * from the file, and what the proved part writes there stays its own. A file that is written or
 * cut would change what is mapped, so its pages are made the block's own before.
 *
 * A log has one `struct heap`, and one `struct heap_file` for the file that its orders are for.
 * Blocks of one log are never compared with files of another. Where addresses can't be reserved,
 * all blocks are those of malloc. */
#ifndef RAFTLOG_HEAP_H
#define RAFTLOG_HEAP_H

#include <pthread.h>
#include <stdbool.h>
#include <stddef.h>
#include <stdint.h>
#include <sys/types.h>

/* All zeros: no file. */
struct heap_file {
    struct heap *heap;
    int fd;
    dev_t dev;
    ino_t ino;
    uint64_t written; /* so many of its bytes are the block's */
    uint64_t safe;    /* so many were synced, and weren't written since */
    uint64_t next;    /* nothing is tried before so many are safe */
    uint64_t backed;  /* no byte of the block from here on has the file behind it */
    bool is_mapped;   /* a part of the block is a mapping of this descriptor's */
    uint8_t *part;    /* of the file, for a comparison */
};

/* All zeros: a log whose blocks have no files behind them, as one in memory. */
struct heap {
    uint64_t id;
    pthread_mutex_t *lock; /* keeps others out of the log's blocks; NULL: the caller does */
    bool at_random;
    bool was_opened;
    void *reserve; /* memory for a change that has begun; NULL: it was spent, or never made */
    struct heap_file rest; /* that was let go before all of it stood behind its block */
    size_t due;            /* bytes that were written since a step was made for it */
};

/* ---- blocks, as malloc, realloc and free have them */

void *heap_alloc(size_t size);
void *heap_realloc(void *at, size_t old, size_t size);
void heap_free(void *at);
/* Of a large block that can have a file behind it, in bytes; else 0. */
size_t heap_size(const void *at);

/* ---- a log */

void heap_begin(struct heap *heap, pthread_mutex_t *lock);
/* No file is put behind its blocks any more; what stands there stays until they are freed. */
void heap_end(struct heap *heap);

/* What this thread allocates from now on is this log's, which it keeps others out of; or no log's.
 * Blocks that are no log's never have a file behind them. */
void heap_enter(struct heap *heap);
void heap_leave(void);

/* A log that finds no memory in the middle of a change may fail. So each log has a reserve: if there is no memory for what the
 * proved part asks for between `heap_enter` and `heap_leave`, the reserve is given back to the system, which is asked again.
 * Before a change the reserve is made anew; false if there is no memory for it. */
bool heap_renew_reserve(struct heap *heap);
static inline bool heap_make_reserve(struct heap *heap) { return heap->reserve || heap_renew_reserve(heap); }
void heap_drop_reserve(struct heap *heap);

/* ---- a file, around the calls on it */

void heap_take_up(struct heap_file *file, struct heap *heap, int fd);
void heap_before_write(struct heap_file *file, uint64_t at, size_t len);
/* 0, or an error of the system's, after which the file may not be cut. */
int heap_before_cut(struct heap_file *file, uint64_t size);
void heap_synced(struct heap_file *file);
/* Puts what is left of this file, and of the one before it, behind its block. */
void heap_catch_up(struct heap *heap, struct heap_file *file);
/* Before the file is closed. */
void heap_let_go(struct heap_file *file);

/* Takes a mapping of a file, private and to be read, all of whose bytes are synced: puts it over the
 * block that was just made of these bytes, or unmaps it. */
void heap_loaded(struct heap *heap, int fd, uint8_t *mapped, size_t len);

/* ---- pages that can't be read again */

/* Puts zeros in the place of a page whose file can't be read; false: the address is no such
 * page's. A signal's handler may call it. */
bool heap_lose_page(void *at);
/* Once, before the first orders of a log: whether its opening met such a page. */
bool heap_opening_lost(struct heap *heap);

/* ---- settings, figures, tests */

void heap_expect_reads(struct heap *heap, bool at_random);
/* As memcpy and memmove, and the proved part copies by them. Where reads are expected at random they first ask the
 * system for all pages of the copy at once: else each that isn't in memory is a read of the disk by itself. */
void *heap_copy(void *to, const void *from, size_t len);
void *heap_move(void *to, const void *from, size_t len);
/* Of all logs: blocks that can have a file behind them, their bytes, and how many of these do. */
void heap_stat(size_t *blocks, size_t *bytes, size_t *backed);
/* Takes all pages back that have a file behind them, as the system may at any moment. */
void heap_page_out(void);
/* Blocks of a process with one log, whichever thread allocates them: for a preload. */
void heap_own_all(const struct heap *heap);

#endif
