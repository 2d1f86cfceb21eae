/* Large blocks, for blocks.c, which allocates them, and heap.c, which puts files behind them. */
#ifndef RAFTLOG_BLOCKS_H
#define RAFTLOG_BLOCKS_H

#include "heap.h"

#include <stdatomic.h>
#include <sys/mman.h>

/* A log's blocks from HEAP_LARGE bytes on are large, and begin a slot of HEAP_SLOT. HEAP_STEP
 * bytes are compared and mapped at a time. Tests make these smaller. */
#ifndef HEAP_SLOT
#define HEAP_SLOT ((size_t)1 << 30)
#define HEAP_LARGE ((size_t)1 << 20)
#define HEAP_STEP ((size_t)1 << 18)
#endif

/* A log's reserve: enough for a block that grows to HEAP_LARGE. */
enum { HEAP_RESERVE = 1 << 21 };

/* Slots that are reserved at most. */
enum { BLOCKS_SLOTS = 4096 };

/* In the place of a block's slots: a later slot of it. */
#define BLOCKS_LATER SIZE_MAX

/* Memory that is asked of the system for bytes of no file. */
enum { OWN = MAP_PRIVATE | MAP_ANONYMOUS | MAP_NORESERVE, BOTH = PROT_READ | PROT_WRITE };

struct block {
    size_t slots;   /* that it takes; 0: the slot is free */
    size_t size;    /* in bytes, whole pages */
    uint64_t owner; /* the log's whose call allocated it; 0: no log's */
    dev_t dev;      /* the file behind it */
    ino_t ino;      /* 0: none */
    size_t backed;  /* so many bytes have the file behind them, .. */
    size_t settled; /* .. but from here on only pages that weren't written since */
    bool is_lost;   /* a page of it couldn't be read again */
};

/* `lock` is held for moments, and `slots`, `size`, `owner` and `backed` of a block change under
 * it. The rest of a log's block belongs to who is let in by that log. */
struct blocks {
    pthread_mutex_t lock;
    struct block all[BLOCKS_SLOTS];
    size_t slot_count; /* those that are reserved */
    size_t used;       /* those that were ever used */
    size_t page;
    bool is_refused; /* the addresses can't be reserved */
    _Atomic(uint8_t *) arena;
};
extern struct blocks heap_blocks;

static inline size_t pages_to(size_t end) {
    return (end + heap_blocks.page - 1) & ~(heap_blocks.page - 1);
}

static inline size_t whole_pages(size_t end) { return end & ~(heap_blocks.page - 1); }

static inline size_t least(size_t one, size_t other) { return one < other ? one : other; }

/* Addresses below the arena make a distance that is greater than it. */
static inline bool is_large(const void *at) {
    return heap_blocks.arena
           && (uintptr_t)at - (uintptr_t)heap_blocks.arena < HEAP_SLOT * heap_blocks.slot_count;
}

static inline uint8_t *start_of(const struct block *block) {
    return heap_blocks.arena + (size_t)(block - heap_blocks.all) * HEAP_SLOT;
}

static inline struct block *block_at(const void *at) {
    return &heap_blocks.all[(size_t)((const uint8_t *)at - heap_blocks.arena) / HEAP_SLOT];
}

/* Of an address anywhere in it. */
static inline struct block *block_around(const void *at) {
    struct block *block = block_at(at);
    while (block > heap_blocks.all && block->slots == BLOCKS_LATER) block--;
    return block;
}

/* How large a block is, and how much of it has a file behind it. */
void blocks_say(struct block *block, size_t size, size_t backed);

/* The next of the log's blocks from this one on, or NULL. */
struct block *blocks_next(const struct heap *heap, const struct block *from);

/* Whether this thread's calls are on this log. */
bool blocks_is_entered(const struct heap *heap);

#endif
