/* Large blocks stand in an arena of reserved addresses, each at the beginning of a slot, so that a
 * block grows in place and begins a page. */
#include "blocks.h"

#include <stdlib.h>
#include <string.h>
#include <unistd.h>

#ifndef MADV_PAGEOUT
#define MADV_PAGEOUT 21
#endif

/* Slots that are reserved at least, or none is. */
enum { FEWEST_SLOTS = 64 };

struct blocks heap_blocks = {.lock = PTHREAD_MUTEX_INITIALIZER};

static _Atomic uint64_t last_id;
static _Atomic uint64_t owner_of_all;
static _Thread_local uint64_t owner_here;

/* ---- slots */

/* With `lock` held. */
static bool is_reserved(void) {
    if (heap_blocks.arena || heap_blocks.is_refused) return !heap_blocks.is_refused;
    heap_blocks.page = (size_t)sysconf(_SC_PAGESIZE);
    void *at = MAP_FAILED;
    heap_blocks.slot_count = sizeof at < 8 ? 0 : 2 * BLOCKS_SLOTS;
    while (at == MAP_FAILED && heap_blocks.slot_count / 2 >= FEWEST_SLOTS) {
        heap_blocks.slot_count /= 2;
        at = mmap(NULL, HEAP_SLOT * heap_blocks.slot_count, PROT_NONE, OWN, -1, 0);
    }
    heap_blocks.is_refused = at == MAP_FAILED;
    if (!heap_blocks.is_refused) heap_blocks.arena = at;
    return !heap_blocks.is_refused;
}

static bool is_block(const struct block *block) {
    return block->slots && block->slots != BLOCKS_LATER;
}

/* The first of so many free slots side by side, or `slot_count`. With `lock` held. */
static size_t free_run(size_t count) {
    size_t run = 0;
    for (size_t i = 0; i < heap_blocks.slot_count; i++) {
        run = heap_blocks.all[i].slots ? 0 : run + 1;
        if (run == count) return i + 1 - count;
    }
    return heap_blocks.slot_count;
}

/* The log whose call this is; 0: none. */
static uint64_t owner(void) { return owner_here ? owner_here : owner_of_all; }

static void mark(struct block *block, size_t count, size_t size) {
    for (size_t i = 0; i < count; i++)
        block[i] = (struct block){.slots = i ? BLOCKS_LATER : count};
    block->size = size;
    block->owner = owner();
}

static void unmark(struct block *block) {
    pthread_mutex_lock(&heap_blocks.lock);
    for (size_t i = block->slots; i--;) block[i] = (struct block){0};
    pthread_mutex_unlock(&heap_blocks.lock);
}

static struct block *take(size_t size) {
    struct block *block = NULL;
    pthread_mutex_lock(&heap_blocks.lock);
    if (is_reserved() && size <= HEAP_SLOT * (heap_blocks.slot_count / 2)) {
        size_t count = (size + HEAP_SLOT - 1) / HEAP_SLOT, first = free_run(count);
        if (first < heap_blocks.slot_count) {
            block = &heap_blocks.all[first];
            mark(block, count, pages_to(size));
            if (heap_blocks.used < first + count) heap_blocks.used = first + count;
        }
    }
    pthread_mutex_unlock(&heap_blocks.lock);
    if (block && mprotect(start_of(block), block->size, BOTH)) return unmark(block), NULL;
    return block;
}

/* Takes memory and whatever file stands behind it away from these addresses. */
static bool empty(uint8_t *at, size_t len) {
    return mmap(at, len, PROT_NONE, MAP_FIXED | OWN, -1, 0) != MAP_FAILED;
}

void blocks_say(struct block *block, size_t size, size_t backed) {
    pthread_mutex_lock(&heap_blocks.lock);
    block->size = size;
    block->backed = backed;
    pthread_mutex_unlock(&heap_blocks.lock);
    block->settled = least(block->settled, backed);
}

/* Whether a block has this size now. */
static bool resize(struct block *block, size_t size) {
    if (size > block->slots * HEAP_SLOT) return false;
    size_t len = pages_to(size), old = block->size;
    uint8_t *at = start_of(block);
    if (len > old && mprotect(at + old, len - old, BOTH)) return false;
    if (len < old && !empty(at + len, old - len)) return true;
    blocks_say(block, len, least(block->backed, len));
    return true;
}

/* ---- blocks */

void *heap_alloc(size_t size) {
    if (size < HEAP_LARGE || !owner()) return malloc(size);
    struct block *block = take(size);
    return block ? start_of(block) : malloc(size);
}

void heap_free(void *at) {
    if (!is_large(at)) {
        free(at);
        return;
    }
    struct block *block = block_at(at);
    if (empty(at, block->size)) {
        unmark(block);
        return;
    }
    /* A file may stand behind it still, so its slots aren't used again. */
    pthread_mutex_lock(&heap_blocks.lock);
    block->owner = 0;
    pthread_mutex_unlock(&heap_blocks.lock);
}

size_t heap_size(const void *at) { return is_large(at) ? block_at(at)->size : 0; }

void *heap_realloc(void *at, size_t old, size_t size) {
    if (!at) return heap_alloc(size);
    bool was_large = is_large(at);
    if (!was_large && (size < HEAP_LARGE || old >= HEAP_LARGE || !owner()))
        return realloc(at, size);
    if (was_large && size >= HEAP_LARGE && resize(block_at(at), size)) return at;
    void *to = heap_alloc(size);
    if (!to) return size < old ? at : NULL;
    memcpy(to, at, least(old, size));
    heap_free(at);
    return to;
}

/* ---- whose they are */

void heap_begin(struct heap *heap, pthread_mutex_t *lock) {
    *heap = (struct heap){.id = atomic_fetch_add(&last_id, 1) + 1, .lock = lock};
}

/* The log whose call this thread is in; NULL: no log's. */
static _Thread_local struct heap *here;

void heap_enter(struct heap *heap) {
    owner_here = heap->id;
    here = heap;
}

void heap_leave(void) {
    owner_here = 0;
    here = NULL;
}

void heap_own_all(const struct heap *heap) { owner_of_all = heap->id; }

bool blocks_is_entered(const struct heap *heap) { return owner_here == heap->id; }

struct block *blocks_next(const struct heap *heap, const struct block *from) {
    struct block *found = NULL;
    pthread_mutex_lock(&heap_blocks.lock);
    for (size_t i = (size_t)(from - heap_blocks.all); i < heap_blocks.used && !found; i++)
        if (is_block(&heap_blocks.all[i]) && heap_blocks.all[i].owner == heap->id)
            found = &heap_blocks.all[i];
    pthread_mutex_unlock(&heap_blocks.lock);
    return found;
}

/* ---- the reserve */

bool heap_renew_reserve(struct heap *heap) {
    void *at = mmap(NULL, HEAP_RESERVE, BOTH, MAP_PRIVATE | MAP_ANONYMOUS, -1, 0);
    if (at == MAP_FAILED) return false;
    heap->reserve = at;
    return true;
}

void heap_drop_reserve(struct heap *heap) {
    if (heap->reserve) munmap(heap->reserve, HEAP_RESERVE);
    heap->reserve = NULL;
}

/* Whether there was a reserve, which is memory of the system's again. */
static bool spend_reserve(void) {
    bool has_reserve = here && here->reserve;
    if (has_reserve) heap_drop_reserve(here);
    return has_reserve;
}

/* ---- figures, tests */

void heap_stat(size_t *count, size_t *bytes, size_t *backed) {
    *count = *bytes = *backed = 0;
    pthread_mutex_lock(&heap_blocks.lock);
    for (size_t i = 0; i < heap_blocks.used; i++) {
        if (!is_block(&heap_blocks.all[i])) continue;
        ++*count;
        *bytes += heap_blocks.all[i].size;
        *backed += heap_blocks.all[i].backed;
    }
    pthread_mutex_unlock(&heap_blocks.lock);
}

/* A block may be freed meanwhile, and another one stand there, of which no byte is lost either. */
void heap_page_out(void) {
    for (size_t i = 0; i < BLOCKS_SLOTS; i++) {
        pthread_mutex_lock(&heap_blocks.lock);
        size_t len =
            i < heap_blocks.used && is_block(&heap_blocks.all[i]) ? heap_blocks.all[i].backed : 0;
        pthread_mutex_unlock(&heap_blocks.lock);
        if (len) madvise(start_of(&heap_blocks.all[i]), len, MADV_PAGEOUT);
    }
}

/* ---- what the proved part allocates by, in place of the kit's libc/c/heap.c */

struct got {
    uint64_t is_got;
    void *at;
};

static struct got got_of(void *at) {
    static uint8_t nothing[16];
    return (struct got){at != NULL, at ? at : nothing};
}

static void *alloc_any(size_t size) { return size < HEAP_LARGE ? malloc(size) : heap_alloc(size); }

struct got rattle_alloc(size_t size, size_t align) {
    size_t some = size ? size : align;
    void *at = alloc_any(some);
    if (!at && spend_reserve()) at = alloc_any(some);
    return got_of(at);
}

struct got rattle_realloc(void *at, size_t old, size_t size, size_t align) {
    size_t some = size ? size : align;
    void *to = heap_realloc(at, old, some);
    if (!to && spend_reserve()) to = heap_realloc(at, old, some);
    return got_of(to);
}

void rattle_dealloc(void *at) { heap_free(at); }
