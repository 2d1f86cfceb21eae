/* What stands behind large blocks. heap.h says what it is for. */
#include "blocks.h"

#include <errno.h>
#include <fcntl.h>
#include <stdlib.h>
#include <string.h>
#include <sys/stat.h>
#include <unistd.h>

/* Steps after which a file that isn't a block's bytes is looked at again; bytes of a file that are
 * read at a time; how many times as much as a new mapping may stand behind a block already. */
enum { STEPS_BETWEEN_TRIES = 32, PART = 1 << 16, PART_OF_OTHERS = 16 };

/* Steps that one call makes, so that none takes long. What is left then is made up for by later
 * writes: a step each time when so much of one was written. */
enum { MOST_STEPS = 8, ALL_STEPS = 1 << 30, STEPS_FOR_ONE = 4 };

/* Nobody else reads or writes the log's blocks until `let_in`. A thread that is in a call on the
 * log keeps them out already. */
static void keep_out(struct heap *heap) {
    if (heap->lock && !blocks_is_entered(heap)) pthread_mutex_lock(heap->lock);
}

static void let_in(struct heap *heap) {
    if (heap->lock && !blocks_is_entered(heap)) pthread_mutex_unlock(heap->lock);
}

/* ---- what stands behind a block */

static struct block *block_of(const struct heap_file *file) {
    struct block *block = blocks_next(file->heap, heap_blocks.all);
    while (block && (block->ino != file->ino || block->dev != file->dev))
        block = blocks_next(file->heap, block + 1);
    return block;
}

/* Whether the file's bytes between two places are these. */
static bool are_same(struct heap_file *file, const uint8_t *at, size_t from, size_t end) {
    if (!file->part && !(file->part = malloc(PART))) return false;
    while (from < end) {
        ssize_t got = pread(file->fd, file->part, least(end - from, PART), (off_t)from);
        if (got < 0 && errno == EINTR) continue;
        if (got <= 0 || memcmp(file->part, at + from, (size_t)got)) return false;
        from += (size_t)got;
    }
    return true;
}

/* Puts what is mapped elsewhere in the place of these addresses, at once for who reads them. */
static bool move_over(void *mapped, size_t len, uint8_t *at) {
    if (mremap(mapped, len, len, MREMAP_MAYMOVE | MREMAP_FIXED, at) != MAP_FAILED) return true;
    munmap(mapped, len);
    return false;
}

/* Maps the file over a part of the block. It is mapped elsewhere first, since a mapping at these
 * addresses that fails may leave a hole. */
static bool map_over(struct heap_file *file, struct block *block, size_t from, size_t end) {
    int flags = MAP_PRIVATE | MAP_NORESERVE;
    void *mapped = mmap(NULL, end - from, BOTH, flags, file->fd, (off_t)from);
    if (mapped == MAP_FAILED) return false;
    if (file->heap->at_random) madvise(mapped, end - from, MADV_RANDOM);
    return move_over(mapped, end - from, start_of(block) + from);
}

static bool can_be_of(struct heap_file *file, const struct block *block, size_t end) {
    if (block->ino || block->size < end) return false;
    return are_same(file, start_of(block), 0, least(end, HEAP_STEP));
}

/* A block without a file that begins as this one, and has room for so many of its bytes. */
static struct block *find_block(struct heap_file *file, size_t end) {
    struct block *block = blocks_next(file->heap, heap_blocks.all);
    while (block && !can_be_of(file, block, end)) block = blocks_next(file->heap, block + 1);
    if (!block) return NULL;
    block->ino = file->ino;
    block->dev = file->dev;
    return block;
}

/* How many bytes a step takes, at least. A new descriptor makes a mapping of its own, of which a
 * process has a bounded number: so it brings a part of what the file's others have. */
static size_t least_step(const struct heap_file *file, const struct block *block, bool all) {
    size_t step = all ? heap_blocks.page : HEAP_STEP, part = block->settled / PART_OF_OTHERS;
    return file->is_mapped || part < step ? step : part;
}

/* Puts one step of the file behind its block: whether that was done. */
static bool back_step(struct heap_file *file, size_t end, bool all) {
    struct block *block = block_of(file);
    if (!block && end >= (all ? heap_blocks.page : HEAP_STEP)) block = find_block(file, end);
    file->next = end + STEPS_BETWEEN_TRIES * HEAP_STEP;
    if (!block) return false;
    size_t from = whole_pages(block->settled), step = least_step(file, block, all);
    size_t to = least(least(end, block->size), from + HEAP_STEP);
    if (to < from + heap_blocks.page || end < from + step) return file->next = from + step, false;
    if (!are_same(file, start_of(block), from, to)) return false;
    if (!map_over(file, block, from, to)) return false;
    if (block->backed < to) blocks_say(block, block->size, to);
    block->settled = to;
    file->backed = block->backed;
    file->next = to + (all ? heap_blocks.page : HEAP_STEP);
    file->is_mapped = true;
    return true;
}

/* Puts the file behind its block as far as it is safe, in whole steps, or to its last page:
 * whether nothing is left to be done after so many steps. */
static bool back(struct heap_file *file, bool all, int steps) {
    struct stat found;
    if (!heap_blocks.arena || fstat(file->fd, &found)) return true;
    size_t end = whole_pages(least(file->safe, (size_t)found.st_size));
    bool is_done = true;
    for (; is_done && steps; steps--) {
        keep_out(file->heap);
        is_done = back_step(file, end, all);
        let_in(file->heap);
    }
    return !is_done;
}

/* Makes the block's bytes from a page on its own again. */
static int own_from(struct block *block, size_t from) {
    if (from >= block->backed) return 0;
    size_t len = block->backed - from;
    uint8_t *at = start_of(block) + from;
    void *copy = mmap(NULL, len, BOTH, OWN, -1, 0);
    if (copy == MAP_FAILED) return ENOMEM;
    memcpy(copy, at, len);
    if (!move_over(copy, len, at)) return ENOMEM;
    blocks_say(block, block->size, from);
    if (!from) block->ino = 0;
    return 0;
}

/* ---- what is left of a file that was let go */

static void drop_rest(struct heap *heap) {
    if (heap->rest.heap) close(heap->rest.fd);
    free(heap->rest.part);
    heap->rest = (struct heap_file){0};
}

static void finish_rest(struct heap *heap) {
    if (heap->rest.heap) back(&heap->rest, true, ALL_STEPS);
    drop_rest(heap);
}

static void keep_rest(struct heap_file *file) {
    struct heap *heap = file->heap;
    finish_rest(heap);
    int fd = fcntl(file->fd, F_DUPFD_CLOEXEC, 0);
    if (fd < 0) {
        free(file->part);
        return;
    }
    heap->rest = *file;
    heap->rest.fd = fd;
}

/* After so many bytes were written: goes on with the rest, or with this file. */
static void make_up(struct heap_file *file, size_t len) {
    struct heap *heap = file->heap;
    heap->due += len;
    while (heap->due >= HEAP_STEP / STEPS_FOR_ONE) {
        heap->due -= HEAP_STEP / STEPS_FOR_ONE;
        bool is_rest = heap->rest.heap;
        if (is_rest && back(&heap->rest, true, 1)) drop_rest(heap);
        if (!is_rest && (file->safe < file->next || back(file, false, 1))) heap->due = 0;
    }
}

void heap_end(struct heap *heap) {
    drop_rest(heap);
    heap_drop_reserve(heap);
    if (heap->at_random) heap_expect_reads(heap, false);
    heap->id = 0;
}

/* ---- a file */

void heap_take_up(struct heap_file *file, struct heap *heap, int fd) {
    struct stat found;
    *file = (struct heap_file){0};
    if (!heap->id || fstat(fd, &found) || !S_ISREG(found.st_mode)) return;
    *file = (struct heap_file){.heap = heap, .fd = fd, .dev = found.st_dev, .ino = found.st_ino};
    if (heap->rest.heap && heap->rest.ino == file->ino && heap->rest.dev == file->dev) {
        file->written = heap->rest.written;
        file->safe = heap->rest.safe;
        drop_rest(heap);
    }
    keep_out(heap);
    struct block *block = block_of(file);
    if (block) file->backed = block->backed;
    let_in(heap);
}

/* Before these bytes of the file are written: makes the block's own what it stands behind. */
static void own_written(struct heap_file *file, uint64_t at, size_t len) {
    keep_out(file->heap);
    struct block *block = block_of(file);
    if (block) {
        volatile uint8_t *bytes = start_of(block);
        size_t end = least(pages_to(at + len), block->backed);
        /* A page that is written is the block's own, whatever it is written with. */
        for (size_t i = whole_pages(at); i < end; i += heap_blocks.page) bytes[i] = bytes[i];
        block->settled = least(block->settled, at);
        file->next = 0;
    }
    let_in(file->heap);
}

void heap_before_write(struct heap_file *file, uint64_t at, size_t len) {
    if (!file->heap || !len) return;
    if (file->written < at + len) file->written = at + len;
    if (file->safe > at) file->safe = at;
    if (at < file->backed) own_written(file, at, len);
    make_up(file, len);
}

int heap_before_cut(struct heap_file *file, uint64_t size) {
    if (!file->heap) return 0;
    if (file->written > size) file->written = size;
    if (file->safe > size) file->safe = size;
    if (size >= file->backed) return 0;
    keep_out(file->heap);
    struct block *block = block_of(file);
    int error = block ? own_from(block, whole_pages(size)) : 0;
    let_in(file->heap);
    return error;
}

void heap_synced(struct heap_file *file) {
    if (!file->heap) return;
    file->safe = file->written;
    if (file->safe >= file->next) back(file, false, MOST_STEPS);
}

void heap_catch_up(struct heap *heap, struct heap_file *file) {
    finish_rest(heap);
    if (file->heap) back(file, false, ALL_STEPS);
}

void heap_let_go(struct heap_file *file) {
    if (file->heap && file->heap->id && !back(file, true, MOST_STEPS)) keep_rest(file);
    else free(file->part);
    *file = (struct heap_file){0};
}

/* A block without a file that has these bytes. */
static struct block *find_copy(struct heap *heap, const uint8_t *bytes, size_t len) {
    struct block *block = blocks_next(heap, heap_blocks.all);
    while (block && (block->ino || block->size < len || memcmp(start_of(block), bytes, len)))
        block = blocks_next(heap, block + 1);
    return block;
}

/* Whether the mapping was taken, also where it then couldn't be put over the block. */
static bool put_over(const struct heap_file *file, uint8_t *mapped, size_t end) {
    struct block *block = find_copy(file->heap, mapped, end);
    if (!block || mprotect(mapped, end, BOTH)) return false;
    madvise(mapped, end, file->heap->at_random ? MADV_RANDOM : MADV_NORMAL);
    if (!move_over(mapped, end, start_of(block))) return true;
    blocks_say(block, block->size, end);
    block->settled = end;
    block->ino = file->ino;
    block->dev = file->dev;
    return true;
}

void heap_loaded(struct heap *heap, int fd, uint8_t *mapped, size_t len) {
    struct heap_file file;
    heap_take_up(&file, heap, fd);
    size_t end = file.heap && heap_blocks.arena ? whole_pages(len) : 0, taken = 0;
    keep_out(heap);
    if (end && put_over(&file, mapped, end)) taken = end;
    let_in(heap);
    if (taken < len) munmap(mapped + taken, len - taken);
}

/* ---- pages that can't be read again */

bool heap_lose_page(void *at) {
    if (!is_large(at)) return false;
    struct block *block = block_around(at);
    uint8_t *lost = (uint8_t *)((uintptr_t)at & ~(uintptr_t)(heap_blocks.page - 1));
    if (!block->slots || (size_t)(lost - start_of(block)) >= block->backed) return false;
    block->is_lost = true;
    return mmap(lost, heap_blocks.page, BOTH, MAP_FIXED | OWN, -1, 0) != MAP_FAILED;
}

bool heap_opening_lost(struct heap *heap) {
    if (!heap->id || heap->was_opened) return false;
    heap->was_opened = true;
    struct block *block = blocks_next(heap, heap_blocks.all);
    while (block && !block->is_lost) block = blocks_next(heap, block + 1);
    return block;
}

/* ---- copies of what may be on the disk alone */

/* Asks for the pages of these bytes that have a file behind them, where they are several. Who
 * copies is let in by the block's log. */
static void ask_for(const uint8_t *bytes, size_t len) {
    const struct block *block = block_around(bytes);
    uint8_t *start = start_of(block);
    size_t from = (size_t)(bytes - start), at = whole_pages(from);
    size_t end = least(pages_to(from + len), block->backed);
    if (end > at + heap_blocks.page) madvise(start + at, end - at, MADV_WILLNEED);
}

static void *copy_asked(void *to, const void *from, size_t len) {
    if (is_large(from)) ask_for(from, len);
    return memcpy(to, from, len);
}

static void *move_asked(void *to, const void *from, size_t len) {
    if (is_large(from)) ask_for(from, len);
    return memmove(to, from, len);
}

typedef void *copy_call(void *, const void *, size_t);
static _Atomic(copy_call *) copy = memcpy, move = memmove;

/* Counts the logs whose reads are expected at random. While there is one, all logs' copies are
 * asked for. */
static void count_random(int more) {
    static int count;
    pthread_mutex_lock(&heap_blocks.lock);
    count += more;
    atomic_store(&copy, count ? copy_asked : memcpy);
    atomic_store(&move, count ? move_asked : memmove);
    pthread_mutex_unlock(&heap_blocks.lock);
}

void *heap_copy(void *to, const void *from, size_t len) {
    return atomic_load_explicit(&copy, memory_order_relaxed)(to, from, len);
}

void *heap_move(void *to, const void *from, size_t len) {
    return atomic_load_explicit(&move, memory_order_relaxed)(to, from, len);
}

void heap_expect_reads(struct heap *heap, bool at_random) {
    if (!heap->id) return;
    int advice = at_random ? MADV_RANDOM : MADV_NORMAL;
    keep_out(heap);
    bool is_so = heap->at_random == at_random;
    count_random(at_random - heap->at_random);
    heap->at_random = at_random;
    struct block *block = is_so ? NULL : blocks_next(heap, heap_blocks.all);
    for (; block; block = blocks_next(heap, block + 1))
        if (block->backed) madvise(start_of(block), block->backed, advice);
    let_in(heap);
}
