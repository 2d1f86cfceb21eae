/* heap.c against plain memory: `heap_test FOLDER [ROUNDS [SEED]]`. Blocks and the files behind
 * them are changed at random, the file first or the block first, in several logs of equal contents
 * at once; whatever is mapped and taken back, blocks and files read as they were written. */
#ifdef PRELOADED
#include "heap_plain.h"
enum { LOGS = 1 };
#else
#include "heap.h"
enum { LOGS = 3 };
#endif

#include <fcntl.h>
#include <stdio.h>
#include <stdlib.h>
#include <string.h>
#include <sys/mman.h>
#include <sys/resource.h>
#include <unistd.h>

enum { FILES = 6, MOST = 1 << 20, PATH_ROOM = 300 };

struct file {
    struct heap_file at;
    int fd;
    uint8_t *block, *model; /* of the block, its first `len` bytes as they have to be */
    size_t len, room;
    char path[PATH_ROOM];
};

/* A log, in a thread of its own. All have the same seed, so the same bytes. */
struct log {
    struct heap heap;
    pthread_mutex_t lock;
    struct file files[FILES];
    uint8_t bytes[1 << 17];
    uint8_t read[MOST];
    uint64_t state, rounds, made, checks;
    char folder[PATH_ROOM / 2];
};

static void stop(const char *why) {
    printf("WRONG: %s\n", why);
    fflush(stdout);
    _exit(1);
}

static void need(bool is_so, const char *why) {
    if (!is_so) stop(why);
}

static uint64_t below(struct log *log, uint64_t bound) {
    log->state ^= log->state << 13;
    log->state ^= log->state >> 7;
    log->state ^= log->state << 17;
    return bound ? log->state % bound : 0;
}

/* ---- what both a block and its file go through */

static void look(struct log *log, struct file *file) {
    log->checks++;
    need(!memcmp(file->block, file->model, file->len), "a block reads otherwise");
}

static void open_it(struct log *log, struct file *file) {
    file->fd = open(file->path, O_RDWR | O_CREAT, 0600);
    need(file->fd >= 0, "a file can't be opened");
    heap_take_up(&file->at, &log->heap, file->fd);
}

static void close_it(struct file *file) {
    heap_let_go(&file->at);
    close(file->fd);
}

static void begin(struct log *log, struct file *file) {
    snprintf(file->path, PATH_ROOM, "%s/%lu", log->folder, (unsigned long)log->made++);
    file->len = 0;
    file->room = 100;
    file->block = heap_alloc(file->room);
    if (!file->model) file->model = malloc(MOST);
    open_it(log, file);
}

/* As a Vec grows. */
static void make_room(struct file *file, size_t end) {
    if (end <= file->room) return;
    size_t room = file->room * 2 > end ? file->room * 2 : end;
    file->block = heap_realloc(file->block, file->room, room);
    file->room = room;
}

static void lengthen_block(struct file *file, size_t end) {
    if (end <= file->len) return;
    make_room(file, end);
    memset(file->block + file->len, 0, end - file->len);
    memset(file->model + file->len, 0, end - file->len);
    file->len = end;
}

static void write_block(struct log *log, struct file *file, size_t at, size_t len) {
    lengthen_block(file, at + len);
    memcpy(file->block + at, log->bytes, len);
    memcpy(file->model + at, log->bytes, len);
}

static void write_file(struct log *log, struct file *file, size_t at, size_t len) {
    heap_before_write(&file->at, at, len);
    look(log, file);
    need(pwrite(file->fd, log->bytes, len, (off_t)at) == (ssize_t)len, "pwrite");
    look(log, file);
}

static void cut_file(struct log *log, struct file *file, size_t len) {
    need(!heap_before_cut(&file->at, len), "a cut is refused");
    look(log, file);
    need(!ftruncate(file->fd, (off_t)len), "ftruncate");
    look(log, file);
}

static size_t some_bytes(struct log *log, size_t most) {
    size_t len = 1 + below(log, most);
    for (size_t i = 0; i < len; i++) log->bytes[i] = (uint8_t)below(log, 256);
    return len;
}

/* ---- the changes that are made */

static void write_some(struct log *log, struct file *file) {
    size_t len = some_bytes(log, below(log, 3) ? 300 : sizeof log->bytes - 1);
    size_t at = below(log, 4) ? file->len : below(log, file->len + 1);
    if (at + len > MOST) return;
    bool is_file_first = below(log, 2);
    if (is_file_first) write_file(log, file, at, len);
    write_block(log, file, at, len);
    if (!is_file_first) write_file(log, file, at, len);
}

static void shrink(struct log *log, struct file *file) {
    (void)log;
    size_t room = file->len ? file->len : 1;
    file->block = heap_realloc(file->block, file->room, room);
    file->room = room;
}

/* The block is ahead of its file by several changes, as while orders are carried out. */
static void write_behind(struct log *log, struct file *file) {
    size_t cut = below(log, file->len + 1), len = some_bytes(log, 60000);
    size_t second = 1 + below(log, len), at = below(log, cut + len - second + 1);
    if (cut + len > MOST) return;
    file->len = cut;
    if (below(log, 2)) shrink(log, file);
    write_block(log, file, cut, len);
    write_block(log, file, at, second);
    cut_file(log, file, cut);
    write_file(log, file, cut, len);
    if (below(log, 2)) heap_synced(&file->at);
    look(log, file);
    write_file(log, file, at, second);
}

static void cut(struct log *log, struct file *file) {
    bool is_little = below(log, 3) && file->len >= 5000;
    size_t len = is_little ? file->len - below(log, 5000) : below(log, file->len + 1);
    if (below(log, 2)) cut_file(log, file, len);
    file->len = len;
    cut_file(log, file, len);
}

/* As room is reserved ahead. */
static void lengthen(struct log *log, struct file *file) {
    size_t len = file->len + below(log, 100000);
    if (len > MOST) return;
    bool is_file_first = below(log, 2);
    if (is_file_first) need(!ftruncate(file->fd, (off_t)len), "ftruncate");
    look(log, file);
    lengthen_block(file, len);
    if (!is_file_first) need(!ftruncate(file->fd, (off_t)len), "ftruncate");
}

static void sync_it(struct log *log, struct file *file) {
    (void)log;
    heap_synced(&file->at);
}

static void catch_up(struct log *log, struct file *file) {
    heap_catch_up(&log->heap, &file->at);
}

static void take_pages_back(struct log *log, struct file *file) {
    (void)file;
    if (!below(log, 4)) heap_page_out();
}

/* Another file is changed meanwhile. */
static void let_go(struct log *log, struct file *file) {
    close_it(file);
    look(log, file);
    open_it(log, file);
}

static void load_file(struct heap *heap, int fd, size_t len) {
    uint8_t *mapped = len ? mmap(NULL, len, PROT_READ, MAP_PRIVATE, fd, 0) : MAP_FAILED;
    if (mapped != MAP_FAILED) heap_loaded(heap, fd, mapped, len);
}

/* The block is made anew, as an opening makes it, and the file has another name. */
static void load_anew(struct log *log, struct file *file) {
    char path[PATH_ROOM];
    if (below(log, 3)) return;
    close_it(file);
    size_t room = file->len + 1;
    uint8_t *block = heap_alloc(room);
    memcpy(block, file->block, file->len);
    heap_free(file->block);
    file->block = block;
    file->room = room;
    snprintf(path, PATH_ROOM, "%s/%lu", log->folder, (unsigned long)log->made++);
    need(!rename(file->path, path), "rename");
    memcpy(file->path, path, PATH_ROOM);
    int fd = open(path, O_RDONLY);
    load_file(&log->heap, fd, file->len);
    close(fd);
    open_it(log, file);
}

/* Another block takes the place of a file's while the file is written still. */
static void replace(struct log *log, struct file *file) {
    if (below(log, 8)) return;
    struct file gone = *file;
    heap_free(file->block);
    begin(log, file);
    size_t len = some_bytes(log, sizeof log->bytes - 1);
    write_block(log, file, 0, len);
    if (below(log, 2)) need(pwrite(gone.fd, log->read, 9999, 0) == 9999, "pwrite");
    look(log, file);
    unlink(gone.path);
    heap_let_go(&gone.at);
    close(gone.fd);
    write_file(log, file, 0, len);
}

static void look_at_files(struct log *log, struct file *file) {
    (void)file;
    for (struct file *it = log->files; it < log->files + FILES; it++) {
        look(log, it);
        bool is_whole = pread(it->fd, log->read, MOST, 0) == (ssize_t)it->len;
        need(is_whole && !memcmp(log->read, it->model, it->len), "a file reads otherwise");
    }
}

static const struct {
    uint64_t weight;
    void (*make)(struct log *, struct file *);
} changes[] = {
    {6, write_some}, {2, write_behind},    {1, cut},           {1, lengthen},
    {3, sync_it},    {1, let_go},          {1, shrink},        {1, load_anew},
    {1, replace},    {1, take_pages_back}, {1, look_at_files}, {1, catch_up},
};

static void change(struct log *log) {
    struct file *file = &log->files[below(log, FILES)];
    uint64_t weights = 0, i = 0;
    for (size_t n = 0; n < sizeof changes / sizeof *changes; n++) weights += changes[n].weight;
    for (uint64_t at = below(log, weights); at >= changes[i].weight; i++) at -= changes[i].weight;
    changes[i].make(log, file);
    look(log, file);
}

static void *run(void *with) {
    struct log *log = with;
    heap_begin(&log->heap, &log->lock);
    for (int i = 0; i < FILES; i++) begin(log, &log->files[i]);
    heap_enter(&log->heap);
    for (uint64_t i = 0; i < log->rounds; i++) change(log);
    look_at_files(log, NULL);
    heap_leave();
    return NULL;
}

#ifndef PRELOADED
/* A file isn't put behind a block of another log, nor of none, that has its bytes. */
static void stay_apart(const char *folder) {
    struct heap heaps[3] = {0};
    size_t count, all, before, backed;
    char path[PATH_ROOM];
    snprintf(path, PATH_ROOM, "%s/apart", folder);
    int fd = open(path, O_RDWR | O_CREAT, 0600);
    uint8_t *block[3];
    for (int i = 2; i >= 0; i--) {
        if (i < 2) heap_begin(&heaps[i], NULL);
        heap_enter(&heaps[i]);
        block[i] = heap_alloc(MOST);
        heap_leave();
        memset(block[i], 7, MOST);
    }
    need(pwrite(fd, block[0], MOST, 0) == MOST, "pwrite");
    heap_stat(&count, &all, &before);
    load_file(&heaps[2], fd, MOST);
    heap_stat(&count, &all, &backed);
    need(backed == before, "a block of no log has a file behind it");
    heap_free(block[0]);
    load_file(&heaps[0], fd, MOST);
    heap_stat(&count, &all, &backed);
    need(backed == before, "a block of another log has a file behind it");
    load_file(&heaps[1], fd, MOST);
    heap_stat(&count, &all, &backed);
    need(backed == before + MOST, "a block has no file behind it");
    close(fd);
}

static long major_faults(void) {
    struct rusage usage;
    need(!getrusage(RUSAGE_SELF, &usage), "getrusage");
    return usage.ru_majflt;
}

/* How many reads of the disk copies of five pages each wait for, after all were taken back. */
static long cold_copies(const uint8_t *block, void *copy(void *, const void *, size_t)) {
    static uint8_t bytes[4 * 4096];
    long before = major_faults();
    heap_page_out();
    for (size_t at = 100; at + sizeof bytes < MOST; at += 3 * sizeof bytes) {
        copy(bytes, block + at, sizeof bytes);
        for (size_t i = 0; i < sizeof bytes; i++)
            need(bytes[i] == (uint8_t)((at + i) / 99), "a copy reads otherwise");
    }
    return major_faults() - before;
}

/* Where reads are expected at random, a cold copy of several pages is one read of the disk. On a file
 * system in memory none is. */
static void copy_cold_bytes(const char *folder) {
    struct heap heap;
    char path[PATH_ROOM];
    snprintf(path, PATH_ROOM, "%s/cold", folder);
    int fd = open(path, O_RDWR | O_CREAT, 0600);
    heap_begin(&heap, NULL);
    heap_enter(&heap);
    uint8_t *block = heap_alloc(MOST);
    heap_leave();
    for (size_t i = 0; i < MOST; i++) block[i] = (uint8_t)(i / 99);
    need(pwrite(fd, block, MOST, 0) == MOST && !fsync(fd), "pwrite");
    load_file(&heap, fd, MOST);
    close(fd);
    heap_expect_reads(&heap, true);
    long plain = cold_copies(block, memmove), asked = cold_copies(block, heap_copy);
    printf("cold copies: %ld reads, plain %ld; ", asked, plain);
    need(2 * asked <= plain, "a cold copy is read by pages");
    heap_free(block);
    heap_end(&heap);
}

/* What only a program that has the heap in it can ask of it. */
static void look_at_heap(const char *folder) {
    size_t count, bytes, backed;
    heap_stat(&count, &bytes, &backed);
    need(backed > 0, "no block has a file behind it");
    printf("%zu large blocks of %zu KB, %zu KB have a file behind them; ", count, bytes >> 10,
           backed >> 10);
    stay_apart(folder);
    copy_cold_bytes(folder);
}
#else
static void look_at_heap(const char *folder) { (void)folder; }
#endif

int main(int argc, char **argv) {
    static struct log logs[LOGS];
    pthread_t threads[LOGS];
    if (argc < 2) return 2;
    uint64_t rounds = argc > 2 ? strtoull(argv[2], NULL, 10) : 5000;
    uint64_t seed = argc > 3 ? strtoull(argv[3], NULL, 10) : 1;
    for (int i = 0; i < LOGS; i++) {
        struct log *log = &logs[i];
        log->rounds = rounds;
        log->state = seed * 2654435761u + 1;
        snprintf(log->folder, sizeof log->folder, "%s-%d", argv[1], i);
        char command[PATH_ROOM * 2];
        snprintf(command, sizeof command, "rm -rf '%s' && mkdir -p '%s'", log->folder,
                 log->folder);
        need(!system(command), "no folder can be made");
        pthread_mutex_init(&log->lock, NULL);
        need(!pthread_create(&threads[i], NULL, run, log), "pthread_create");
    }
    uint64_t checks = 0;
    for (int i = 0; i < LOGS; i++) {
        pthread_join(threads[i], NULL);
        checks += logs[i].checks;
    }
    look_at_heap(logs[0].folder);
    printf("ok, %lu looks\n", (unsigned long)checks);
    return 0;
}
