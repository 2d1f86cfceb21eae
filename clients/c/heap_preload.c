/* clients/c/heap.c and blocks.c for a program in Rattle that keeps a log in a folder; tools/heap uses it.
 *
 *   LD_PRELOAD=./heap.so PROGRAM
 *   HEAP_TOLD=1          says at the end how much had files behind it
 *   HEAP_TAKE_BACK=3     takes all such pages back each so many milliseconds
 *
 * It sees the program's calls of the C library: memory, and changes of files. A file that was
 * synced is put behind its block in steps, and when it is closed. So is one that was read under a
 * shared lock, which is held then until the program ends, for a writer would change what is
 * mapped. Once a second log is open at the same time, no more files are put behind blocks. */
#include "heap.h"

#include <errno.h>
#include <malloc.h>
#include <stdio.h>
#include <stdlib.h>
#include <sys/file.h>
#include <sys/mman.h>
#include <sys/stat.h>
#include <sys/syscall.h>
#include <time.h>
#include <unistd.h>

enum { FILES = 64, LOCKS = 16 };

static pthread_mutex_t lock = PTHREAD_MUTEX_INITIALIZER;
static struct heap heap;
static struct heap_file files[FILES];
static size_t next_file;
static int write_locks[LOCKS]; /* descriptors, each with one added */
static bool is_look;           /* a shared lock is held */
static bool is_off;            /* nothing more is put behind a block */

/* ---- memory */

void *malloc(size_t size) { return heap_alloc(size); }

void *realloc(void *at, size_t size) {
    size_t old = at ? heap_size(at) : 0;
    return heap_realloc(at, at && !old ? malloc_usable_size(at) : old, size);
}

void free(void *at) { heap_free(at); }

/* ---- files */

/* The heap's own, which is no call of the program's. */
int heap_close(int fd) { return (int)syscall(SYS_close, fd); }

/* What is known of the file, with this descriptor for it; NULL: nothing, or it is no file. */
static struct heap_file *known(int fd) {
    struct stat found;
    if (!heap.id || fstat(fd, &found) || !S_ISREG(found.st_mode)) return NULL;
    for (struct heap_file *file = files; file < files + FILES; file++) {
        if (!file->heap || file->ino != found.st_ino || file->dev != found.st_dev) continue;
        file->fd = fd;
        return file;
    }
    return NULL;
}

static struct heap_file *taken_up(int fd) {
    struct heap_file *file = known(fd);
    if (file) return file;
    file = &files[next_file++ % FILES];
    /* Its descriptor may be another file's by now, so it isn't put behind its block. */
    file->safe = 0;
    heap_let_go(file);
    heap_take_up(file, &heap, fd);
    return file;
}

static void before_write(int fd, uint64_t at, size_t len) {
    pthread_mutex_lock(&lock);
    heap_before_write(taken_up(fd), at, len);
    pthread_mutex_unlock(&lock);
}

ssize_t pwrite(int fd, const void *bytes, size_t len, off_t at) {
    before_write(fd, (uint64_t)at, len);
    return syscall(SYS_pwrite64, fd, bytes, len, at);
}

ssize_t pwrite64(int fd, const void *bytes, size_t len, off_t at) __attribute__((alias("pwrite")));

int ftruncate(int fd, off_t size) {
    pthread_mutex_lock(&lock);
    int error = heap_before_cut(taken_up(fd), (uint64_t)size);
    pthread_mutex_unlock(&lock);
    if (!error) return (int)syscall(SYS_ftruncate, fd, size);
    errno = error;
    return -1;
}

int ftruncate64(int fd, off_t size) __attribute__((alias("ftruncate")));

/* A file that is synced and wasn't written is read by an opening, which closes it then. */
static void note_sync(int fd) {
    struct stat found;
    pthread_mutex_lock(&lock);
    struct heap_file *file = taken_up(fd);
    if (!file->written && !fstat(fd, &found)) {
        file->written = file->safe = (uint64_t)found.st_size;
    } else if (!is_off) {
        heap_synced(file);
    }
    pthread_mutex_unlock(&lock);
}

int fdatasync(int fd) {
    int status = (int)syscall(SYS_fdatasync, fd);
    if (!status) note_sync(fd);
    return status;
}

int fsync(int fd) {
    int status = (int)syscall(SYS_fsync, fd);
    if (!status) note_sync(fd);
    return status;
}

/* Puts a file that a look has read behind its block. */
static void load(int fd, size_t len) {
    uint8_t *mapped = len ? mmap(NULL, len, PROT_READ, MAP_PRIVATE, fd, 0) : MAP_FAILED;
    if (mapped != MAP_FAILED) heap_loaded(&heap, fd, mapped, len);
}

static void let_go(int fd) {
    struct stat found;
    struct heap_file *file = known(fd);
    if (file) {
        if (is_off) file->safe = 0;
        heap_let_go(file);
    } else if (is_look && !is_off && !fstat(fd, &found) && !syscall(SYS_fsync, fd)) {
        load(fd, (size_t)found.st_size);
    }
}

int close(int fd) {
    pthread_mutex_lock(&lock);
    let_go(fd);
    for (int i = 0; i < LOCKS; i++)
        if (write_locks[i] == fd + 1) write_locks[i] = 0;
    pthread_mutex_unlock(&lock);
    return (int)syscall(SYS_close, fd);
}

/* ---- locks, by which logs are told apart */

static void turn_off(void) {
    is_off = true;
    for (struct heap_file *file = files; file < files + FILES; file++) file->safe = 0;
}

static void note_write_lock(int fd) {
    int place = -1, held = is_look;
    for (int i = 0; i < LOCKS; i++) {
        if (write_locks[i]) held++;
        else place = i;
    }
    if (place >= 0) write_locks[place] = fd + 1;
    if (held) turn_off();
}

int flock(int fd, int operation) {
    int status = (int)syscall(SYS_flock, fd, operation);
    if (status) return status;
    pthread_mutex_lock(&lock);
    if (operation & LOCK_EX) note_write_lock(fd);
    /* The lock is the copy's too, and outlives the program's own descriptor. */
    if (operation & LOCK_SH) is_look = dup(fd) >= 0;
    pthread_mutex_unlock(&lock);
    return status;
}

/* ---- the program's beginning and end */

static long pause_ms;

static void *take_back(void *with) {
    struct timespec pause = {pause_ms / 1000, pause_ms % 1000 * 1000000};
    while (!nanosleep(&pause, NULL)) heap_page_out();
    return with;
}

__attribute__((constructor)) static void begin(void) {
    const char *text = getenv("HEAP_TAKE_BACK");
    pthread_t thread;
    heap_begin(&heap, NULL);
    heap_own_all(&heap);
    if (text && (pause_ms = atol(text)) > 0) pthread_create(&thread, NULL, take_back, NULL);
}

__attribute__((destructor)) static void tell(void) {
    size_t blocks, bytes, backed;
    if (!getenv("HEAP_TOLD")) return;
    heap_stat(&blocks, &bytes, &backed);
    fprintf(stderr, "heap: %zu large blocks of %zu KB, %zu KB have a file behind them\n", blocks,
            bytes >> 10, backed >> 10);
}
