/* faults.h */
#include "faults.h"

#include <errno.h>
#include <limits.h>
#include <pthread.h>
#include <signal.h>
#include <stdio.h>
#include <string.h>
#include <sys/sendfile.h>
#include <sys/stat.h>
#include <sys/syscall.h>
#include <sys/types.h>
#include <unistd.h>

atomic_int faults_left, faults_orders_left, faults_notes, faults_syncs;
int faults_error = EIO;
bool faults_kill, faults_of_note;

static _Thread_local bool was_note;
static pthread_mutex_t lock = PTHREAD_MUTEX_INITIALIZER;
static pthread_cond_t moved = PTHREAD_COND_INITIALIZER;

/* Calls of a kind wait while it is shut. */
struct gate {
    bool is_shut;
    int waiting;
};
static struct gate syncs, orders;

static void hold(struct gate *gate, bool holds) {
    pthread_mutex_lock(&lock);
    gate->is_shut = holds;
    pthread_cond_broadcast(&moved);
    pthread_mutex_unlock(&lock);
}

static void await(const struct gate *gate) {
    pthread_mutex_lock(&lock);
    while (!gate->waiting) pthread_cond_wait(&moved, &lock);
    pthread_mutex_unlock(&lock);
}

static void pass(struct gate *gate) {
    pthread_mutex_lock(&lock);
    gate->waiting++;
    pthread_cond_broadcast(&moved);
    while (gate->is_shut) pthread_cond_wait(&moved, &lock);
    gate->waiting--;
    pthread_mutex_unlock(&lock);
}

static int fails_at(atomic_int *turn) {
    int left = atomic_load(turn);
    while (left && !atomic_compare_exchange_weak(turn, &left, left - 1)) {}
    if (left != 1) return 0;
    if (faults_kill) kill(getpid(), SIGKILL);
    errno = faults_error;
    return 1;
}

static bool ends_as_note(const char *path) {
    const char *slash = strrchr(path, '/');
    return !strcmp(slash ? slash + 1 : path, "SPANS");
}

static bool is_note(int fd) {
    char link[40], path[PATH_MAX];
    snprintf(link, sizeof link, "/proc/self/fd/%d", fd);
    ssize_t len = readlink(link, path, sizeof path - 1);
    path[len > 0 ? len : 0] = 0;
    return ends_as_note(path);
}

static bool is_folder(int fd) {
    struct stat is;
    return !fstat(fd, &is) && S_ISDIR(is.st_mode);
}

/* A file call by a descriptor, or of a name. */
static int fails_of(bool of_note) {
    int fails = fails_at(&faults_left);
    if (fails) faults_of_note = of_note;
    was_note = of_note;
    return fails;
}

/* The system doesn't interrupt a call on a name. */
static int fails_name(bool of_note) { return faults_error != EINTR && fails_of(of_note); }

/* After a refused call on the note the next sync of the folder is a log file's. */
static bool refuses_note(void) {
    int left = atomic_load(&faults_notes);
    while (left && !atomic_compare_exchange_weak(&faults_notes, &left, left - 1)) {}
    if (!left) return false;
    was_note = false;
    errno = faults_error;
    return true;
}

/* A sync of the folder right after a call on the note is the note's. */
static int fails(int fd) {
    bool of_file = is_note(fd);
    if (fails_of(of_file || (was_note && is_folder(fd)))) return 1;
    return of_file && refuses_note();
}

void faults_hold_syncs(bool holds) { hold(&syncs, holds); }
void faults_await_sync(void) { await(&syncs); }
void faults_hold_orders(bool holds) { hold(&orders, holds); }
void faults_await_order(void) { await(&orders); }

int faults_thread(void) { return (int)syscall(SYS_gettid); }

/* Whether a thread sleeps, as one does that waits for another. */
static bool sleeps(int thread) {
    char path[60], state = 0;
    snprintf(path, sizeof path, "/proc/self/task/%d/stat", thread);
    FILE *stat = fopen(path, "r");
    bool is_read = stat && fscanf(stat, "%*d (%*[^)]) %c", &state) == 1;
    if (stat) fclose(stat);
    return is_read && state == 'S';
}

bool faults_await_thread(atomic_int *thread, atomic_bool *has_ended) {
    enum { PAUSE = 1000, PATIENCE = 30000 };
    int asleep = 0;
    for (int left = PATIENCE; asleep < 3 && !atomic_load(has_ended); left--) {
        if (!left) return false;
        int number = atomic_load(thread);
        asleep = number && sleeps(number) ? asleep + 1 : 0;
        usleep(PAUSE);
    }
    return true;
}

ssize_t __real_pwrite(int fd, const void *bytes, size_t len, off_t at);
ssize_t __wrap_pwrite(int fd, const void *bytes, size_t len, off_t at) {
    if (!fails(fd)) return __real_pwrite(fd, bytes, len, at);
    if (__real_pwrite(fd, bytes, len / 2, at) < 0) return -1;
    errno = faults_error;
    return -1;
}

ssize_t __real_parts_give(int to, const void *order, size_t len);
ssize_t __wrap_parts_give(int to, const void *order, size_t len) {
    pass(&orders);
    return fails_at(&faults_orders_left) ? -1 : __real_parts_give(to, order, len);
}

int __real_fdatasync(int fd);
int __wrap_fdatasync(int fd) {
    pass(&syncs);
    if (fails(fd) || __real_fdatasync(fd)) return -1;
    atomic_fetch_add(&faults_syncs, 1);
    return 0;
}

int __real_ftruncate(int fd, off_t len);
int __wrap_ftruncate(int fd, off_t len) { return fails(fd) ? -1 : __real_ftruncate(fd, len); }
int __real_fsync(int fd);
int __wrap_fsync(int fd) { return fails(fd) ? -1 : __real_fsync(fd); }
int __real_unlinkat(int in, const char *name, int flags);
int __wrap_unlinkat(int in, const char *name, int flags) {
    return fails_name(ends_as_note(name)) ? -1 : __real_unlinkat(in, name, flags);
}
int __real_renameat(int in, const char *from, int other, const char *to);
int __wrap_renameat(int in, const char *from, int other, const char *to) {
    return fails_name(false) ? -1 : __real_renameat(in, from, other, to);
}
int __real_mkdirat(int in, const char *name, mode_t mode);
int __wrap_mkdirat(int in, const char *name, mode_t mode) {
    return fails_name(false) ? -1 : __real_mkdirat(in, name, mode);
}
ssize_t __real_sendfile(int to, int from, off_t *at, size_t len);
ssize_t __wrap_sendfile(int to, int from, off_t *at, size_t len) {
    return fails_of(false) ? -1 : __real_sendfile(to, from, at, len);
}
int __real_mkdir(const char *path, mode_t mode);
int __wrap_mkdir(const char *path, mode_t mode) { return fails_name(false) ? -1 : __real_mkdir(path, mode); }
