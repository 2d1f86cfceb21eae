/* The lock of a log's folder: of its file LOCK, which other programs lock too, and of the folder itself, which stays
 * locked if LOCK is removed. */
#include "parts.h"

#include <errno.h>
#include <fcntl.h>
#include <stdio.h>
#include <sys/file.h>
#include <sys/stat.h>
#include <sys/sysmacros.h>
#include <unistd.h>

static bool is_same(int in, const char *name, int fd) {
    struct stat one, other;
    return !fstatat(in, name, &one, 0) && !fstat(fd, &other) && one.st_ino == other.st_ino && one.st_dev == other.st_dev;
}

/* How often, and after how many microseconds, a new LOCK is tried again: a process that can't open the folder may have
 * it for a moment. */
enum { TRIES = 100, PAUSE = 1000 };

/* The folder comes first, so that who can't lock that leaves LOCK alone; some file systems lock no folders. A pipe or a
 * device as LOCK isn't opened, since that could wait. */
int parts_lock(raftlog *log) {
    int in = log->root, error = 0;
    struct stat is;
    if (flock(in, LOCK_EX | LOCK_NB) && errno == EWOULDBLOCK) return EWOULDBLOCK;
    if (!fstatat(in, "LOCK", &is, 0) && !S_ISREG(is.st_mode) && !S_ISDIR(is.st_mode)) return EILSEQ;
    int fd = openat(in, "LOCK", O_RDWR | O_CREAT | O_CLOEXEC, 0666);
    if (fd < 0) return errno;
    if (flock(fd, LOCK_EX | LOCK_NB)) error = errno;
    if (error) return close(fd), error;
    if (log->held >= 0) close(log->held);
    log->held = fd;
    return 0;
}

/* If LOCK was removed, the lock of the next one is taken: EBUSY if another process has that. */
int parts_keep_lock(raftlog *log) {
    if (is_same(log->root, "LOCK", log->held)) return 0;
    int error = EWOULDBLOCK;
    for (int tries = TRIES; error == EWOULDBLOCK && tries; tries--) {
        if (tries < TRIES) usleep(PAUSE);
        parts_pause_forks();
        error = parts_lock(log);
        parts_resume_forks();
    }
    return error == EWOULDBLOCK ? EBUSY : error;
}

/* A child that was forked may have the file open: so the lock is given back, not only closed. */
void parts_unlock(raftlog *log) {
    if (log->root >= 0) flock(log->root, LOCK_UN);
    if (log->held < 0) return;
    flock(log->held, LOCK_UN);
    close(log->held);
}

/* The process that has a file locked, by the system's list of locks; 0: unknown. */
static int holder_of(int fd) {
    struct stat is;
    char line[200];
    int pid = 0, found = 0;
    unsigned long long ino;
    unsigned major_of, minor_of;
    FILE *locks = fopen("/proc/locks", "re");
    if (!locks) return 0;
    bool is_known = !fstat(fd, &is);
    while (is_known && !found && fgets(line, sizeof line, locks)) {
        if (sscanf(line, "%*d: FLOCK %*s %*s %d %x:%x:%llu", &pid, &major_of, &minor_of, &ino) != 4) continue;
        if (ino == is.st_ino && major_of == major(is.st_dev) && minor_of == minor(is.st_dev)) found = pid;
    }
    fclose(locks);
    return found;
}

static void name_of(int pid, char *name, size_t room) {
    char path[40];
    snprintf(path, sizeof path, "/proc/%d/comm", pid);
    FILE *file = fopen(path, "re");
    if (!file || !fgets(name, (int)room, file)) *name = 0;
    if (file) fclose(file);
    name[strcspn(name, "\n")] = 0;
}

void parts_tell_holder(const raftlog *log, char *text, size_t room) {
    int in = log->root, lock = openat(in, "LOCK", O_RDONLY | O_NONBLOCK | O_CLOEXEC);
    int pid = lock < 0 ? 0 : holder_of(lock);
    char name[40];
    if (!pid) pid = holder_of(in);
    if (lock >= 0) close(lock);
    if (pid == getpid()) {
        snprintf(text, room, "%s: this process has it open already", log->folder);
    } else if (pid > 0) {
        name_of(pid, name, sizeof name);
        snprintf(text, room, "%s: process %d has it open%s%s%s", log->folder, pid, *name ? " (" : "", name, *name ? ")" : "");
    } else {
        snprintf(text, room, "%s: another process has it open", log->folder);
    }
}
