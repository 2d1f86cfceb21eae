// Loaded before the C library: notes each call that changes a file below $RECORD_FOLDER in the file
// $RECORD, and fails the Nth call of a kind where $FAIL asks for it, as in FAIL=fdatasync:3:5.
// With FAIL=short:N:ERRNO the Nth pwrite writes half of its bytes, and the next one fails.
// With FAIL=opens:N:ERRNO, and so of each kind, the Nth call and each later one fail.
// With KILL=N the Nth of all these calls isn't carried out, or a pwrite by half, and the process is killed.
#define _GNU_SOURCE
#include <dlfcn.h>
#include <errno.h>
#include <fcntl.h>
#include <limits.h>
#include <signal.h>
#include <stdarg.h>
#include <stdio.h>
#include <stdlib.h>
#include <string.h>
#include <sys/stat.h>
#include <unistd.h>

enum { MAX_FILES = 1024 };

static char *paths[MAX_FILES];
static int out = -1;
static _Thread_local int is_noting;

#define REAL(name, type) ((type)dlsym(RTLD_NEXT, name))

static void say(const char *text) {
    ssize_t (*real)(int, const void *, size_t) = REAL("write", ssize_t (*)(int, const void *, size_t));
    if (out < 0) {
        const char *name = getenv("RECORD");
        if (!name)
            return;
        int (*open_real)(const char *, int, ...) = REAL("open", int (*)(const char *, int, ...));
        out = open_real(name, O_WRONLY | O_CREAT | O_APPEND | O_CLOEXEC, 0644);
    }
    is_noting = 1;
    if (real(out, text, strlen(text)) < 0)
        _exit(99);
    is_noting = 0;
}

// The path below the folder, or null.
static const char *below(const char *path) {
    const char *folder = getenv("RECORD_FOLDER");
    size_t len = folder ? strlen(folder) : 0;
    if (!folder || !path || strncmp(path, folder, len) != 0)
        return NULL;
    if (path[len] == 0)
        return ".";
    return path[len] == '/' ? path + len + 1 : NULL;
}

static const char *path_of(int fd) {
    return fd >= 0 && fd < MAX_FILES ? below(paths[fd]) : NULL;
}

static void note(const char *kind, const char *path, long at, const unsigned char *bytes, size_t len) {
    if (!path)
        return;
    char *text = malloc(strlen(kind) + strlen(path) + 2 * len + 64), *end = text;
    end += sprintf(end, "%s %s %ld ", kind, path, at);
    for (size_t i = 0; i < len; i++)
        end += sprintf(end, "%02x", bytes[i]);
    sprintf(end, "\n");
    say(text);
    free(text);
}

// Whether this call is the one that is to fail.
static int fails(const char *kind) {
    static int seen, is_short;
    const char *wanted = getenv("FAIL");
    char name[32];
    int number, code;
    if (!wanted || sscanf(wanted, "%31[^:]:%d:%d", name, &number, &code) != 3)
        return 0;
    int short_write = strcmp(name, "short") == 0 && strcmp(kind, "pwrite") == 0;
    size_t len = strlen(kind);
    int later = strncmp(name, kind, len) == 0 && strcmp(name + len, "s") == 0;
    if (strcmp(name, kind) != 0 && !short_write && !later)
        return 0;
    seen++;
    if (later && seen > number) {
        errno = code;
        return 1;
    }
    if (short_write && seen == number) {
        is_short = 1;
        return 2;
    }
    if (short_write ? is_short && seen == number + 1 : seen == number) {
        errno = code;
        return 1;
    }
    return 0;
}

// Whether this call is the one at which the process is to be killed.
static int is_last(void) {
    static int seen;
    const char *wanted = getenv("KILL");
    return wanted && ++seen == atoi(wanted);
}

static void die_if_last(void) {
    if (is_last())
        raise(SIGKILL);
}

static int remember(int fd, const char *path, int is_new) {
    if (fd >= 0 && fd < MAX_FILES) {
        char full[PATH_MAX];
        paths[fd] = realpath(path, full) ? strdup(full) : NULL;
        if (is_new)
            note("create", path_of(fd), 0, NULL, 0);
    }
    return fd;
}

int open(const char *path, int flags, ...) {
    va_list rest;
    va_start(rest, flags);
    int mode = flags & O_CREAT ? va_arg(rest, int) : 0;
    va_end(rest);
    if (flags & O_CREAT) {
        die_if_last();
        if (fails("open"))
            return -1;
    }
    int is_new = flags & O_CREAT && access(path, F_OK) != 0;
    int fd = REAL("open", int (*)(const char *, int, ...))(path, flags, mode);
    return remember(fd, path, is_new);
}

// The path of a name in a folder that is open.
static const char *path_at(int in, const char *name, char *full) {
    char link[64];
    if (in == AT_FDCWD || *name == '/')
        return name;
    sprintf(link, "/proc/self/fd/%d", in);
    ssize_t len = readlink(link, full, PATH_MAX - 1);
    full[len < 0 ? 0 : len] = 0;
    strncat(full, "/", PATH_MAX - strlen(full) - 1);
    strncat(full, name, PATH_MAX - strlen(full) - 1);
    return full;
}

int openat(int in, const char *name, int flags, ...) {
    char full[PATH_MAX];
    va_list rest;
    va_start(rest, flags);
    int mode = flags & O_CREAT ? va_arg(rest, int) : 0;
    va_end(rest);
    if (flags & O_CREAT) {
        die_if_last();
        if (fails("open"))
            return -1;
    }
    const char *path = path_at(in, name, full);
    int is_new = flags & O_CREAT && access(path, F_OK) != 0;
    int fd = REAL("openat", int (*)(int, const char *, int, ...))(in, name, flags, mode);
    return remember(fd, path, is_new);
}

// The path of a name that may not stand yet: below the folder, or null.
static const char *name_below(const char *path, char *full) {
    char folder[PATH_MAX];
    const char *slash = strrchr(path, '/');
    size_t len = slash ? (size_t)(slash - path) : 1;
    if (len >= sizeof folder)
        return NULL;
    memcpy(folder, slash ? path : ".", len);
    folder[len] = 0;
    if (!realpath(slash == path ? "/" : folder, full))
        return NULL;
    strncat(full, "/", PATH_MAX - strlen(full) - 1);
    strncat(full, slash ? slash + 1 : path, PATH_MAX - strlen(full) - 1);
    return below(full);
}

// What is open at the path is open at another one from now on, or has no name any more.
static void follow(const char *path, const char *to) {
    for (int fd = 0; fd < MAX_FILES; fd++)
        if (paths[fd] && strcmp(paths[fd], path) == 0)
            paths[fd] = to ? strdup(to) : NULL;
}

int unlink(const char *path) {
    die_if_last();
    if (fails("unlink"))
        return -1;
    char full[PATH_MAX];
    const char *name = name_below(path, full);
    int status = REAL("unlink", int (*)(const char *))(path);
    if (status == 0 && name) {
        note("unlink", name, 0, NULL, 0);
        follow(full, NULL);
    }
    return status;
}

int rename(const char *from, const char *to) {
    die_if_last();
    if (fails("rename"))
        return -1;
    char old[PATH_MAX], new[PATH_MAX];
    const char *name = name_below(from, old), *other = name_below(to, new);
    int status = REAL("rename", int (*)(const char *, const char *))(from, to);
    if (status == 0 && name && other && strcmp(old, new) != 0) {
        note("rename", name, 0, (const unsigned char *)other, strlen(other));
        follow(new, NULL);
        follow(old, new);
    }
    return status;
}

int unlinkat(int in, const char *name, int flags) {
    char full[PATH_MAX];
    if (!flags)
        return unlink(path_at(in, name, full));
    return REAL("unlinkat", int (*)(int, const char *, int))(in, name, flags);
}

int renameat(int in, const char *from, int other, const char *to) {
    char one[PATH_MAX], two[PATH_MAX];
    return rename(path_at(in, from, one), path_at(other, to, two));
}

int mkdirat(int in, const char *name, mode_t mode) {
    char full[PATH_MAX];
    return mkdir(path_at(in, name, full), mode);
}

int close(int fd) {
    if (fd >= 0 && fd < MAX_FILES)
        paths[fd] = NULL;
    return REAL("close", int (*)(int))(fd);
}

int mkdir(const char *path, mode_t mode) {
    die_if_last();
    if (fails("mkdir"))
        return -1;
    int status = REAL("mkdir", int (*)(const char *, mode_t))(path, mode);
    if (status == 0) {
        char full[PATH_MAX];
        note("mkdir", realpath(path, full) ? below(full) : NULL, 0, NULL, 0);
    }
    return status;
}

ssize_t pwrite(int fd, const void *bytes, size_t len, off_t at) {
    int how = fails("pwrite"), last = is_last();
    if (how == 1)
        return -1;
    if (how == 2 || last)
        len /= 2;
    ssize_t put = REAL("pwrite", ssize_t (*)(int, const void *, size_t, off_t))(fd, bytes, len, at);
    if (put > 0)
        note("write", path_of(fd), at, bytes, put);
    if (last)
        raise(SIGKILL);
    return put;
}

ssize_t write(int fd, const void *bytes, size_t len) {
    ssize_t put = REAL("write", ssize_t (*)(int, const void *, size_t))(fd, bytes, len);
    if (fd == 1 && put > 0 && !is_noting)
        note("say", ".", 0, bytes, put);
    return put;
}

int ftruncate(int fd, off_t size) {
    die_if_last();
    if (fails("ftruncate"))
        return -1;
    int status = REAL("ftruncate", int (*)(int, off_t))(fd, size);
    if (status == 0)
        note("truncate", path_of(fd), size, NULL, 0);
    return status;
}

int fsync(int fd) {
    die_if_last();
    if (fails("fsync"))
        return -1;
    int status = REAL("fsync", int (*)(int))(fd);
    if (status == 0)
        note("sync", path_of(fd), 0, NULL, 0);
    return status;
}

int fdatasync(int fd) {
    die_if_last();
    if (fails("fdatasync"))
        return -1;
    int status = REAL("fdatasync", int (*)(int))(fd);
    if (status == 0)
        note("sync", path_of(fd), 0, NULL, 0);
    return status;
}
