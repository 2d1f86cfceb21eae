// Loaded before the C library: the writes of a log's note SPANS fail, the first $REFUSED of them, as if the disk were full.
// After each sync of the note its bytes are copied to the file $SYNCED, which is removed with the note: a crash may leave
// these bytes.
#define _GNU_SOURCE
#include <dlfcn.h>
#include <errno.h>
#include <limits.h>
#include <stdio.h>
#include <stdlib.h>
#include <string.h>
#include <unistd.h>

enum { NOTE_ROOM = 2048 };

static int left = -1;

static int ends_as_note(const char *path) {
    const char *name = strrchr(path, '/');
    return strcmp(name ? name + 1 : path, "SPANS") == 0;
}

static int is_note(int fd) {
    char link[40], path[PATH_MAX];
    snprintf(link, sizeof link, "/proc/self/fd/%d", fd);
    ssize_t len = readlink(link, path, sizeof path - 1);
    path[len > 0 ? len : 0] = 0;
    return ends_as_note(path);
}

static int refuses(int fd) {
    if (left < 0) left = getenv("REFUSED") ? atoi(getenv("REFUSED")) : 0;
    if (!left || !is_note(fd)) return 0;
    left--;
    errno = ENOSPC;
    return 1;
}

static void keep(int fd) {
    char bytes[NOTE_ROOM];
    const char *name = getenv("SYNCED");
    ssize_t len = pread(fd, bytes, sizeof bytes, 0);
    FILE *file = name && len >= 0 ? fopen(name, "w") : NULL;
    if (!file || fwrite(bytes, 1, (size_t)len, file) != (size_t)len || fclose(file)) _exit(99);
}

ssize_t pwrite(int fd, const void *bytes, size_t len, off_t at) {
    ssize_t (*real)(int, const void *, size_t, off_t) = (ssize_t (*)(int, const void *, size_t, off_t))dlsym(RTLD_NEXT, "pwrite");
    return refuses(fd) ? -1 : real(fd, bytes, len, at);
}

ssize_t pwrite64(int fd, const void *bytes, size_t len, off_t at) { return pwrite(fd, bytes, len, at); }

int fdatasync(int fd) {
    int (*real)(int) = (int (*)(int))dlsym(RTLD_NEXT, "fdatasync");
    int status = real(fd);
    if (!status && is_note(fd)) keep(fd);
    return status;
}

int fsync(int fd) {
    int (*real)(int) = (int (*)(int))dlsym(RTLD_NEXT, "fsync");
    int status = real(fd);
    if (!status && is_note(fd)) keep(fd);
    return status;
}

int unlink(const char *path) {
    int (*real)(const char *) = (int (*)(const char *))dlsym(RTLD_NEXT, "unlink");
    int status = real(path);
    if (!status && ends_as_note(path) && getenv("SYNCED")) real(getenv("SYNCED"));
    return status;
}
