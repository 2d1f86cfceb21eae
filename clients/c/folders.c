/* The folders of a log, which are held open: each path begins at a descriptor of one. So a log goes on in its own folder
 * if the folder is moved, if another one takes its path, or if the program changes its working directory. */
#include "parts.h"

#include <errno.h>
#include <fcntl.h>
#include <stdio.h>
#include <stdlib.h>
#include <sys/sendfile.h>
#include <sys/stat.h>
#include <unistd.h>

char *parts_joined(const char *folder, const char *name) {
    size_t len = strlen(folder) + strlen(name) + 2;
    char *path = malloc(len);
    if (path) snprintf(path, len, *name ? "%s/%s" : "%s", folder, name);
    return path;
}

/* ---- the log's own folder, before it is held */

static int sync_path(const char *path) {
    int fd = open(path, O_RDONLY | O_CLOEXEC);
    if (fd < 0) return errno;
    int error = TEMP_FAILURE_RETRY(fsync(fd)) ? errno : 0;
    close(fd);
    return error;
}

/* The name at the path survives a crash. */
int parts_sync_name(const char *path) {
    char *parent = strdup(path);
    if (!parent) return ENOMEM;
    size_t len = strlen(parent);
    while (len > 1 && parent[len - 1] == '/') parent[--len] = 0;
    char *slash = strrchr(parent, '/');
    if (!slash) strcpy(parent, len ? "." : "/");
    else slash[slash == parent] = 0;
    int error = sync_path(parent);
    free(parent);
    return error;
}

/* Makes a folder with those on the way to it, and syncs the parent of each that it made. */
int parts_make_folders(const char *path) {
    char *place = strdup(path);
    if (!place) return ENOMEM;
    int error = 0;
    for (size_t end = 1, len = strlen(place); !error && end <= len; end++) {
        if (place[end] != '/' && place[end] != 0) continue;
        char was = place[end];
        struct stat found;
        place[end] = 0;
        if (!stat(place, &found)) error = S_ISDIR(found.st_mode) ? 0 : ENOTDIR;
        else if (errno != ENOENT) error = errno;
        else if (!mkdir(place, 0777)) error = parts_sync_name(place);
        else if (errno != EEXIST) error = errno;
        place[end] = was;
    }
    free(place);
    return error;
}

/* ---- folders that are held */

int parts_hold(raftlog *log, const char *path, size_t len, int fd) {
    if (log->folder_count == log->folder_room) {
        size_t room = log->folder_room ? 2 * log->folder_room : 4;
        struct parts_folder *folders = realloc(log->folders, room * sizeof *folders);
        if (!folders) return close(fd), ENOMEM;
        log->folders = folders;
        log->folder_room = room;
    }
    char *own = strndup(path, len);
    if (!own) return close(fd), ENOMEM;
    log->folders[log->folder_count++] = (struct parts_folder){own, fd};
    return 0;
}

void parts_let_folders_go(raftlog *log) {
    for (size_t i = 0; i < log->folder_count; i++) {
        if (log->folders[i].fd >= 0) close(log->folders[i].fd);
        free(log->folders[i].path);
    }
    free(log->folders);
}

static struct parts_folder *held_folder(raftlog *log, const char *path, size_t len) {
    for (size_t i = 0; i < log->folder_count; i++) {
        struct parts_folder *folder = &log->folders[i];
        if (!strncmp(folder->path, path, len) && !folder->path[len]) return folder;
    }
    return NULL;
}

/* ELOOP for a link, of which the system says only that it is no folder. */
static int why_not_opened(int in, const char *name, int error) {
    struct stat found;
    bool is_link = !fstatat(in, name, &found, AT_SYMLINK_NOFOLLOW) && S_ISLNK(found.st_mode);
    return is_link ? ELOOP : error;
}

int parts_folder_of(raftlog *log, const char *path, const char **name) {
    const char *slash = strrchr(path, '/'), *last;
    size_t len = slash ? (size_t)(slash - path) : 0;
    *name = slash ? slash + 1 : path;
    struct parts_folder *folder = held_folder(log, path, len);
    if (folder) return folder->fd;
    char above[PARTS_PATH_ROOM];
    if (len >= sizeof above) return errno = ENAMETOOLONG, -1;
    memcpy(above, path, len);
    above[len] = 0;
    int in = parts_folder_of(log, above, &last);
    if (in < 0) return -1;
    int fd = TEMP_FAILURE_RETRY(openat(in, last, O_RDONLY | O_DIRECTORY | O_NOFOLLOW | O_CLOEXEC));
    if (fd < 0) return errno = why_not_opened(in, last, errno), -1;
    int error = parts_hold(log, path, len, fd);
    return error ? errno = error, -1 : fd;
}

/* ---- names in them */

static int sync_fd(int fd) { return TEMP_FAILURE_RETRY(fsync(fd)) ? errno : 0; }

int parts_make_below(raftlog *log, const char *path) {
    int error = 0;
    for (size_t end = 1, len = strlen(path); !error && end <= len; end++) {
        if (path[end] != '/' && path[end] != 0) continue;
        char place[PARTS_PATH_ROOM + 1];
        const char *name;
        memcpy(place, path, end);
        place[end] = 0;
        int in = parts_folder_of(log, place, &name);
        if (in < 0) return errno;
        if (!mkdirat(in, name, 0777)) error = sync_fd(in);
        else if (errno != EEXIST) error = errno;
        memcpy(place + end, "/", 2);
        if (!error && parts_folder_of(log, place, &name) < 0) error = errno;
    }
    return error;
}

bool parts_has_name(int in, const char *name) {
    struct stat found;
    return !fstatat(in, name, &found, AT_SYMLINK_NOFOLLOW);
}

/* Whether a file can get this name: there is none, or a plain file, which was read. */
static int look_at(int in, const char *name) {
    struct stat found;
    if (fstatat(in, name, &found, AT_SYMLINK_NOFOLLOW)) return errno == ENOENT ? 0 : errno;
    return S_ISREG(found.st_mode) && found.st_nlink == 1 ? 0 : EEXIST;
}

int parts_make_file(int in, const char *name) {
    int error = look_at(in, name);
    if (error) return error;
    int fd = TEMP_FAILURE_RETRY(openat(in, name, O_RDWR | O_CREAT | O_NOFOLLOW | O_CLOEXEC, 0666));
    if (fd < 0) return errno;
    close(fd);
    return sync_fd(in);
}

int parts_delete_file(int in, const char *name) { return unlinkat(in, name, 0) ? errno : sync_fd(in); }

static int copy_bytes(int from, int to) {
    for (;;) {
        ssize_t moved = sendfile(to, from, NULL, 1 << 24);
        if (moved < 0 && errno != EINTR) return errno;
        if (!moved) return sync_fd(to);
    }
}

/* Copies a file to one of the second name, which is new, and syncs it. */
static int copy_file(int in, const char *name, int other, const char *copy) {
    int from = TEMP_FAILURE_RETRY(openat(in, name, O_RDONLY | O_NOFOLLOW | O_CLOEXEC));
    if (from < 0) return errno;
    int to = TEMP_FAILURE_RETRY(openat(other, copy, O_WRONLY | O_CREAT | O_TRUNC | O_NOFOLLOW | O_CLOEXEC, 0666));
    int error = to < 0 ? errno : copy_bytes(from, to);
    close(from);
    if (to >= 0) close(to);
    return error;
}

/* Renames a file into a folder of another file system. A crash leaves the old name, none, or the new one with all bytes,
 * as if the file was deleted and made again. Before, the copy has no name of a log file; an opening deletes such copies. */
static int move_over(int in, const char *name, int other, const char *next) {
    char copy[PARTS_PATH_ROOM];
    if (snprintf(copy, sizeof copy, "%s" PARTS_MOVED, next) >= (int)sizeof copy) return ENAMETOOLONG;
    int error = copy_file(in, name, other, copy);
    if (!error) error = parts_delete_file(in, name);
    if (!error) error = renameat(other, copy, other, next) ? errno : sync_fd(other);
    if (error) unlinkat(other, copy, 0);
    return error;
}

int parts_rename_file(int in, const char *name, int other, const char *next) {
    int error = look_at(other, next);
    if (error) return error;
    if (renameat(in, name, other, next)) return errno == EXDEV ? move_over(in, name, other, next) : errno;
    error = sync_fd(other);
    return error || in == other ? error : sync_fd(in);
}
