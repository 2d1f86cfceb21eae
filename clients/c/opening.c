/* How a folder is read before a log is opened over what stands there. */
#include "parts.h"

#include <ctype.h>
#include <dirent.h>
#include <errno.h>
#include <fcntl.h>
#include <stdio.h>
#include <stdlib.h>
#include <sys/mman.h>
#include <sys/stat.h>
#include <unistd.h>

#ifndef MADV_POPULATE_READ
#define MADV_POPULATE_READ 22
#endif

struct found_file {
    char *path;
    uint64_t size;
};

/* The log's files that stand in the folder, by their paths from there. */
struct found {
    struct found_file *files;
    size_t count, room;
    uint64_t size; /* of all files */
    char *text;    /* for the path at which the opening fails */
    size_t text_room;
};

/* Fails at a place, with the system's cause; EILSEQ is what RAFTLOG_NOT_PLAIN says. */
static int fail(struct found *found, const char *place, int error) {
    int code = error == ENOMEM ? RAFTLOG_NO_MEMORY : error == EILSEQ ? RAFTLOG_NOT_PLAIN : RAFTLOG_FOLDER;
    const char *cause = error == EILSEQ ? raftlog_code_text(code) : strerror(error);
    if (found->text_room) snprintf(found->text, found->text_room, "%s: %s", place, cause);
    return code;
}

/* The same at a path from the log's folder. */
static int fail_at(const raftlog *log, struct found *found, const char *path, int error) {
    char place[2 * PARTS_PATH_ROOM];
    snprintf(place, sizeof place, *path ? "%s/%s" : "%s", log->folder, path);
    return fail(found, place, error);
}

static void forget(struct found *found) {
    for (size_t i = 0; i < found->count; i++) free(found->files[i].path);
    free(found->files);
}

/* ---- what stands there */

/* Takes the path; false if there is no memory. */
static bool add_file(struct found *found, char *path, uint64_t size) {
    if (found->count == found->room) {
        size_t room = found->room ? 2 * found->room : 64;
        struct found_file *files = realloc(found->files, room * sizeof *files);
        if (!files) return false;
        found->files = files;
        found->room = room;
    }
    found->files[found->count++] = (struct found_file){path, size};
    found->size += size;
    return true;
}

/* Sixteen digits and what tells the queue, as crates/raft_disk has it. */
bool parts_is_log_name(const char *name) {
    int digits = 0;
    while (isdigit((unsigned char)name[digits])) digits++;
    const char *end = name + digits;
    bool is_known =
        !strcmp(end, ".raftlog") || !strcmp(end, ".rewrite") || !strcmp(end, ".raftlog.reserved");
    return digits == 16 && is_known;
}

static int find_in(raftlog *log, struct found *found, const char *path, int fd);

static int find_below(raftlog *log, struct found *found, int in, const char *path, const char *name) {
    int fd = openat(in, name, O_RDONLY | O_DIRECTORY | O_NOFOLLOW | O_CLOEXEC);
    if (fd >= 0) return find_in(log, found, path, fd);
    return errno == EACCES ? RAFTLOG_OK : fail_at(log, found, path, errno);
}

/* Whether this is the copy of a log file whose renaming to another file system didn't end. */
static bool is_copy(const char *name) {
    char log_name[64];
    size_t len = strlen(name), end = strlen(PARTS_MOVED);
    if (len < end || len - end >= sizeof log_name || strcmp(name + len - end, PARTS_MOVED)) return false;
    memcpy(log_name, name, len - end);
    log_name[len - end] = 0;
    return parts_is_log_name(log_name);
}

/* Takes the path of what a folder holds under this name, or frees it. What isn't the log's is passed over: no order
 * reaches it. */
static int find_at(raftlog *log, struct found *found, int in, char *path, const char *name) {
    bool is_log = parts_is_log_name(name), is_taken = false;
    struct stat is;
    int code = RAFTLOG_OK;
    if (!path) return fail(found, log->folder, ENOMEM);
    if (fstatat(in, name, &is, AT_SYMLINK_NOFOLLOW)) code = is_log ? fail_at(log, found, path, errno) : RAFTLOG_OK;
    else if (S_ISREG(is.st_mode) && is_copy(name)) unlinkat(in, name, 0);
    else if (!is_log) code = S_ISDIR(is.st_mode) ? find_below(log, found, in, path, name) : RAFTLOG_OK;
    else if (!S_ISREG(is.st_mode) || is.st_nlink != 1) code = fail_at(log, found, path, EILSEQ);
    else if (!(is_taken = add_file(found, path, (uint64_t)is.st_size))) code = fail_at(log, found, path, ENOMEM);
    if (!is_taken) free(path);
    return code;
}

/* A folder below the log's in which log files were found is held. */
static int hold_below(raftlog *log, struct found *found, const char *path, int in) {
    int fd = openat(in, ".", O_RDONLY | O_DIRECTORY | O_CLOEXEC);
    int error = fd < 0 ? errno : parts_hold(log, path, strlen(path), fd);
    return error ? fail_at(log, found, path, error) : RAFTLOG_OK;
}

static int find_all(raftlog *log, struct found *found, const char *path, DIR *dir) {
    struct dirent *entry;
    int code = RAFTLOG_OK;
    size_t before = found->count;
    while (!code && (errno = 0, entry = readdir(dir))) {
        const char *name = entry->d_name;
        if (!strcmp(name, ".") || !strcmp(name, "..")) continue;
        code = find_at(log, found, dirfd(dir), *path ? parts_joined(path, name) : strdup(name), name);
    }
    if (!code && errno) return fail_at(log, found, path, errno);
    return code || !*path || found->count == before ? code : hold_below(log, found, path, dirfd(dir));
}

/* Hands a folder over, by its path from the log's, with those below it, and finds their files; the descriptor is
 * closed. One below it that may not be read, or has no name in UTF-8, is passed over. */
static int find_in(raftlog *log, struct found *found, const char *path, int fd) {
    DIR *dir = fdopendir(fd);
    int error = dir ? TEMP_FAILURE_RETRY(fsync(fd)) ? errno : 0 : errno, code = RAFTLOG_OK;
    if (error && !(*path && error == EACCES)) code = fail_at(log, found, path, error);
    if (!error) code = raft_c_add_folder(&log->handle, parts_some(path), strlen(path));
    if (!error && !code) code = find_all(log, found, path, dir);
    else if (!error) code = code == RAFTLOG_INVALID ? RAFTLOG_OK : fail_at(log, found, path, ENOMEM);
    if (dir) closedir(dir);
    else close(fd);
    return code;
}

/* ---- files */

/* Reads a file whole where it can't be mapped. */
static int read_file(int fd, uint8_t *bytes, size_t len) {
    for (size_t at = 0; at < len;) {
        ssize_t moved = pread(fd, bytes + at, len - at, (off_t)at);
        if (moved < 0 && errno == EINTR) continue;
        if (moved <= 0) return moved ? errno : EIO;
        at += (size_t)moved;
    }
    return 0;
}

/* The bytes of a file, mapped, each of which was read: so an error of the disk is answered here.
 * Linux before 5.14 reads them when they are copied, and then such an error ends the program. */
static int map_file(int fd, size_t len, uint8_t **bytes, bool *is_mapped) {
    void *at = mmap(NULL, len, PROT_READ, MAP_PRIVATE, fd, 0);
    int error = 0;
    *is_mapped = at != MAP_FAILED;
    if (*is_mapped) {
        madvise(at, len, MADV_SEQUENTIAL);
        if (madvise(at, len, MADV_POPULATE_READ) && errno != EINVAL)
            error = errno == ENOMEM ? ENOMEM : EIO;
    } else {
        at = mmap(NULL, len, PROT_READ | PROT_WRITE, MAP_PRIVATE | MAP_ANONYMOUS, -1, 0);
        error = at == MAP_FAILED ? ENOMEM : read_file(fd, at, len);
    }
    if (!error) *bytes = at;
    else if (at != MAP_FAILED) munmap(at, len);
    return error;
}

static int hand_over(raftlog *log, const char *path, const uint8_t *bytes, size_t len) {
    parts_enter(log);
    const uint8_t *name = (const uint8_t *)path;
    int code = raft_c_add_file(&log->handle, name, strlen(path), parts_some(bytes), len);
    parts_leave();
    return code == RAFTLOG_INVALID ? EILSEQ : code ? ENOMEM : 0;
}

/* Hands a file over, whose bytes a process that was killed may have left in the system's memory
 * alone, and puts it behind the block that has its bytes then. */
static int load_file(raftlog *log, const char *path) {
    const char *name;
    int in = parts_folder_of(log, path, &name);
    int fd = in < 0 ? -1 : openat(in, name, O_RDONLY | O_NOFOLLOW | O_CLOEXEC);
    if (fd < 0) return errno;
    struct stat found;
    uint8_t *bytes = NULL;
    bool is_mapped = false;
    int error = TEMP_FAILURE_RETRY(fsync(fd)) || fstat(fd, &found) ? errno : 0;
    size_t len = error ? 0 : (size_t)found.st_size;
    if (len) error = map_file(fd, len, &bytes, &is_mapped);
    if (!error) error = hand_over(log, path, bytes, len);
    if (bytes && !error && is_mapped) heap_loaded(&log->heap, fd, bytes, len);
    else if (bytes) munmap(bytes, len);
    close(fd);
    return error;
}

/* The greatest number first. */
static int compare_paths(const void *one, const void *other) {
    return strcmp(((const struct found_file *)other)->path,
                  ((const struct found_file *)one)->path);
}

/* The opening reads the files again from the first on. So they are loaded from the last on: where
 * they are more than the memory, the first ones stand in it still. */
static int load_files(raftlog *log, struct found *found) {
    int code = RAFTLOG_OK;
    uint64_t done = 0;
    if (found->count) qsort(found->files, found->count, sizeof *found->files, compare_paths);
    for (size_t i = 0; i < found->count && !code; i++) {
        if (log->watch) log->watch(log->watch_with, done, found->size);
        int error = load_file(log, found->files[i].path);
        if (error) code = fail_at(log, found, found->files[i].path, error);
        done += found->files[i].size;
    }
    if (log->watch && !code) log->watch(log->watch_with, found->size, found->size);
    parts_add(&log->counts.files, found->count);
    return code;
}

/* ---- the folder */

/* Its path from the root of the system, for texts. */
static int make_absolute(raftlog *log) {
    if (*log->folder == '/') return 0;
    char *here = getcwd(NULL, 0), *whole = here ? parts_joined(here, log->folder) : NULL;
    free(here);
    if (!whole) return errno == ENOMEM ? ENOMEM : 0;
    free(log->folder);
    log->folder = whole;
    return 0;
}

/* Fails at the folder itself, which may not be there or open yet. */
static int fail_here(raftlog *log, struct found *found, int error) {
    make_absolute(log);
    return fail(found, log->folder, error);
}

/* A link that leads to the log's folder is followed, once. */
static int hold_own(raftlog *log) {
    parts_pause_forks();
    int fd = open(log->folder, O_RDONLY | O_DIRECTORY | O_CLOEXEC);
    int error = fd < 0 ? errno : parts_hold(log, "", 0, fd);
    if (!error) log->root = fd;
    parts_resume_forks();
    return error;
}

static int lock_folder(raftlog *log, struct found *found) {
    parts_pause_forks();
    int error = parts_lock(log);
    parts_resume_forks();
    if (!error) return RAFTLOG_OK;
    if (error != EWOULDBLOCK) return fail_at(log, found, "LOCK", error);
    if (found->text_room) parts_tell_holder(log, found->text, found->text_room);
    return RAFTLOG_IN_USE;
}

/* `raftctl` leaves a mark in a folder until its fork there is whole. */
static int look_for_mark(raftlog *log, struct found *found) {
    struct stat is;
    bool stands = !fstatat(log->root, "FORKING", &is, AT_SYMLINK_NOFOLLOW);
    if (stands && found->text_room)
        snprintf(found->text, found->text_room,
                 "%s: a fork into it has not ended: empty it and fork again", log->folder);
    return stands ? RAFTLOG_FOLDER : RAFTLOG_OK;
}

/* Compares the folder's note with the files that were found. */
static int judge(raftlog *log, const char *settings, bool refuses_lost, struct found *found) {
    int error = parts_begin_spans(log, settings);
    for (size_t i = 0; i < found->count && !error; i++) error = parts_find_span(log, found->files[i].path);
    if (!error) error = parts_judge_spans(log);
    if (error) return fail_at(log, found, "SPANS", error);
    return refuses_lost && parts_tell_lost(log, found->text, found->text_room) ? RAFTLOG_LOST : RAFTLOG_OK;
}

static int find(raftlog *log, const char *settings, bool refuses_lost, struct found *found) {
    int error = parts_make_folders(log->folder);
    if (!error) error = parts_sync_name(log->folder);
    if (!error) error = hold_own(log);
    if (!error) error = make_absolute(log);
    int code = error ? fail_here(log, found, error) : lock_folder(log, found);
    if (!code) code = look_for_mark(log, found);
    if (code) return code;
    heap_begin(&log->heap, &log->lock);
    int fd = openat(log->root, ".", O_RDONLY | O_DIRECTORY | O_CLOEXEC);
    code = fd < 0 ? fail(found, log->folder, errno) : find_in(log, found, "", fd);
    if (!code) code = judge(log, settings, refuses_lost, found);
    return code ? code : load_files(log, found);
}

int parts_find(raftlog *log, const char *settings, bool refuses_lost, char *text, size_t room) {
    struct found found = {.text = text, .text_room = room};
    int code = find(log, settings, refuses_lost, &found);
    forget(&found);
    return code;
}

int parts_accept(raftlog *log, char *text, size_t room) {
    struct found found = {.text = text, .text_room = room};
    int error = hold_own(log);
    if (!error) error = make_absolute(log);
    int code = error ? fail_here(log, &found, error) : lock_folder(log, &found);
    if (!code && (error = parts_accept_spans(log))) code = fail_at(log, &found, "SPANS", error);
    return code;
}
