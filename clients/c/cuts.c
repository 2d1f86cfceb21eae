/* What an opening cuts off log files, and whether an earlier file left it there. The proved part decides what is cut:
 * nothing here does. */
#include "parts.h"

#include <errno.h>
#include <stdlib.h>
#include <sys/stat.h>
#include <unistd.h>

/* Bytes after a cut that are searched for a record, and bytes of possible records that are summed in a search, as in
 * crates/raft_dump. */
enum { SEARCHED = 1 << 20, SUMMED = 1 << 26 };

/* Where a file's header has its version, and the length of the header whose file has signed records. */
enum { VERSION = 53, SIGNED = 2, SIGNED_HEADER = 69 };

/* Reads up to `len` bytes: how many there are before the file's end or an error. */
static size_t read_up_to(int fd, uint8_t *bytes, size_t len, uint64_t at) {
    size_t done = 0;
    while (done < len) {
        ssize_t moved = pread(fd, bytes + done, len - done, (off_t)(at + done));
        if (moved < 0 && errno == EINTR) continue;
        if (moved <= 0) break;
        done += (size_t)moved;
    }
    return done;
}

/* Whether the file has only zeros between two places. Bytes that can't be read are no zeros. */
static bool are_zeros(int fd, uint64_t at, uint64_t end) {
    static const uint8_t zeros[4096];
    uint8_t bytes[sizeof zeros];
    while (at < end) {
        size_t len = end - at < sizeof bytes ? (size_t)(end - at) : sizeof bytes;
        if (read_up_to(fd, bytes, len, at) < len || memcmp(bytes, zeros, len)) return false;
        at += len;
    }
    return true;
}

/* Whether the records of the file are signed with its number. */
static bool is_signed(int fd, uint64_t end_of_records) {
    uint8_t version[8];
    bool is_read = end_of_records >= SIGNED_HEADER && read_up_to(fd, version, sizeof version, VERSION) == sizeof version;
    return is_read && parts_number(version) == SIGNED;
}

/* Whether the first record in these bytes, at any place, is signed for a file before the one of this number. */
static bool begins_with_stale(const uint8_t *bytes, size_t len, uint64_t number) {
    struct parts_record record;
    size_t summed = 0;
    for (size_t at = 0; at < len; at++) {
        if (!parts_read_header(bytes + at, len - at, &record) || record.len > len - at) continue;
        if ((summed += record.len) > SUMMED) return false;
        uint32_t signature = parts_signature(bytes + at, &record);
        if (signature == (uint32_t)number) return false;
        if (signature && signature < number && parts_has_sound_block(bytes + at, &record)) return true;
    }
    return false;
}

static uint64_t number_of(const char *path) {
    const char *slash = strrchr(path, '/');
    return strtoull(slash ? slash + 1 : path, NULL, 10);
}

/* Looks whether the bytes from the cut on are of an earlier file. */
static int look_at_rest(int fd, raftlog_cut *cut) {
    if (!is_signed(fd, cut->offset)) return 0;
    size_t len = cut->len < SEARCHED ? (size_t)cut->len : SEARCHED;
    uint8_t *bytes = malloc(len);
    if (!bytes) return ENOMEM;
    len = read_up_to(fd, bytes, len, cut->offset);
    cut->stale = begins_with_stale(bytes, len, number_of(cut->path));
    free(bytes);
    return 0;
}

static bool has_room(raftlog *log) {
    if (log->cut_count < log->cut_room) return true;
    size_t room = log->cut_room ? 2 * log->cut_room : 8;
    raftlog_cut *cuts = realloc(log->cuts, room * sizeof *cuts);
    if (!cuts) return false;
    log->cuts = cuts;
    log->cut_room = room;
    return true;
}

int parts_note_cut(raftlog *log, const char *path, uint64_t size) {
    struct stat found;
    if (fstat(log->file, &found)) return errno;
    uint64_t end = (uint64_t)found.st_size;
    if (size >= end || are_zeros(log->file, size, end)) return 0;
    raftlog_cut cut = {.path = strdup(path), .offset = size, .len = end - size};
    int error = cut.path && has_room(log) ? look_at_rest(log->file, &cut) : ENOMEM;
    if (error) return free((char *)cut.path), error;
    log->cuts[log->cut_count++] = cut;
    return 0;
}

void parts_forget_cuts(raftlog *log) {
    for (size_t i = 0; i < log->cut_count; i++) free((char *)log->cuts[i].path);
    free(log->cuts);
}

size_t raftlog_cuts(raftlog *log, raftlog_cut *cuts, size_t room, size_t size) {
    if (!log) return 0;
    for (size_t i = 0; cuts && size && i < log->cut_count && i < room; i++)
        parts_copy_sized((uint8_t *)cuts + i * size, size, &log->cuts[i], sizeof *log->cuts);
    return log->cut_count;
}
