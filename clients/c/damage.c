/* Where a log file is damaged, for the text of an opening that fails as RAFTLOG_CORRUPTION. The proved part has decided by
 * then: what is read here decides nothing. docs/FORMAT.md has the form of files and records. */
#include "parts.h"

#include <dirent.h>
#include <fcntl.h>
#include <stdio.h>
#include <stdlib.h>
#include <sys/mman.h>
#include <sys/stat.h>
#include <unistd.h>

static const char magic[] = "RAFT-LOG-FILE-HEADER-9986AB3E47F320B394C8E84916EB0ED5";

/* Bytes of the header of a file of version 1, and of version 2. */
enum { HEADER = 61, LONG_HEADER = 69 };

static bool are_zeros(const uint8_t *at, size_t len) {
    return !len || (!*at && !memcmp(at, at + 1, len - 1));
}

/* What is wrong with the record at a place, or NULL and its length. */
static const char *record_damage(const uint8_t *at, size_t left, uint32_t signature, size_t *len) {
    struct parts_record record;
    if (left < PARTS_RECORD_HEADER) return "the file ends within a record";
    if (!parts_read_header(at, left, &record)) return "this is no record's header";
    if (record.len > left) return "the file ends within a record";
    if (parts_signature(at, &record) != signature) return "a record's checksum is wrong";
    if (!parts_has_sound_block(at, &record)) return "the checksum of a record's entries is wrong";
    *len = record.len;
    return NULL;
}

/* What is wrong with a file, and where; or NULL. */
static const char *file_damage(const uint8_t *bytes, size_t len, uint64_t number, size_t *at) {
    *at = 0;
    uint64_t version = len < HEADER ? 0 : parts_number(bytes + sizeof magic - 1);
    bool is_long = version == 2;
    if (len < HEADER || memcmp(bytes, magic, sizeof magic - 1) || version < 1 || version > 2) return "this is no log file's header";
    if (is_long && len < LONG_HEADER) return "this is no log file's header";
    uint64_t alignment = is_long ? parts_number(bytes + HEADER) : 0;
    for (*at = is_long ? LONG_HEADER : HEADER; *at < len && !are_zeros(bytes + *at, len - *at);) {
        size_t more = 0;
        const char *why = record_damage(bytes + *at, len - *at, is_long ? (uint32_t)number : 0, &more);
        if (why && alignment && *at % alignment) more = alignment - *at % alignment;
        if (why && (!more || more > len - *at || !are_zeros(bytes + *at, more))) return why;
        *at += more;
    }
    return NULL;
}

struct damage {
    char name[64];
    const char *folder, *why; /* of the folder: its path from the log's */
    uint64_t number;
    size_t at;
    bool is_rewrite, is_last; /* of its queue, where the recovery mode may tolerate it */
};

static bool is_before(const struct damage *one, const struct damage *other) {
    if (!other->why || one->is_last != other->is_last) return !other->why || other->is_last;
    if (one->is_rewrite != other->is_rewrite) return other->is_rewrite;
    return one->number < other->number;
}

static void look_at_file(int in, struct damage *damage) {
    struct stat found;
    int fd = openat(in, damage->name, O_RDONLY | O_NOFOLLOW | O_CLOEXEC);
    if (fd < 0) return;
    size_t len = fstat(fd, &found) ? 0 : (size_t)found.st_size;
    uint8_t *bytes = len ? mmap(NULL, len, PROT_READ, MAP_PRIVATE, fd, 0) : NULL;
    close(fd);
    if (bytes == MAP_FAILED) return;
    damage->why = file_damage(bytes, len, damage->number, &damage->at);
    if (bytes) munmap(bytes, len);
}

/* A look at each file of a queue in a folder: the greatest numbers of both queues, and then damages. */
static void look_at_folder(const struct parts_folder *folder, uint64_t last[2], struct damage *first) {
    int fd = openat(folder->fd, ".", O_RDONLY | O_DIRECTORY | O_CLOEXEC);
    DIR *dir = fd < 0 ? NULL : fdopendir(fd);
    struct dirent *entry;
    if (!dir && fd >= 0) close(fd);
    while (dir && (entry = readdir(dir))) {
        struct damage damage = {.folder = folder->path};
        size_t len = strlen(entry->d_name);
        if (!parts_is_log_name(entry->d_name) || len >= sizeof damage.name || strstr(entry->d_name, ".reserved")) continue;
        memcpy(damage.name, entry->d_name, len + 1);
        damage.number = strtoull(damage.name, NULL, 10);
        damage.is_rewrite = strstr(damage.name, ".rewrite");
        uint64_t *greatest = &last[damage.is_rewrite];
        if (!first && damage.number > *greatest) *greatest = damage.number;
        damage.is_last = damage.number == *greatest;
        if (first) look_at_file(folder->fd, &damage);
        if (damage.why && is_before(&damage, first)) *first = damage;
    }
    if (dir) closedir(dir);
}

void parts_tell_damage(const raftlog *log, char *text, size_t room) {
    uint64_t last[2] = {0};
    struct damage first = {.why = NULL};
    for (size_t i = 0; i < log->folder_count; i++) look_at_folder(&log->folders[i], last, NULL);
    for (size_t i = 0; i < log->folder_count; i++) look_at_folder(&log->folders[i], last, &first);
    if (first.why)
        snprintf(text, room, "%s%s%s/%s: corruption at byte %zu: %s", log->folder, *first.folder ? "/" : "", first.folder,
                 first.name, first.at, first.why);
    else snprintf(text, room, "%s: corruption: what its records say doesn't fit together", log->folder);
}
