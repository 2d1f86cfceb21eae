/* The note of the numbers that a log's files have had, in the file SPANS of its folder. By it a missing file is known.
 * docs/FORMAT.md has its bytes. crates/raft_disk (src/spans.rt, src/span_file.rt) has the same rules.
 *
 * A note is written to the slot that has not the one that a crash leaves. So a write that a crash tears leaves the note
 * before, which is true: files that it needs are deleted or renamed only after a later note was synced. A note that
 * can't be written fails no write of the log. */
#include "parts.h"

#include <dirent.h>
#include <endian.h>
#include <errno.h>
#include <fcntl.h>
#include <stdio.h>
#include <stdlib.h>
#include <sys/stat.h>
#include <unistd.h>

#define SPANS "SPANS"
#define MAGIC "RAFT-LOG-SPANS-1"

enum { APPEND, REWRITE, QUEUES };
enum { SLOT = 512, BODY = 508, MAGIC_LEN = 16, HEAD = 72, SPILL_ROOM = BODY - HEAD + 1 };

/* No file of a queue with a smaller number than the first is needed, and one with the last number existed (0: none did).
 * If a purge was deleting files, the least first, the first ones may be missing. If a needed file was missing at an opening,
 * and then a new file got its number or a purge passed it, it is lost. */
struct span {
    uint64_t first, last;
    bool is_dropping, has_lost;
};

/* Numbers of files, in ascending order when they are compared with the note. */
struct numbers {
    uint64_t *all;
    size_t count, room;
};

struct parts_spans {
    int file;        /* -1: there is no note */
    bool is_named;   /* a crash leaves the file's name */
    bool is_silent;  /* no note is written: something else has its name, or no span is known */
    bool owes_loss;  /* a note of a loss was refused, or removed */
    bool knows_loss; /* the note reported a loss at the opening */
    struct span queues[QUEUES];
    char spill[SPILL_ROOM]; /* the second folder's path from the log's; empty if there is none */
    uint64_t count;
    int synced; /* the slot of the note that a crash leaves */
    struct numbers found[QUEUES];
    raftlog_lost *lost; /* what the note told at the opening */
    size_t lost_count, lost_room;
};

static const struct span empty = {1, 0, false, false};

/* ---- bytes */

static uint8_t *put_number(uint8_t *at, uint64_t number) {
    number = htobe64(number);
    memcpy(at, &number, 8);
    return at + 8;
}

static void fill(const struct parts_spans *spans, uint64_t count, uint8_t slot[SLOT]) {
    const struct span *append = &spans->queues[APPEND], *rewrite = &spans->queues[REWRITE];
    uint64_t flags = (uint64_t)append->is_dropping | (uint64_t)rewrite->is_dropping << 1
                     | (uint64_t)append->has_lost << 2 | (uint64_t)rewrite->has_lost << 3;
    size_t len = strlen(spans->spill);
    uint64_t numbers[] = {count, append->first, append->last, rewrite->first, rewrite->last, flags, len};
    memset(slot, 0, SLOT);
    memcpy(slot, MAGIC, MAGIC_LEN);
    uint8_t *at = slot + MAGIC_LEN;
    for (size_t i = 0; i < sizeof numbers / sizeof *numbers; i++) at = put_number(at, numbers[i]);
    memcpy(at, spans->spill, len);
    uint32_t crc = htole32(parts_crc(slot, BODY));
    memcpy(slot + BODY, &crc, sizeof crc);
}

/* Takes the note of a slot, if it is a later one. */
static void take(struct parts_spans *spans, int place, const uint8_t slot[SLOT]) {
    uint32_t crc;
    memcpy(&crc, slot + BODY, sizeof crc);
    uint64_t numbers[7];
    for (int i = 0; i < 7; i++) numbers[i] = parts_number(slot + MAGIC_LEN + 8 * i);
    bool is_note = le32toh(crc) == parts_crc(slot, BODY) && !memcmp(slot, MAGIC, MAGIC_LEN) && numbers[6] <= BODY - HEAD;
    if (!is_note || numbers[0] <= spans->count) return;
    spans->count = numbers[0];
    spans->synced = place;
    spans->queues[APPEND] = (struct span){numbers[1], numbers[2], numbers[5] & 1, numbers[5] & 4};
    spans->queues[REWRITE] = (struct span){numbers[3], numbers[4], numbers[5] & 2, numbers[5] & 8};
    memcpy(spans->spill, slot + HEAD, numbers[6]);
    spans->spill[numbers[6]] = 0;
}

/* Whether a slot has no note yet, or begins as one. If neither slot has a note, the file is else another program's. */
static bool may_be_note(const uint8_t *slot, size_t len) {
    size_t zeros = 0;
    while (zeros < len && !slot[zeros]) zeros++;
    return zeros == len || (len >= MAGIC_LEN && !memcmp(slot, MAGIC, MAGIC_LEN));
}

/* ---- what a note tells */

static uint64_t after(uint64_t number) { return number < UINT64_MAX ? number + 1 : number; }

/* The greatest number up to which files follow on the last one. */
static uint64_t end_of(const struct span *span, const struct numbers *found) {
    uint64_t end = span->last;
    for (size_t i = 0; i < found->count; i++)
        if (found->all[i] == after(end)) end = found->all[i];
    return end;
}

/* The least number of a file that is needed. */
static uint64_t front_of(const struct span *span, const struct numbers *found) {
    uint64_t front = span->last;
    if (!span->is_dropping) return span->first;
    for (size_t i = found->count; i-- > 0;)
        if (found->all[i] >= span->first && found->all[i] < front) front = found->all[i];
    return front > span->first ? front : span->first;
}

/* A crash leaves at most one file after the last one. More are another program's, as are files after it if all of the
 * span are gone. */
static bool is_stale(const struct span *span, const struct numbers *found, uint64_t end) {
    bool has_own = false, has_later = false;
    for (size_t i = 0; i < found->count; i++) {
        has_own |= found->all[i] >= span->first && found->all[i] <= span->last;
        has_later |= found->all[i] > end;
    }
    return end > after(span->last) || (has_later && !has_own);
}

static int add_lost(struct parts_spans *spans, int kind, int queue, uint64_t first, uint64_t last) {
    spans->knows_loss |= kind != RAFTLOG_NOTE_STALE;
    if (spans->lost_count == spans->lost_room) {
        size_t room = spans->lost_room ? 2 * spans->lost_room : 8;
        raftlog_lost *lost = realloc(spans->lost, room * sizeof *lost);
        if (!lost) return ENOMEM;
        spans->lost = lost;
        spans->lost_room = room;
    }
    spans->lost[spans->lost_count++] = (raftlog_lost){kind, queue == REWRITE, first, last};
    return 0;
}

static int report(struct parts_spans *spans, int queue) {
    const struct span *span = &spans->queues[queue];
    const struct numbers *found = &spans->found[queue];
    uint64_t end = end_of(span, found), next = front_of(span, found);
    int error = span->has_lost ? add_lost(spans, RAFTLOG_LOST_BEFORE, queue, span->first, span->last) : 0;
    if (!error && is_stale(span, found, end))
        return add_lost(spans, RAFTLOG_NOTE_STALE, queue, span->first, span->last);
    for (size_t i = 0; i < found->count && !error; i++) {
        uint64_t number = found->all[i];
        if (number > end) error = add_lost(spans, RAFTLOG_FILE_STRAY, queue, number, number);
        if (number < span->first || number > span->last) continue;
        if (next < number) error = add_lost(spans, RAFTLOG_FILE_MISSING, queue, next, number - 1);
        next = after(number);
    }
    return error || next > span->last ? error : add_lost(spans, RAFTLOG_FILE_MISSING, queue, next, span->last);
}

/* The files that an opening reads without a note: those after the last missing number. */
static struct span span_of(const struct numbers *found) {
    struct span span = empty;
    for (size_t i = 0; i < found->count; i++) {
        if (found->all[i] != after(span.last)) span.first = found->all[i];
        span.last = found->all[i];
    }
    return span;
}

/* The span at an opening: the note's, if it is true, else that of all files. If one of these is missing then, no span is
 * known: a purge may have left the files before it, or someone else may have deleted it. If a loss is known anyway, the
 * span of the files that are read is enough: with it the loss is remembered. */
static bool find_span(const struct span *noted, const struct numbers *found, bool knows_loss, struct span *span) {
    uint64_t end = end_of(noted, found);
    *span = (struct span){front_of(noted, found), end, false, noted->has_lost};
    if (!is_stale(noted, found, end)) return true;
    *span = span_of(found);
    span->has_lost = noted->has_lost;
    return knows_loss || span->first == found->all[0];
}

static bool are_same(const struct span *one, const struct span *other) {
    return one->first == other->first && one->last == other->last && one->is_dropping == other->is_dropping
           && one->has_lost == other->has_lost;
}

/* ---- the file */

static int remove_note(raftlog *log) {
    /* If there is none, the sync after an earlier removal may have failed. */
    if (unlinkat(log->root, SPANS, 0) && errno != ENOENT) return errno;
    return TEMP_FAILURE_RETRY(fsync(log->root)) ? errno : 0;
}

static int make_note(raftlog *log) {
    int fd = TEMP_FAILURE_RETRY(openat(log->root, SPANS, O_RDWR | O_CREAT | O_EXCL | O_NOFOLLOW | O_CLOEXEC, 0666));
    if (fd < 0) return errno;
    log->spans->file = fd;
    log->spans->is_named = false;
    /* A shorter file has notes too. */
    if (ftruncate(fd, 2 * SLOT)) errno = 0;
    return 0;
}

/* Writes and syncs a note of the spans. */
static int write_note(raftlog *log) {
    struct parts_spans *spans = log->spans;
    uint8_t slot[SLOT];
    int place = !spans->synced;
    if (spans->is_silent) return 0;
    int error = spans->file < 0 ? make_note(log) : 0;
    if (error) return error;
    fill(spans, spans->count + 1, slot);
    ssize_t moved;
    while ((moved = pwrite(spans->file, slot, SLOT, (off_t)place * SLOT)) < 0 && errno == EINTR) continue;
    if (moved != SLOT) return moved < 0 ? errno : EIO;
    spans->count++;
    if (TEMP_FAILURE_RETRY(fdatasync(spans->file))) return errno;
    spans->synced = place;
    if (!spans->is_named && TEMP_FAILURE_RETRY(fsync(log->root))) return errno;
    spans->is_named = true;
    spans->owes_loss = false;
    return 0;
}

/* A note that can't be written is removed: without one nothing is reported as missing. One that reports a loss stays: it may
 * then report as missing what a purge drops, but the loss is not forgotten. */
static int write_or_remove(raftlog *log) {
    struct parts_spans *spans = log->spans;
    if (spans->file < 0 || (!spans->is_silent && !write_note(log))) return 0;
    spans->owes_loss = spans->knows_loss && !spans->is_silent;
    int error = spans->owes_loss ? 0 : remove_note(log);
    if (error || spans->owes_loss) return error;
    close(spans->file);
    spans->file = -1;
    return 0;
}

static int read_note(struct parts_spans *spans, int fd) {
    uint8_t bytes[2 * SLOT + 1];
    ssize_t len;
    if (TEMP_FAILURE_RETRY(fsync(fd))) return errno;
    while ((len = pread(fd, bytes, sizeof bytes, 0)) < 0 && errno == EINTR) continue;
    if (len < 0) return errno;
    spans->is_silent = len > 2 * SLOT;
    for (int place = 0; place < 2 && !spans->is_silent; place++)
        if (len >= (place + 1) * SLOT) take(spans, place, bytes + place * SLOT);
    for (ssize_t at = 0; at < len && !spans->count; at += SLOT)
        spans->is_silent |= !may_be_note(bytes + at, (size_t)(len - at) < SLOT ? (size_t)(len - at) : SLOT);
    return 0;
}

/* A note that can't be read is removed, as if there was none. If that fails, none is written. A want of a permission, of
 * memory or of descriptors says nothing of the note, which may report a loss: it is returned. */
static int open_note(raftlog *log) {
    struct parts_spans *spans = log->spans;
    struct stat is;
    int found = fstatat(log->root, SPANS, &is, AT_SYMLINK_NOFOLLOW);
    if (found && errno == ENOENT) return 0;
    if (!found && (!S_ISREG(is.st_mode) || is.st_nlink != 1)) {
        spans->is_silent = true;
        return 0;
    }
    int fd = found ? -1 : TEMP_FAILURE_RETRY(openat(log->root, SPANS, O_RDWR | O_NOFOLLOW | O_CLOEXEC));
    int error = fd < 0 ? errno : read_note(spans, fd);
    if (!error && !spans->is_silent) spans->file = fd;
    else if (fd >= 0) close(fd);
    bool may_be_sound = error == EACCES || error == EPERM || error == ENOMEM || error == EMFILE || error == ENFILE;
    if (may_be_sound) return error;
    if (error) spans->is_silent = remove_note(log) != 0;
    return 0;
}

/* ---- which files are the log's */

/* The queue of a log file with this name, and its number; -1 for another file. */
static int queue_of_name(const char *name, uint64_t *number) {
    char *end;
    if (!parts_is_log_name(name)) return -1;
    *number = strtoull(name, &end, 10);
    return !strcmp(end, ".raftlog") ? APPEND : !strcmp(end, ".rewrite") ? REWRITE : -1;
}

/* The same of the file at a path. */
static int queue_of(const struct parts_spans *spans, const char *path, uint64_t *number) {
    const char *slash = strrchr(path, '/');
    size_t len = slash ? (size_t)(slash - path) : 0;
    bool is_own = !len || (strlen(spans->spill) == len && !memcmp(spans->spill, path, len));
    return is_own ? queue_of_name(slash ? slash + 1 : path, number) : -1;
}

static int add_number(struct numbers *found, uint64_t number) {
    if (found->count == found->room) {
        size_t room = found->room ? 2 * found->room : 64;
        uint64_t *all = realloc(found->all, room * sizeof *all);
        if (!all) return ENOMEM;
        found->all = all;
        found->room = room;
    }
    found->all[found->count++] = number;
    return 0;
}

static int compare(const void *one, const void *other) {
    uint64_t a = *(const uint64_t *)one, b = *(const uint64_t *)other;
    return (a > b) - (a < b);
}

/* ---- what the other files call */

static void sort(struct numbers *found) {
    if (found->count) qsort(found->all, found->count, sizeof *found->all, compare);
}

/* Reads the note that the folder has. */
static int begin(raftlog *log) {
    struct parts_spans *spans = calloc(1, sizeof *spans);
    if (!spans) return ENOMEM;
    log->spans = spans;
    spans->file = -1;
    spans->is_named = true;
    spans->synced = 1;
    spans->queues[APPEND] = spans->queues[REWRITE] = empty;
    return open_note(log);
}

/* If the second folder isn't known, the note stays until a log file is made, deleted or renamed: then it is removed. */
int parts_begin_spans(raftlog *log, const char *settings) {
    char spill[SPILL_ROOM];
    int error = begin(log);
    if (error) return error;
    if (parts_find_spill(settings ? settings : "", spill, sizeof spill)) memcpy(log->spans->spill, spill, sizeof spill);
    else log->spans->is_silent = true;
    return 0;
}

int parts_find_span(raftlog *log, const char *path) {
    uint64_t number;
    int queue = queue_of(log->spans, path, &number);
    return queue < 0 ? 0 : add_number(&log->spans->found[queue], number);
}

/* A new note is written if there is none, if a crash left it old, or if another program made it stale; but none if a
 * file may be missing, unless the note reports a loss, which is to be remembered. */
int parts_judge_spans(raftlog *log) {
    struct parts_spans *spans = log->spans;
    struct span now[QUEUES];
    bool is_old = false, is_known = true;
    int error = 0;
    if (spans->is_silent) return 0;
    for (int queue = 0; queue < QUEUES && !error; queue++) {
        sort(&spans->found[queue]);
        if (spans->count) error = report(spans, queue);
    }
    for (int queue = 0; queue < QUEUES && !error; queue++) {
        is_known &= find_span(&spans->queues[queue], &spans->found[queue], spans->knows_loss, &now[queue]);
        is_old |= !are_same(&spans->queues[queue], &now[queue]);
    }
    spans->is_silent = !is_known;
    if (error || spans->is_silent) return error;
    memcpy(spans->queues, now, sizeof now);
    if (is_old) write_note(log);
    return 0;
}

/* Whether the opening missed a file of a queue between two numbers. */
static bool was_missing(const struct parts_spans *spans, int queue, uint64_t first, uint64_t last) {
    for (size_t i = 0; i < spans->lost_count; i++) {
        const raftlog_lost *lost = &spans->lost[i];
        bool is_of = lost->kind == RAFTLOG_FILE_MISSING && lost->is_rewrite == (queue == REWRITE);
        if (is_of && lost->first <= last && lost->last >= first) return true;
    }
    return false;
}

/* A missing file can't be put back once a file has its number, or a smaller one. */
void parts_replace_span(raftlog *log, const char *path) {
    struct parts_spans *spans = log->spans;
    uint64_t number;
    int queue = queue_of(spans, path, &number);
    if (queue >= 0 && spans->is_silent) write_or_remove(log);
    if (queue < 0 || !was_missing(spans, queue, number, UINT64_MAX) || spans->queues[queue].has_lost) return;
    spans->queues[queue].has_lost = true;
    spans->owes_loss = write_note(log) != 0;
}

void parts_catch_up_spans(raftlog *log) {
    if (log->spans->owes_loss) log->spans->owes_loss = write_note(log) != 0;
}

/* A later number that doesn't follow changes nothing, so that such files are still reported. An earlier one comes if all
 * files are gone and the log begins again. */
void parts_add_span(raftlog *log, const char *path) {
    uint64_t number;
    int queue = queue_of(log->spans, path, &number);
    if (queue < 0) return;
    struct span *span = &log->spans->queues[queue];
    bool is_earlier = span->last && number < span->first;
    if (!is_earlier && span->last && number != after(span->last)) return;
    if (is_earlier || !span->last) span->first = number;
    if (!is_earlier) span->last = number;
    if (log->spans->is_silent) write_or_remove(log);
    else write_note(log);
}

bool parts_is_same_queue(raftlog *log, const char *path, const char *other) {
    uint64_t number;
    int queue = queue_of(log->spans, path, &number);
    return queue >= 0 && queue == queue_of(log->spans, other, &number);
}

int parts_leave_span(raftlog *log, const char *path) {
    uint64_t number;
    int queue = queue_of(log->spans, path, &number);
    struct span *span = &log->spans->queues[queue < 0 ? 0 : queue];
    if (queue < 0 || number < span->first || number > span->last) return 0;
    if (span->first == span->last) *span = (struct span){empty.first, empty.last, false, span->has_lost};
    else if (number == span->last) span->last = number - 1;
    else span->first = number + 1;
    if (span->first > 1 && was_missing(log->spans, queue, 0, span->first - 1)) span->has_lost = true;
    return write_or_remove(log);
}

bool parts_tell_lost(const raftlog *log, char *text, size_t room) {
    const struct parts_spans *spans = log->spans;
    const raftlog_lost *lost = NULL;
    for (size_t i = 0; i < spans->lost_count; i++) {
        const raftlog_lost *other = &spans->lost[i];
        /* A file that can be put back comes first. */
        bool is_file = other->kind == RAFTLOG_FILE_MISSING || other->kind == RAFTLOG_FILE_STRAY;
        if (is_file) lost = other;
        if (is_file) break;
        if (other->kind == RAFTLOG_LOST_BEFORE) lost = other;
    }
    if (!lost) return false;
    const char *end = lost->is_rewrite ? "rewrite" : "raftlog";
    const char *what = lost->kind == RAFTLOG_FILE_STRAY ? "does not follow on the files before it" : "is missing";
    if (lost->kind == RAFTLOG_LOST_BEFORE) {
        snprintf(text, room, "%s: files were missing at an earlier opening, by the note in SPANS: accept the loss", log->folder);
        return true;
    }
    snprintf(text, room, "%s/%016llu.%s %s, by the note in SPANS: put the files back, or accept the loss", log->folder,
             (unsigned long long)lost->first, end, what);
    return true;
}

/* Finds the log files of a folder, by its path from the log's. One that doesn't exist has none. */
static int find_numbers(raftlog *log, const char *path) {
    int fd = openat(log->root, *path ? path : ".", O_RDONLY | O_DIRECTORY | O_NOFOLLOW | O_CLOEXEC);
    DIR *dir = fd < 0 ? NULL : fdopendir(fd);
    int error = dir || errno == ENOENT ? 0 : errno;
    for (struct dirent *entry; dir && !error && (errno = 0, entry = readdir(dir));) {
        uint64_t number;
        int queue = queue_of_name(entry->d_name, &number);
        if (queue >= 0) error = add_number(&log->spans->found[queue], number);
    }
    if (dir && !error) error = errno;
    if (dir) closedir(dir);
    else if (fd >= 0) close(fd);
    return error;
}

/* Notes the files that an opening will read, without a loss. It fails if there is no note. */
static int renew_note(raftlog *log) {
    struct parts_spans *spans = log->spans;
    int error = spans->file < 0 || !spans->count ? ENOENT : find_numbers(log, "");
    if (!error && *spans->spill) error = find_numbers(log, spans->spill);
    for (int queue = 0; queue < QUEUES && !error; queue++) {
        sort(&spans->found[queue]);
        spans->queues[queue] = span_of(&spans->found[queue]);
    }
    return error ? error : write_note(log);
}

/* If no note can be read and written, there is none afterwards. */
int parts_accept_spans(raftlog *log) {
    int error = begin(log);
    return error || renew_note(log) ? remove_note(log) : 0;
}

void parts_end_spans(raftlog *log) {
    struct parts_spans *spans = log->spans;
    if (!spans) return;
    if (spans->file >= 0) close(spans->file);
    for (int queue = 0; queue < QUEUES; queue++) free(spans->found[queue].all);
    free(spans->lost);
    free(spans);
}

size_t raftlog_missing(raftlog *log, raftlog_lost *lost, size_t room, size_t size) {
    if (!log || !log->spans) return 0;
    const struct parts_spans *spans = log->spans;
    for (size_t i = 0; lost && i < spans->lost_count && i < room; i++)
        parts_copy_sized((uint8_t *)lost + i * size, size, &spans->lost[i], sizeof *spans->lost);
    return spans->lost_count;
}
