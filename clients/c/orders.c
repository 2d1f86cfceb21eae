/* Orders of a log on its files, and how they are carried out. */
#include "parts.h"

#include <errno.h>
#include <fcntl.h>
#include <stdio.h>
#include <stdlib.h>
#include <sys/stat.h>
#include <time.h>
#include <unistd.h>

/* Bytes of a purge's orders that are gathered before they are carried out; less in tests. */
#ifndef ORDERS_GATHERED
#define ORDERS_GATHERED RAFTLOG_PURGE_BYTES
#endif

/* Room for orders at first, and what of it is kept for a next round. */
enum { ORDERS_BEGIN = 1 << 16, ORDERS_KEPT = 1 << 21 };

/* What is ordered, as crates/raft_orders numbers it. */
enum { CREATE = 1, DELETE, RENAME, MAKE_FOLDER, WRITE, TRUNCATE, ALLOCATE, SYNC };

/* A byte, a number and two lengths stand before the parts of an order. */
enum { HEAD = 25 };

/* The longest write that is joined to the one before it. */
enum { JOINED = 1 << 14 };

void parts_let_file_go(raftlog *log) {
    heap_let_go(&log->behind);
    if (log->file >= 0) close(log->file);
    log->file = -1;
    log->path_len = 0;
}

/* Opens the file at a path from the folder to be changed. */
static int open_file(raftlog *log, const char *path) {
    parts_let_file_go(log);
    const char *name;
    int in = parts_folder_of(log, path, &name);
    if (in < 0) return errno;
    log->file = TEMP_FAILURE_RETRY(openat(in, name, O_RDWR | O_NOFOLLOW | O_CLOEXEC));
    int error = log->file < 0 ? errno : 0;
    if (!error) heap_take_up(&log->behind, &log->heap, log->file);
    if (!error) log->path_len = strlen(strcpy(log->path, path));
    return error;
}

static int write_at(int fd, const uint8_t *bytes, size_t len, uint64_t at) {
    while (len) {
        ssize_t moved = pwrite(fd, bytes, len, (off_t)at);
        if (moved < 0 && errno == EINTR) continue;
        if (moved <= 0) return moved ? errno : EIO;
        bytes += moved, at += (uint64_t)moved, len -= (size_t)moved;
    }
    return 0;
}

static int resize(raftlog *log, uint64_t size, bool cut) {
    struct stat found;
    if (fstat(log->file, &found)) return errno;
    if (cut ? (uint64_t)found.st_size <= size : (uint64_t)found.st_size >= size) return 0;
    int error = cut ? heap_before_cut(&log->behind, size) : 0;
    if (error) return error;
    return TEMP_FAILURE_RETRY(ftruncate(log->file, (off_t)size)) ? errno : 0;
}

/* Cuts the open file, and notes what an opening cuts off. */
static int cut_file(raftlog *log, const char *path, uint64_t size) {
    int error = log->is_opening ? parts_note_cut(log, path, size) : 0;
    return error ? error : resize(log, size, true);
}

static int write_file(raftlog *log, const uint8_t *bytes, size_t len, uint64_t at) {
    heap_before_write(&log->behind, at, len);
    int error = write_at(log->file, bytes, len, at);
    if (error) return error;
    parts_add(&log->counts.bytes, len);
    parts_add(&log->counts.writes, 1);
    return 0;
}

uint64_t parts_now_ns(void) {
    struct timespec t;
    clock_gettime(CLOCK_MONOTONIC, &t);
    return (uint64_t)t.tv_sec * 1000000000u + (uint64_t)t.tv_nsec;
}

static void count_sync(struct parts_counts *counts, uint64_t ns) {
    uint64_t microseconds = ns / 1000;
    int class = microseconds ? 64 - __builtin_clzll(microseconds) : 0;
    parts_add(&counts->syncs, 1);
    parts_add(&counts->sync_ns, ns);
    parts_raise(&counts->longest_sync_ns, ns);
    parts_add(&counts->sync_times[class < RAFTLOG_TIMES ? class : RAFTLOG_TIMES - 1], 1);
}

static int sync_file(raftlog *log) {
    parts_catch_up_spans(log);
    uint64_t began = parts_now_ns();
    int error = TEMP_FAILURE_RETRY(fdatasync(log->file)) ? errno : 0;
    struct stat found;
    /* A file that another program deleted is lost, although the system syncs it. */
    if (!error && !fstat(log->file, &found) && !found.st_nlink) error = ESTALE;
    if (error) return error;
    count_sync(&log->counts, parts_now_ns() - began);
    heap_synced(&log->behind);
    return 0;
}

static bool is_reserved(const char *name) { return strstr(name, ".reserved"); }

/* Counts an order on names that was carried out. One that takes the place of a file adds none. */
static void count_names(struct parts_counts *counts, int kind, const char *last, bool had_place) {
    bool is_next = kind != DELETE && !is_reserved(last);
    if (is_next) parts_add(&counts->next_files, 1);
    if (is_next && kind == RENAME) parts_add(&counts->recycled_files, 1);
    if (kind == DELETE) parts_add(&counts->deleted_files, 1);
    int more = (kind == CREATE) - (kind == DELETE) - (had_place && kind != DELETE);
    parts_add(&counts->files, (uint64_t)(int64_t)more);
}

/* Carries out what is done to names. Before a file is renamed the note no longer needs it; `leave_deleted` has done so for
 * a deletion. A new name is noted after the file has it. */
static int order_names(raftlog *log, int kind, const char *path, const char *to) {
    parts_let_file_go(log);
    int error = parts_keep_lock(log);
    if (!error && kind == RENAME) error = parts_leave_span(log, path);
    if (error) return error;
    if (kind == MAKE_FOLDER) return parts_make_below(log, path);
    const char *name, *next;
    int in = parts_folder_of(log, path, &name);
    int other = in < 0 ? in : parts_folder_of(log, kind == RENAME ? to : path, &next);
    if (other < 0) return errno;
    bool had_place = parts_has_name(other, next);
    if (kind != DELETE) parts_replace_span(log, kind == RENAME ? to : path);
    if (kind == CREATE) error = parts_make_file(in, name);
    else if (kind == DELETE) error = parts_delete_file(in, name);
    else error = parts_rename_file(in, name, other, next);
    if (!error) count_names(&log->counts, kind, next, had_place);
    if (!error && kind != DELETE) parts_add_span(log, kind == RENAME ? to : path);
    return error;
}

/* An order as it was given: `bytes` are those of a write, or of a name. */
struct order {
    int kind;
    uint64_t number;
    const uint8_t *path, *bytes;
    size_t path_len, len;
};

/* The text of these bytes, ended by a NUL, in a room that has place for it. */
static const char *text_of(char *room, const uint8_t *bytes, size_t len) {
    memcpy(room, bytes, len);
    room[len] = 0;
    return room;
}

/* Whether it changes the file that is open, as most orders do. */
static inline bool is_of_open(const raftlog *log, const struct order *order) {
    return order->kind >= WRITE && log->path_len && order->path_len == log->path_len
           && !memcmp(order->path, log->path, log->path_len);
}

static inline int change_open(raftlog *log, const struct order *order) {
    switch (order->kind) {
    case WRITE: return write_file(log, order->bytes, order->len, order->number);
    case TRUNCATE: return cut_file(log, log->path, order->number);
    case ALLOCATE: return resize(log, order->number, false);
    case SYNC: return sync_file(log);
    default: return EINVAL;
    }
}

static const char *kind_text(int kind) {
    static const char *texts[] = {
        [CREATE] = "making", [DELETE] = "deleting", [RENAME] = "renaming",
        [MAKE_FOLDER] = "making the folder", [WRITE] = "writing", [TRUNCATE] = "cutting",
        [ALLOCATE] = "lengthening", [SYNC] = "syncing"};
    return kind >= CREATE && kind <= SYNC ? texts[kind] : "changing";
}

void parts_break(raftlog *log, const char *why) {
    if (*log->broken) return;
    const char *then = log->is_opening ? "" : "; the log has failed: close it, and open its folder again";
    snprintf(log->broken, sizeof log->broken, "%.300s%s", why, then);
}

/* What the system's error says here, if that is more than its own text. */
static const char *cause_of(const raftlog *log, int error) {
    struct stat found;
    bool is_missing = error == ENOENT || error == ESTALE;
    if (is_missing && !fstat(log->root, &found) && !found.st_nlink) return "the folder was removed";
    if (error == ESTALE) return "another program deleted it";
    if (error == EBUSY) return "LOCK was replaced, and another process has the folder";
    if (error == ELOOP) return "it is a link, and links are not followed";
    return strerror(error);
}

static void break_at(raftlog *log, const char *doing, const char *path, int error) {
    char why[320];
    snprintf(why, sizeof why, "%s %.100s: %s, in %.140s", doing, path, cause_of(log, error), log->folder);
    parts_break(log, why);
    if (error == ENOMEM) log->lacks_memory = true;
}

/* Reads the order at a place, and goes behind it: false where there is none. */
static inline bool read_order(const raftlog *log, size_t *place, struct order *order) {
    const uint8_t *at = log->orders + *place;
    size_t left = log->given - *place;
    if (left < HEAD) return false;
    uint64_t first = parts_number(at + 9), second = parts_number(at + 17);
    if (first >= PARTS_PATH_ROOM || left - HEAD < first || left - HEAD - first < second) return false;
    *order = (struct order){*at, parts_number(at + 1), at + HEAD, at + HEAD + first, first, second};
    *place += HEAD + first + second;
    return true;
}

/* Whether a write goes on where the one before it ends. */
static bool goes_on(const struct order *write, const struct order *next) {
    return next->kind == WRITE && next->number == write->number + write->len && next->len <= JOINED
           && next->path_len == write->path_len && !memcmp(next->path, write->path, next->path_len);
}

/* Joins the short writes that follow to this one, which is carried out by one call then: their bytes
 * are moved behind its own, over orders that were read. */
static void join(const raftlog *log, size_t *place, struct order *write) {
    struct order next;
    for (size_t end = *place; read_order(log, &end, &next) && goes_on(write, &next); *place = end) {
        memmove(log->orders + (write->bytes - log->orders) + write->len, next.bytes, next.len);
        write->len += next.len;
    }
}

/* Notes the last file that this order and the deletions right after it delete of a queue: the least one comes first. */
static int leave_deleted(raftlog *log, size_t place, const char *path) {
    struct order next;
    char room[PARTS_PATH_ROOM], last[PARTS_PATH_ROOM];
    int error = parts_keep_lock(log);
    if (error) return error;
    strcpy(last, path);
    while (read_order(log, &place, &next) && next.kind == DELETE) {
        const char *other = text_of(room, next.path, next.path_len);
        if (!parts_is_same_queue(log, path, other)) break;
        strcpy(last, other);
    }
    return parts_leave_span(log, last);
}

static int change_names(raftlog *log, size_t place, const struct order *order, const char *path) {
    char to[PARTS_PATH_ROOM];
    if (order->len >= sizeof to) return EINVAL;
    int error = order->kind == DELETE ? leave_deleted(log, place, path) : 0;
    return error ? error : order_names(log, order->kind, path, text_of(to, order->bytes, order->len));
}

/* An order on names, or on another file than the open one. Apart, since it has rooms for paths. */
static __attribute__((noinline)) int obey_elsewhere(raftlog *log, size_t place, const struct order *order) {
    char room[PARTS_PATH_ROOM];
    const char *path = text_of(room, order->path, order->path_len);
    int error = order->kind < WRITE ? change_names(log, place, order, path) : open_file(log, path);
    if (!error && order->kind >= WRITE) error = change_open(log, order);
    if (error) break_at(log, kind_text(order->kind), path, error);
    return error;
}

static inline int obey_one(raftlog *log, size_t *place) {
    struct order order;
    if (!read_order(log, place, &order)) return EINVAL;
    if (order.kind == WRITE && *place < log->given) join(log, place, &order);
    if (!is_of_open(log, &order)) return obey_elsewhere(log, *place, &order);
    int error = change_open(log, &order);
    if (error) break_at(log, kind_text(order.kind), log->path, error);
    return error;
}

static int obey_all(raftlog *log) {
    int error = *log->broken ? EIO : 0;
    if (!error && !log->heap.was_opened && heap_opening_lost(&log->heap)) {
        error = EIO;
        break_at(log, "reading", "a log file again", error);
    }
    for (size_t place = 0; !error && place < log->given;) error = obey_one(log, &place);
    if (error) break_at(log, "reading", "the orders of a round", error);
    log->given = 0;
    return error;
}

int parts_obey_file(raftlog *log) {
    int error = obey_all(log);
    if (log->room > ORDERS_KEPT) {
        free(log->orders);
        log->orders = NULL;
        log->room = 0;
    }
    return error;
}

/* ---- what the proved part calls */

/* The log whose call this thread is in. */
static _Thread_local raftlog *giving;

void parts_enter(raftlog *log) {
    heap_enter(&log->heap);
    giving = log;
}

void parts_leave(void) {
    heap_leave();
    giving = NULL;
}

bool parts_make_more_room(raftlog *log, size_t len) {
    size_t room = log->room ? log->room : ORDERS_BEGIN;
    if (len > SIZE_MAX / 4) return false;
    while (room < log->given + len) room *= 2;
    uint8_t *orders = realloc(log->orders, room);
    if (!orders) return false;
    log->orders = orders;
    log->room = room;
    return true;
}

/* Carries out what was given of a purge that goes on, and puts the files behind the blocks that it
 * writes, so that its bytes are held neither here nor there. */
static int obey_ahead(raftlog *log) {
    int error = obey_all(log);
    if (!error && log->file >= 0) {
        error = sync_file(log);
        if (error) break_at(log, kind_text(SYNC), log->path, error);
    }
    if (!error) heap_catch_up(&log->heap, &log->behind);
    return error;
}

ssize_t parts_give(int to, const void *order, size_t len) {
    raftlog *log = giving;
    int error = !log || to != PARTS_ORDERS ? EBADF : 0;
    bool goes_ahead = !error && log->obeys_ahead && log->given;
    if (goes_ahead && (log->given + len > ORDERS_GATHERED || !parts_make_order_room(log, len))) error = obey_ahead(log);
    if (!error && !parts_make_order_room(log, len)) log->lacks_memory = true, error = ENOMEM;
    if (error) return errno = error, -1;
    memcpy(log->orders + log->given, order, len);
    log->given += len;
    return (ssize_t)len;
}
