/* The calls of the library. What they call is crates/raft_c: reads here, changes by rounds.c. */
#include "parts.h"

#include <stdio.h>
#include <stdlib.h>
#include <unistd.h>

static uint8_t none[1];

void raftlog_bytes_free(raftlog_bytes *bytes) {
    if (!bytes) return;
    free(bytes->data);
    memset(bytes, 0, sizeof *bytes);
}

bool parts_make_room(raftlog_bytes *bytes, size_t room) {
    if (bytes->room >= room && bytes->data) return true;
    if (room < 256) room = 256;
    uint8_t *data = realloc(bytes->data, room);
    if (!data) return false;
    bytes->data = data;
    bytes->room = room;
    return true;
}

bool parts_take_answer(raftlog *log, raftlog_bytes *bytes, uint64_t len) {
    if (len > bytes->room) {
        if (len > SIZE_MAX / 2 || !parts_make_room(bytes, len + len / 4)) return false;
        raft_c_answer(&log->handle, bytes->data, bytes->room);
    }
    bytes->len = len;
    return true;
}

char *parts_answered_text(raftlog *log) {
    size_t len = raft_c_answer(&log->handle, none, 0);
    char *text = malloc(len + 1);
    if (!text) return NULL;
    raft_c_answer(&log->handle, (uint8_t *)text, len);
    text[len] = 0;
    return text;
}

/* ---- opening and closing */

static void let_go(raftlog *log) {
    parts_remove_open(log);
    heap_end(&log->heap);
    parts_let_file_go(log);
    if (log->handle.at) raft_c_free(&log->handle);
    free(log->orders);
    parts_unlock(log);
    parts_let_folders_go(log);
    parts_forget_cuts(log);
    parts_end_spans(log);
    pthread_mutex_destroy(&log->lock);
    free(log->folder);
    free(log);
}

static raftlog *new_log(void) {
    raftlog *log = calloc(1, sizeof *log);
    if (!log) return NULL;
    log->root = log->held = log->file = -1;
    log->forks = atomic_load(&parts_forks);
    atomic_init(&log->lost, UINT64_MAX);
    if (!pthread_mutex_init(&log->lock, NULL)) return log;
    free(log);
    return NULL;
}

/* `folder` is NULL for a log in memory. */
static int tell_no_memory(const char *folder, char *text, size_t room) {
    const char *why = raftlog_code_text(RAFTLOG_NO_MEMORY);
    if (room) snprintf(text, room, folder ? "%s: %s" : "%s%s", folder ? folder : "", why);
    return RAFTLOG_NO_MEMORY;
}

/* Why an opening over what was found failed. */
static void tell_refused(raftlog *log, int code, char *text, size_t room) {
    if (code == RAFTLOG_CORRUPTION && log->folder) {
        parts_tell_damage(log, text, room);
    } else if (code == RAFTLOG_NO_MEMORY) {
        tell_no_memory(log->folder, text, room);
    } else {
        char *said = *log->broken ? NULL : parts_answered_text(log);
        parts_put_text(said ? said : *log->broken ? log->broken : raftlog_code_text(code), text, room);
        free(said);
    }
}

/* Opens the log over what was found: a code, and for a failure its text. */
static int open_found(raftlog *log, const char *settings, char *text, size_t room) {
    if (!settings) settings = "";
    log->is_opening = true;
    parts_enter(log);
    int orders = log->folder ? PARTS_ORDERS : -1;
    raft_c_open(&log->handle, orders, parts_some(settings), strlen(settings));
    int code = raft_c_settle(&log->handle, !parts_obey(log));
    parts_leave();
    log->is_opening = false;
    /* An order for which there is no memory fails as a file call does. */
    if (code == RAFTLOG_IO && log->lacks_memory) code = RAFTLOG_NO_MEMORY;
    if (code && room) tell_refused(log, code, text, room);
    return code;
}

/* What the opening itself did isn't counted; how many files there are is. */
static void forget_opening(struct parts_counts *counts) {
    uint64_t files = atomic_load(&counts->files);
    memset(counts, 0, sizeof *counts);
    atomic_store(&counts->files, files);
}

/* How a log is opened. */
struct opening {
    const char *settings;
    raftlog_progress *watch;
    void *with;
    bool refuses_lost;
};

static int open_log(const char *folder, struct opening opening, raftlog **out, char *text, size_t room) {
    *out = NULL;
    if (!text) room = 0;
    if (room) text[0] = 0;
    raftlog *log = new_log();
    if (!log) return tell_no_memory(folder, text, room);
    log->watch = opening.watch;
    log->watch_with = opening.with;
    int code =
        folder && !(log->folder = strdup(folder)) ? RAFTLOG_NO_MEMORY : raft_c_begin(&log->handle);
    if (code) return let_go(log), tell_no_memory(folder, text, room);
    int was;
    pthread_setcancelstate(PTHREAD_CANCEL_DISABLE, &was);
    parts_add_open(log);
    if (folder) code = parts_find(log, opening.settings, opening.refuses_lost, text, room);
    if (!code) code = open_found(log, opening.settings, text, room);
    if (code) let_go(log);
    pthread_setcancelstate(was, NULL);
    if (code) return code;
    forget_opening(&log->counts);
    /* A failure of a log that was closed, and had this address. */
    parts_fail(log, RAFTLOG_OK, NULL);
    *out = log;
    return RAFTLOG_OK;
}

int raftlog_open(const char *folder, const char *settings, raftlog **out, char *text,
                 size_t room) {
    return raftlog_open_watched(folder, settings, NULL, NULL, out, text, room);
}

static int open_folder(const char *folder, struct opening opening, raftlog **out, char *text, size_t room) {
    if (!out) return RAFTLOG_INVALID;
    *out = NULL;
    if (!folder || !*folder) {
        if (text) parts_put_text("the folder has no name", text, room);
        return RAFTLOG_INVALID;
    }
    return open_log(folder, opening, out, text, room);
}

int raftlog_open_watched(const char *folder, const char *settings, raftlog_progress *watch,
                         void *with, raftlog **out, char *text, size_t room) {
    return open_folder(folder, (struct opening){settings, watch, with, false}, out, text, room);
}

int raftlog_open_whole(const char *folder, const char *settings, raftlog **out, char *text, size_t room) {
    return open_folder(folder, (struct opening){settings, NULL, NULL, true}, out, text, room);
}

int raftlog_accept_missing(const char *folder, char *text, size_t room) {
    if (!text) room = 0;
    if (room) text[0] = 0;
    if (!folder || !*folder) return parts_put_text("the folder has no name", text, room), RAFTLOG_INVALID;
    int was;
    pthread_setcancelstate(PTHREAD_CANCEL_DISABLE, &was);
    raftlog *log = new_log();
    bool has_memory = log && (log->folder = strdup(folder));
    int code = has_memory ? parts_accept(log, text, room) : tell_no_memory(folder, text, room);
    if (log) let_go(log);
    pthread_setcancelstate(was, NULL);
    return code;
}

int raftlog_open_memory(const char *settings, raftlog **out, char *text, size_t room) {
    if (!out) return RAFTLOG_INVALID;
    return open_log(NULL, (struct opening){settings, NULL, NULL, false}, out, text, room);
}

/* In a child that was forked: frees memory alone. Nothing is freed if a thread of the parent was in a call on the log, since
 * what that call had in hand may be half done. */
static int close_forked(raftlog *log) {
    bool was_in_call = atomic_load(&log->newest) || atomic_load(&log->reading);
    int code = parts_fail(log, RAFTLOG_FAILED, strdup(parts_forked_text));
    if (log->folder_count) log->folders[0].fd = log->root;
    if (!was_in_call) let_go(log);
    return code;
}

int raftlog_close(raftlog *log) {
    int code = RAFTLOG_OK;
    if (log && parts_is_forked(log)) return close_forked(log);
    if (log && parts_close(log, &code)) let_go(log);
    return code;
}

/* ---- changes */

static bool is_lacking(const void *bytes, size_t len) { return !bytes && len; }

/* Refuses a call by its arguments, or for want of memory here. */
static int refuse(const raftlog *log, int code) {
    return log ? parts_fail(log, code, NULL) : code;
}

static int change(raftlog *log, struct parts_change *change) {
    parts_take_turn(log, change);
    return change->code ? parts_fail(log, change->code, change->text) : RAFTLOG_OK;
}

int raftlog_write_bytes(raftlog *log, const void *bytes, size_t len, bool sync) {
    if (!log || is_lacking(bytes, len)) return refuse(log, RAFTLOG_INVALID);
    struct parts_change write = {
        .kind = PARTS_WRITE, .bytes = parts_some(bytes), .len = len, .sync = sync};
    return change(log, &write);
}

int raftlog_write_once_bytes(raftlog *log, const void *bytes, size_t len, const uint64_t *groups,
                             const uint64_t *numbers, size_t count, bool sync) {
    bool lacks = is_lacking(bytes, len) || is_lacking(groups, count) || is_lacking(numbers, count);
    if (!log || lacks || count > PTRDIFF_MAX / sizeof *groups) return refuse(log, RAFTLOG_INVALID);
    struct parts_numbers once = {groups, numbers, count};
    struct parts_change write = {.kind = PARTS_WRITE_ONCE,
                                 .bytes = parts_some(bytes),
                                 .len = len,
                                 .sync = sync,
                                 .once = &once};
    return change(log, &write);
}

int raftlog_sync(raftlog *log) {
    if (!log) return RAFTLOG_INVALID;
    struct parts_change sync = {.kind = PARTS_SYNC, .sync = true};
    return change(log, &sync);
}

/* A change that tells how many there were. */
static int counted(raftlog *log, struct parts_change counts, uint64_t *count) {
    if (!log) return RAFTLOG_INVALID;
    int code = change(log, &counts);
    if (count) *count = code ? 0 : counts.found;
    return code;
}

int raftlog_compact_to(raftlog *log, uint64_t group, uint64_t index, uint64_t *count) {
    struct parts_change compact = {.kind = PARTS_COMPACT_TO, .group = group, .index = index};
    return counted(log, compact, count);
}

int raftlog_must_rewrite_append_queue(raftlog *log, uint64_t *count) {
    return counted(log, (struct parts_change){.kind = PARTS_REWRITE_APPEND}, count);
}

int raftlog_must_rewrite_append_groups(raftlog *log, uint64_t *watermark, uint64_t *group,
                                       uint64_t budget) {
    if (!log || !watermark || !group) return refuse(log, RAFTLOG_INVALID);
    struct parts_change some = {.kind = PARTS_REWRITE_GROUPS,
                                .watermark = *watermark,
                                .from = *group,
                                .budget = budget};
    int code = change(log, &some);
    if (code) return code;
    *group = some.found;
    *watermark = some.found_too;
    return RAFTLOG_OK;
}

int raftlog_must_rewrite_rewrite_queue(raftlog *log, uint64_t *count) {
    return counted(log, (struct parts_change){.kind = PARTS_REWRITE_REWRITE}, count);
}

int raftlog_must_rewrite_rewrite_groups(raftlog *log, uint64_t *group, uint64_t budget) {
    if (!log || !group) return refuse(log, RAFTLOG_INVALID);
    struct parts_change some = {.kind = PARTS_RENEW_GROUPS, .from = *group, .budget = budget};
    int code = change(log, &some);
    if (!code) *group = some.found;
    return code;
}

int raftlog_must_purge_all_stale(raftlog *log, uint64_t *count) {
    return counted(log, (struct parts_change){.kind = PARTS_PURGE_STALE}, count);
}

int raftlog_purge_expired_files(raftlog *log, raftlog_bytes *groups) {
    raftlog_bytes own = {0};
    if (!log) return RAFTLOG_INVALID;
    struct parts_change purge = {.kind = PARTS_PURGE_EXPIRED, .answer = groups ? groups : &own};
    if (!parts_make_room(purge.answer, 1)) return refuse(log, RAFTLOG_NO_MEMORY);
    int code = change(log, &purge);
    if (code) purge.answer->len = 0;
    raftlog_bytes_free(&own);
    return code;
}

/* ---- reads */

/* Begins a read, with the lock held where it answers 0. */
static int begin(raftlog *log) {
    if (!parts_begin_read(log)) return parts_fail_closed(log);
    pthread_mutex_lock(&log->lock);
    return RAFTLOG_OK;
}

/* Begins a read that answers bytes. */
static int begin_bytes(raftlog *log, raftlog_bytes *bytes) {
    if (!log || !bytes) return refuse(log, RAFTLOG_INVALID);
    if (!parts_make_room(bytes, 1)) return refuse(log, RAFTLOG_NO_MEMORY);
    bytes->len = 0;
    return begin(log);
}

static char *corruption_text(const raftlog *log) {
    char *text;
    const char *said = "corruption: bytes of a log file can't be read, or were changed by another program, in";
    return asprintf(&text, "%s %s", said, log->folder) < 0 ? NULL : text;
}

/* Ends a read that saw nothing of a later round than this one. The log isn't looked at after. */
static int end(raftlog *log, int code, uint64_t round) {
    bool fails = code != RAFTLOG_OK && code != RAFTLOG_ABSENT;
    char *text = NULL;
    if (code == RAFTLOG_CORRUPTION && log->folder) text = corruption_text(log);
    else if (fails && code != RAFTLOG_NO_MEMORY) text = parts_answered_text(log);
    pthread_mutex_unlock(&log->lock);
    if (!parts_wait_for(log, round) || code == RAFTLOG_FAILED) {
        free(text);
        text = *log->broken ? strdup(log->broken) : NULL;
        code = RAFTLOG_FAILED;
    }
    if (code != RAFTLOG_OK && code != RAFTLOG_ABSENT) parts_fail(log, code, text);
    parts_end_read(log);
    return code;
}

/* Ends a read of a group. */
static int end_of(raftlog *log, int code, uint64_t group) {
    return end(log, code, *parts_touched(log, group));
}

/* Ends a read that put as much of its answer in `bytes` as fits: the rest of it, where it is
 * longer. */
static int end_bytes(raftlog *log, int code, raftlog_bytes *bytes, uint64_t len, uint64_t round) {
    if (code == RAFTLOG_OK && !parts_take_answer(log, bytes, len)) code = RAFTLOG_NO_MEMORY;
    code = end(log, code, round);
    if (code) bytes->len = 0;
    return code;
}

static int end_bytes_of(raftlog *log, int code, raftlog_bytes *bytes, uint64_t len,
                        uint64_t group) {
    return end_bytes(log, code, bytes, len, *parts_touched(log, group));
}

int raftlog_get(raftlog *log, uint64_t group, const void *key, size_t key_len,
                raftlog_bytes *value) {
    uint64_t len = 0;
    int code = is_lacking(key, key_len) ? refuse(log, RAFTLOG_INVALID) : begin_bytes(log, value);
    if (code) return code;
    code =
        raft_c_get(&log->handle, group, parts_some(key), key_len, value->data, value->room, &len);
    return end_bytes_of(log, code, value, len, group);
}

int raftlog_get_entry(raftlog *log, uint64_t group, uint64_t index, raftlog_bytes *value) {
    uint64_t len = 0;
    int code = begin_bytes(log, value);
    if (code) return code;
    code = raft_c_get_entry(&log->handle, group, index, value->data, value->room, &len);
    return end_bytes_of(log, code, value, len, group);
}

int raftlog_fetch_entries(raftlog *log, uint64_t group, uint64_t begin_at, uint64_t end_at,
                          uint64_t max_size, raftlog_bytes *entries) {
    uint64_t len = 0;
    int code = begin_bytes(log, entries);
    if (code) return code;
    code = raft_c_fetch(&log->handle, group, begin_at, end_at, max_size, entries->data,
                        entries->room, &len);
    return end_bytes_of(log, code, entries, len, group);
}

static int span(raftlog *log, uint64_t group, uint64_t *first, uint64_t *last) {
    if (!log || !first || !last) return refuse(log, RAFTLOG_INVALID);
    int code = begin(log);
    if (code) return code;
    code = raft_c_span(&log->handle, group);
    if (code == RAFTLOG_OK) raft_c_numbers(&log->handle, first, last);
    return end_of(log, code, group);
}

int raftlog_first_index(raftlog *log, uint64_t group, uint64_t *index) {
    uint64_t last;
    return span(log, group, index, &last);
}

int raftlog_last_index(raftlog *log, uint64_t group, uint64_t *index) {
    uint64_t first;
    return span(log, group, &first, index);
}

int raftlog_scan(raftlog *log, uint64_t group, const raftlog_slice *start,
                 const raftlog_slice *end, bool reverse, uint64_t limit, raftlog_bytes *pairs) {
    raftlog_slice empty = {none, 0};
    const raftlog_slice *from = start ? start : &empty, *to = end ? end : &empty;
    uint64_t len = 0;
    bool lacks = is_lacking(from->data, from->len) || is_lacking(to->data, to->len);
    int code = lacks ? refuse(log, RAFTLOG_INVALID) : begin_bytes(log, pairs);
    if (code) return code;
    code =
        raft_c_scan(&log->handle, group, parts_some(from->data), from->len, parts_some(to->data),
                    to->len, end != NULL, reverse, limit, pairs->data, pairs->room, &len);
    return end_bytes_of(log, code, pairs, len, group);
}

int raftlog_groups(raftlog *log, raftlog_bytes *groups) {
    uint64_t len = 0;
    int code = begin_bytes(log, groups);
    if (code) return code;
    code = raft_c_groups(&log->handle, groups->data, groups->room, &len);
    return end_bytes(log, code, groups, len, log->handed);
}

/* ---- a purge in short calls */

/* What a purge by thresholds would rewrite now. */
struct needs {
    uint64_t watermark; /* the last file of the Append queue; 0: none */
    uint64_t rewrite;   /* 1: the Rewrite queue */
};

static int purge_needs(raftlog *log, struct needs *needs) {
    int code = begin(log);
    if (code) return code;
    code = raft_c_purge_needs(&log->handle);
    if (code == RAFTLOG_OK) raft_c_numbers(&log->handle, &needs->watermark, &needs->rewrite);
    return end(log, code, 0);
}

int raftlog_append_rewrite_watermark(raftlog *log, uint64_t *watermark) {
    struct needs needs;
    if (!log || !watermark) return refuse(log, RAFTLOG_INVALID);
    int code = purge_needs(log, &needs);
    if (code) return code;
    *watermark = needs.watermark;
    return needs.watermark ? RAFTLOG_OK : RAFTLOG_ABSENT;
}

/* Rewrites what the Append queue has up to a file. */
static int rewrite_append_shortly(raftlog *log, uint64_t watermark, uint64_t budget) {
    uint64_t group = 0;
    int code;
    do code = raftlog_must_rewrite_append_groups(log, &watermark, &group, budget);
    while (!code && group);
    return code;
}

static int rewrite_rewrite_shortly(raftlog *log, uint64_t budget) {
    uint64_t group = 0;
    int code;
    do code = raftlog_must_rewrite_rewrite_groups(log, &group, budget);
    while (!code && group);
    return code;
}

/* The Rewrite queue comes first, since a call on the Append queue ends a series on it. The last call drops the files. */
int raftlog_purge_in_short_calls(raftlog *log, uint64_t budget, raftlog_bytes *groups) {
    struct needs needs;
    if (!log) return RAFTLOG_INVALID;
    if (groups) groups->len = 0;
    int code = purge_needs(log, &needs);
    if (!code && needs.rewrite) code = rewrite_rewrite_shortly(log, budget);
    if (!code && needs.watermark) code = rewrite_append_shortly(log, needs.watermark, budget);
    return code ? code : raftlog_purge_expired_files(log, groups);
}
