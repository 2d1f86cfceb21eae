/* What the files of the library share. */
#ifndef RAFTLOG_PARTS_H
#define RAFTLOG_PARTS_H

#include "heap.h"
#include "raftlog.h"

#include <endian.h>
#include <limits.h>
#include <pthread.h>
#include <stdatomic.h>
#include <string.h>

/* A call of the system once more, as long as a signal interrupts it; from unistd.h of glibc. */
#ifndef TEMP_FAILURE_RETRY
#define TEMP_FAILURE_RETRY(call) ({ long done; do done = (call); while (done < 0 && errno == EINTR); done; })
#endif

/* crates/raft_c. A slice is a pointer, which is never null, and a length. */
typedef struct {
    void *at;
} raft_c_handle;

int32_t raft_c_begin(raft_c_handle *);
void raft_c_free(raft_c_handle *);
int32_t raft_c_add_file(raft_c_handle *, const uint8_t *, size_t, const uint8_t *, size_t);
int32_t raft_c_add_folder(raft_c_handle *, const uint8_t *, size_t);
void raft_c_open(raft_c_handle *, int32_t, const uint8_t *, size_t);
void raft_c_close(raft_c_handle *);
void raft_c_write(raft_c_handle *, const uint8_t *, size_t, bool);
void raft_c_write_once(raft_c_handle *, const uint8_t *, size_t, const uint64_t *, size_t,
                       const uint64_t *, size_t, bool);
void raft_c_sync(raft_c_handle *);
void raft_c_compact_to(raft_c_handle *, uint64_t, uint64_t);
void raft_c_must_rewrite_append_queue(raft_c_handle *);
void raft_c_must_rewrite_append_groups(raft_c_handle *, uint64_t, uint64_t, uint64_t);
void raft_c_must_rewrite_rewrite_queue(raft_c_handle *);
void raft_c_must_rewrite_rewrite_groups(raft_c_handle *, uint64_t, uint64_t);
void raft_c_must_purge_all_stale(raft_c_handle *);
void raft_c_purge_expired_files(raft_c_handle *, uint64_t);
int32_t raft_c_settle(raft_c_handle *, bool);
int32_t raft_c_span(raft_c_handle *, uint64_t);
int32_t raft_c_purge_needs(raft_c_handle *);
int32_t raft_c_get(raft_c_handle *, uint64_t, const uint8_t *, size_t, uint8_t *, size_t,
                   uint64_t *);
int32_t raft_c_get_entry(raft_c_handle *, uint64_t, uint64_t, uint8_t *, size_t, uint64_t *);
int32_t raft_c_fetch(raft_c_handle *, uint64_t, uint64_t, uint64_t, uint64_t, uint8_t *, size_t,
                     uint64_t *);
int32_t raft_c_scan(raft_c_handle *, uint64_t, const uint8_t *, size_t, const uint8_t *, size_t,
                    bool, bool, uint64_t, uint8_t *, size_t, uint64_t *);
int32_t raft_c_groups(raft_c_handle *, uint8_t *, size_t, uint64_t *);
uint64_t raft_c_answer(raft_c_handle *, uint8_t *, size_t);
void raft_c_numbers(raft_c_handle *, uint64_t *, uint64_t *);
void raft_c_counts(raft_c_handle *, uint64_t *, uint64_t *, uint64_t *);

/* What changes a log; from the first rewrite on each is a round of its own. */
enum parts_kind {
    PARTS_WRITE,
    PARTS_WRITE_ONCE,
    PARTS_SYNC,
    PARTS_COMPACT_TO,
    PARTS_REWRITE_APPEND,
    PARTS_REWRITE_GROUPS,
    PARTS_REWRITE_REWRITE,
    PARTS_RENEW_GROUPS,
    PARTS_PURGE_STALE,
    PARTS_PURGE_EXPIRED,
    PARTS_CLOSE
};

/* Groups and the numbers beside them, by which a batch acts once. */
struct parts_numbers {
    const uint64_t *groups, *numbers;
    size_t count;
};

/* A change, with its place in the queue. It is its caller's, and stands still until it is
 * answered. It is made for each call, so it is small. */
struct parts_change {
    enum parts_kind kind;
    atomic_int state; /* its place in the queue, between these two */
    struct parts_change *older, *newer;
    bool sync;
    int code; /* its answer */
    char *text; /* of a failure, where there was memory for it; the caller frees it */
    union {
        struct { /* of the first two kinds */
            const uint8_t *bytes;
            size_t len;
            const struct parts_numbers *once;
        };
        struct { /* of a compaction */
            uint64_t group, index;
        };
        struct { /* of a rewriting of some groups */
            uint64_t watermark, from, budget;
        };
        raftlog_bytes *answer; /* of a purge by thresholds */
        struct {               /* once it is done, of all kinds from a compaction on but that one */
            uint64_t found, found_too;
        };
    };
};

static inline bool parts_is_batch(const struct parts_change *change) {
    return change->kind <= PARTS_WRITE_ONCE;
}

static inline bool parts_is_purge(const struct parts_change *change) {
    return change->kind >= PARTS_REWRITE_APPEND && change->kind < PARTS_CLOSE;
}

/* Groups have places in a table of this many: those of one place wait for one another. */
enum { PARTS_PLACES = 4096 };

/* A bit of `reading`: no read begins any more. */
enum { PARTS_CLOSING = 1 << 30 };

/* Room for a path from the log's folder. */
enum { PARTS_PATH_ROOM = 4096 };

/* How the name of a copy ends that becomes a log file. */
#define PARTS_MOVED ".moved"

/* A folder that is held open, and its path from the log's. */
struct parts_folder {
    char *path;
    int fd;
};

/* Who may look at what: what stands first is atomic; `lock` guards the handle and what follows on
 * it; what stands from the orders on is the leader's, who is one thread at a time. */
struct raftlog {
    _Atomic(struct parts_change *) newest; /* that waits or is carried out; NULL: none is */
    _Atomic uint64_t done;                 /* rounds that are over */
    atomic_int reading;                    /* reads that have begun, and PARTS_CLOSING */
    _Atomic uint64_t lost;                 /* the round whose orders failed; none: UINT64_MAX */
    struct parts_counts {
        _Atomic uint64_t changes, batches, synced_changes, largest_round, syncs, bytes, sync_ns;
        _Atomic uint64_t writes, longest_sync_ns, sync_times[RAFTLOG_TIMES];
        _Atomic uint64_t next_files, recycled_files, deleted_files, files;
        _Atomic uint64_t purges, purge_ns, longest_purge_ns;
        _Atomic uint64_t index_bytes, block_hits, block_misses; /* by `raftlog_stats` */
    } counts;
    pthread_mutex_t lock;
    raft_c_handle handle; /* of a log, from its opening to its close */
    uint64_t handed;      /* the round that is handed over, or was last */
    uint8_t *orders;      /* that were given, and not carried out yet */
    size_t given, room;   /* their bytes */
    bool obeys_ahead;     /* in a purge: the first orders are carried out before all are given */
    bool is_opening;
    bool lacks_memory; /* for an order: it can't be given, or not be carried out */
    raftlog_cut *cuts; /* that the opening made; their paths are the log's */
    size_t cut_count, cut_room;
    char path[PARTS_PATH_ROOM]; /* of the file that is open to be changed, from the folder */
    size_t path_len;            /* 0: none is */
    int file;
    struct heap heap;        /* the blocks that the proved part keeps the files in */
    struct heap_file behind; /* the open file, for its block */
    raftlog_progress *watch; /* of the opening; NULL: nobody is told */
    void *watch_with;
    char *folder;     /* its path, from the root on, for texts; NULL: in memory */
    struct parts_folder *folders; /* the log's own first, then those below that hold its files */
    size_t folder_count, folder_room;
    struct parts_spans *spans; /* the note of the files' numbers; NULL: in memory */
    int root, held;   /* descriptors of the folder itself and of LOCK, both locked */
    unsigned forks;   /* `parts_forks` when the log was opened */
    struct raftlog *next_open, **at_open; /* of the logs that are open */
    char broken[400]; /* the order that failed, and why: nothing is changed any more */
    uint64_t touched[PARTS_PLACES]; /* by `lock`: the last round that changed a group of a place */
};

static inline const uint8_t *parts_some(const void *bytes) {
    static uint8_t none[1];
    return bytes ? bytes : none;
}

static inline uint64_t parts_number(const uint8_t *at) {
    uint64_t number;
    memcpy(&number, at, 8);
    return be64toh(number);
}

/* As much of a text as fits, ended by a NUL. */
void parts_put_text(const char *from, char *text, size_t room);

/* The path of what stands in a folder; NULL where memory is wanting. */
char *parts_joined(const char *folder, const char *name);

/* These answer 0, or an error of the system's. */
int parts_sync_name(const char *path);
int parts_make_folders(const char *path);

/* The same of names in folders that are held. Each change of a name is synced, so that a crash leaves it. */
int parts_make_below(raftlog *log, const char *path);
int parts_make_file(int in, const char *name);
int parts_delete_file(int in, const char *name);
int parts_rename_file(int in, const char *name, int other, const char *next);
bool parts_has_name(int in, const char *name);

/* Holds a folder. The descriptor is the log's after 0, else it is closed. */
int parts_hold(raftlog *log, const char *path, size_t len, int fd);
/* The descriptor of the folder that holds the last name of a path from the log's. One that isn't held is opened, and no link
 * is followed: -1 and `errno`, ELOOP for a link. */
int parts_folder_of(raftlog *log, const char *path, const char **name);
void parts_let_folders_go(raftlog *log);

/* Locks LOCK and the folder: 0, EWOULDBLOCK if another process has it, EILSEQ for a LOCK that is no file. */
int parts_lock(raftlog *log);
/* Before a name is changed: whether LOCK is still the file that is locked. EBUSY if another process has the next one. */
int parts_keep_lock(raftlog *log);
void parts_unlock(raftlog *log);
/* Who has the folder open, as far as the system says. */
void parts_tell_holder(const raftlog *log, char *text, size_t room);

/* How often this process was forked since a log was first open in it or in a parent. */
extern atomic_uint parts_forks;
static inline bool parts_is_forked(const raftlog *log) {
    return log->forks != atomic_load_explicit(&parts_forks, memory_order_relaxed);
}
extern const char parts_forked_text[];
/* From here on calls on the log fail in a child that is forked, and the child doesn't keep the lock. */
void parts_add_open(raftlog *log);
void parts_remove_open(raftlog *log);
/* A fork waits between these two, while a descriptor is locked and noted. */
void parts_pause_forks(void);
void parts_resume_forks(void);

/* Around a call of the proved part: its orders and its blocks are this log's. */
void parts_enter(raftlog *log);
void parts_leave(void);

/* The descriptor that the proved part gives orders to, which is none of the system's. */
enum { PARTS_ORDERS = INT_MAX };

/* What the proved part calls in place of `write`: takes an order of the log whose call this is. Of
 * a purge that gives many the first ones are carried out here. */
ssize_t parts_give(int to, const void *order, size_t len);

/* Makes room for so many bytes of orders more; false if there is no memory. */
bool parts_make_more_room(raftlog *log, size_t len);
static inline bool parts_make_order_room(raftlog *log, size_t len) {
    return len <= log->room - log->given || parts_make_more_room(log, len);
}

/* Carries out the orders that were given, up to the first that fails, which `broken` then tells:
 * 0, or an error. */
int parts_obey_file(raftlog *log);
static inline int parts_obey(raftlog *log) { return log->folder ? parts_obey_file(log) : 0; }
void parts_let_file_go(raftlog *log);

/* Keeps why nothing is changed any more, if nothing was kept before. */
void parts_break(raftlog *log, const char *why);

/* Lets a change wait for its turn, alone or in a round with others, and answers its code. */
int parts_take_turn(raftlog *log, struct parts_change *mine);

/* Closes the log as its last round, once each call that waits has its answer. False where another
 * close was first: then the log isn't looked at any more. */
bool parts_close(raftlog *log, int *code);

/* Begins a read: false where the log is being closed, and in a child that was forked. */
bool parts_begin_read(raftlog *log);
/* The failure of a read that didn't begin. */
int parts_fail_closed(raftlog *log);
/* Waits until a round is over: whether what was read of it stands. */
bool parts_wait_for(raftlog *log, uint64_t round);
/* Ends a read, after which it doesn't look at the log. */
void parts_end_read(raftlog *log);

/* For counts that one thread at a time adds to. */
static inline void parts_add(_Atomic uint64_t *count, uint64_t more) {
    uint64_t sum = atomic_load_explicit(count, memory_order_relaxed) + more;
    atomic_store_explicit(count, sum, memory_order_release);
}

static inline void parts_raise(_Atomic uint64_t *greatest, uint64_t number) {
    if (atomic_load_explicit(greatest, memory_order_relaxed) < number)
        atomic_store_explicit(greatest, number, memory_order_release);
}

uint64_t parts_now_ns(void);

/* The last round that changed a group, and may not be over. Under `lock`. */
static inline uint64_t *parts_touched(raftlog *log, uint64_t group) {
    return &log->touched[group * 0x9E3779B97F4A7C15ull >> 52];
}

/* The text of what the proved part answered last; NULL where memory is wanting. Under `lock`. */
char *parts_answered_text(raftlog *log);

/* Room for as many bytes; false where memory is wanting. */
bool parts_make_room(raftlog_bytes *bytes, size_t room);

/* Puts the answer of the proved part's last call there: false where memory is wanting. Under
 * `lock`. */
bool parts_take_answer(raftlog *log, raftlog_bytes *bytes, uint64_t len);

/* Keeps a failure of a log as this thread's last one, and answers its code. It doesn't look at the
 * log, which may be closed meanwhile. The text is freed; NULL stands for that of the code. */
int parts_fail(const raftlog *log, int code, char *text);

/* Makes and locks the folder, and hands what stands in it over: a code, for a failure a text. If asked, fails as
 * RAFTLOG_LOST if the folder's note tells of lost files. */
int parts_find(raftlog *log, const char *settings, bool refuses_lost, char *text, size_t room);
/* Locks the folder, and accepts what its note reports. */
int parts_accept(raftlog *log, char *text, size_t room);
bool parts_is_log_name(const char *name);

/* The note of the files' numbers. These answer 0, or an error of the system's. It is read first, then each path that the
 * opening found is given, and then they are compared. */
int parts_begin_spans(raftlog *log, const char *settings);
/* The second folder that the settings name, or none. False if that isn't known: it has another form than a line
 * `spill-dir = "PATH"`, or `room` is too short. */
bool parts_find_spill(const char *settings, char *spill, size_t room);
int parts_find_span(raftlog *log, const char *path);
int parts_judge_spans(raftlog *log);
/* Says which file is lost, if one is. */
bool parts_tell_lost(const raftlog *log, char *text, size_t room);
/* Before a file is made at a path. */
void parts_replace_span(raftlog *log, const char *path);
/* Writes again what was refused then. */
void parts_catch_up_spans(raftlog *log);
/* After a file was made at a path. A refused note leaves the one before, which is true. */
void parts_add_span(raftlog *log, const char *path);
/* Before the file at a path, and all of its queue with smaller numbers, are deleted or get other names; of the last file
 * it alone. */
int parts_leave_span(raftlog *log, const char *path);
bool parts_is_same_queue(raftlog *log, const char *path, const char *other);
/* The note then has the files after the last gap, without a loss. */
int parts_accept_spans(raftlog *log);
void parts_end_spans(raftlog *log);

/* Why an opening found corruption: the first damage of a log file, and its place. */
void parts_tell_damage(const raftlog *log, char *text, size_t room);

/* Notes what an opening cuts off the open file, of this path from the folder, if it cuts it to this size. */
int parts_note_cut(raftlog *log, const char *path, uint64_t size);
void parts_forget_cuts(raftlog *log);

/* The checksum of records. */
uint32_t parts_crc(const uint8_t *at, size_t len);

/* A record at a place in a file's bytes: where its footer begins, and its length. */
struct parts_record {
    size_t footer, len;
};

enum { PARTS_RECORD_HEADER = 16 };

/* False if the bytes begin with no record's header. The record may be longer than they are. */
bool parts_read_header(const uint8_t *at, size_t left, struct parts_record *record);
/* Under which signature the footer's checksum holds, of a record that ends in its file. */
uint32_t parts_signature(const uint8_t *at, const struct parts_record *record);
/* Whether the checksum of its entries holds. */
bool parts_has_sound_block(const uint8_t *at, const struct parts_record *record);

/* Copies a struct to one that may be shorter or longer in the program that gets it: then zeros follow. */
static inline void parts_copy_sized(void *to, size_t size, const void *from, size_t known) {
    memcpy(to, from, size < known ? size : known);
    if (size > known) memset((uint8_t *)to + known, 0, size - known);
}

#endif
