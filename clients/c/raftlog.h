/* raftlog: a log for many Raft groups, in a folder. Batches of entries, keys and values are appended to one shared
 * log, synced on request, and found again after a crash.
 *
 * Results. A function that returns an `int` returns RAFTLOG_OK (0) if it is done, RAFTLOG_ABSENT (20) if the
 * requested value does not exist, and else the code of a failure, whose text `raftlog_message` returns. Each call may fail
 * as RAFTLOG_INVALID for a NULL that must not be one, as RAFTLOG_NO_MEMORY, and as RAFTLOG_FAILED if the log has
 * failed before. The comment on a call names its other failures. A failure loses nothing that was done before. A
 * change that is refused leaves the log's contents as they are. If the log fails in a change (RAFTLOG_IO,
 * RAFTLOG_FAILED, or RAFTLOG_NO_MEMORY and then RAFTLOG_FAILED), the next opening finds all that was done before, and
 * that change or not.
 *
 * Units. Groups and indexes are 64-bit numbers; 2^64 - 1 is no index. Sizes and lengths are in bytes. A key, a value
 * and an entry may be empty; a pointer may be NULL if its length is 0. Keys that begin with two underscores are the
 * engine's own, and so is the key "\xffonce", at which it keeps a group's number; reads do not return them.
 *
 * Ownership. A log, a batch and a buffer are the caller's from the call that makes them to the call that frees them. A
 * call copies its arguments before it returns; none of them may be in the buffer that gets its result. A result is in
 * a buffer of the caller's until the next call that gets that buffer; entries, keys and values that are taken from it
 * point into it.
 *
 * Threads. Many threads may use a log. A batch, a buffer and what points into it belong to one thread at a time. A
 * signal's handler may use no log. `pthread_cancel`: a change can be cancelled at its beginning, before anything is
 * done; once it has begun it ends with its result. A read cannot be cancelled. Asynchronous cancellation is not
 * supported.
 *
 * Processes. In a child that was forked each call on a log of the parent fails as RAFTLOG_FAILED and does nothing.
 * `raftlog_close` there frees only memory, and `raftlog_missing` and `raftlog_cuts` return what the parent's opening
 * found. The child does not keep the parent's folder locked. Its own logs work as usual.
 *
 * Folders. The log holds its folder open until the close, and reaches its files through it. So it continues in its own
 * folder if the folder is moved, if another one gets its name, or if the program changes its working directory. A link
 * that leads to the folder is followed once, at the opening; below the folder no link but LOCK is followed. The folder
 * is locked by its file LOCK and, if the file system can do that, by itself. Before the log makes, renames or deletes
 * a file it compares LOCK with the file that it locked. If LOCK was removed, the log locks a new one, and fails as
 * RAFTLOG_IO if another process has that. If another program deleted the file that is written, the next sync fails as
 * RAFTLOG_IO.
 *
 * Rounds. Changes (all calls from `raftlog_write` to the purges) that come while others are carried out wait, and are
 * taken in the order in which they came. The thread of the first one that waits carries out a round: the changes that
 * wait, and those that come before the round's sync. Each is done or refused by itself, after those before it. Then
 * all their changes of files are made, with one sync at the end if a change that is done asked for a sync. Then each
 * call returns. So threads that write at the same time share a sync, and a single change has its own
 * round.
 *   A round has at most RAFTLOG_ROUND_CHANGES changes, and RAFTLOG_ROUND_BYTES bytes of batches or one batch that is
 * longer. A purge has its own round.
 *   A write without a sync that comes while a sync runs waits for the sync, since changes of files are made in turn.
 * After a crash no write is found without those before it.
 *   If a change of a file or the sync fails, or there is no memory for one, each change of the round fails as
 * RAFTLOG_IO. So does one that asked for no sync, and one that was refused. The next opening finds all that was done
 * before, and of this round none, the first ones or all. Later calls fail as RAFTLOG_FAILED.
 *
 * Reads. A read sees each change whose call returned before the read began. It may see a change whose call has not
 * returned, as a whole; then the read returns after that change's round, and fails as RAFTLOG_FAILED if the round
 * failed. So what a read returns of a synced write survives a crash as the write itself does. A read waits for changes
 * of files and a sync of one round at most. It does so only if the round changes its group, or one of the few groups that
 * share its place in a table of 4096 (`raftlog_groups`: any group).
 *   But calls enter the log itself in turn. There a read of any group waits for a read of entries that are not in
 * memory, and for a purge until it has moved all that it moves. A purge reads cold entries from the disk; its writes,
 * except the last RAFTLOG_PURGE_BYTES, are carried out meanwhile. `raftlog_must_rewrite_append_queue` lets reads in
 * after each RAFTLOG_MOVED_BYTES, or after a group that has more. `raftlog_purge_in_short_calls` lets in reads and writes
 * after each budget, and so do your own series of short calls.
 *
 * Proved, for the functions below these (crates/raft_c): for each code, what the log has done and its contents then,
 * and for a failure its cause. Proved too: at each moment inside a call a crash leaves all that was synced before. The
 * files beside this one are trusted. They let in one call of the proved part at a time, with valid pointers and an open
 * log, and their prototypes of the proved functions are right. They carry out each change of a file that a call
 * ordered, in turn, before that call or a read that saw it returns. If they can't, they report the failure to the
 * proved part and to each caller of the round. clients/README.md has the whole list. */
#ifndef RAFTLOG_H
#define RAFTLOG_H

#include <stdbool.h>
#include <stddef.h>
#include <stdint.h>

#ifdef __cplusplus
extern "C" {
#endif

#define RAFTLOG_VERSION "0.2.0"

/* The version of the library that is loaded. RAFTLOG_VERSION is that of this header, which may be an older one. */
const char *raftlog_version(void);

enum {
    RAFTLOG_OK = 0,
    /* The folder, a setting, a key, a bound or the bytes of a batch are refused, or a NULL that must not be one. */
    RAFTLOG_INVALID = 1,
    /* The contents of a log file cannot be read, and the recovery mode does not tolerate it. The text of an opening
     * names the file, the place and the cause. */
    RAFTLOG_CORRUPTION = 2,
    /* A file call failed. After a change or an opening the log has failed; after a read it has not. */
    RAFTLOG_IO = 3,
    /* There was no space. After a write the log is as it was, and the write can be tried again; after a purge the log
     * has failed. (In a folder no space is RAFTLOG_IO.) */
    RAFTLOG_TRY_AGAIN = 4,
    /* Entries whose indexes are not consecutive, or do not follow those that the group has. */
    RAFTLOG_GAP = 5,
    /* An index of 2^64 - 1, a record that is too long, or no number left for a next file. */
    RAFTLOG_RANGE = 6,
    /* A fetch that begins before the first entry. */
    RAFTLOG_COMPACTED = 7,
    /* A fetch that ends past the last entry. */
    RAFTLOG_NO_ENTRY = 8,
    /* The bytes of an entry have another index. */
    RAFTLOG_WRONG_INDEX = 9,
    /* The bytes of an entry are too short for an index. */
    RAFTLOG_NOT_AN_ENTRY = 10,
    /* The log failed before: close it, and open its folder again. */
    RAFTLOG_FAILED = 11,
    /* No memory. Each log keeps 2 MB for a change that has begun. If a change needed more at once, it may have failed
     * the log: then the next call fails as RAFTLOG_FAILED, and the next opening finds the change or not, as after
     * RAFTLOG_IO. Otherwise the log is as it was. */
    RAFTLOG_NO_MEMORY = 12,
    /* The log has a compressed record, which cannot be read. */
    RAFTLOG_LZ4 = 13,
    /* Some numbers of a write are greater than those that their groups keep, and others are not. */
    RAFTLOG_STALE_NUMBER = 18,
    /* The requested value does not exist. */
    RAFTLOG_ABSENT = 20,
    /* The folder is open already. The text names the process, if the system tells it. */
    RAFTLOG_IN_USE = 30,
    /* A log file's name in the folder is that of a link, a folder, a device or a file with several names, or LOCK is a
     * device. */
    RAFTLOG_NOT_PLAIN = 31,
    /* The folder, or its note SPANS, cannot be made, locked or read. */
    RAFTLOG_FOLDER = 32,
    /* A log file is missing or was, or does not follow on the others (`raftlog_open_whole`). The text names one that is
     * missing or does not follow. */
    RAFTLOG_LOST = 33
};

/* The most that a round takes, that a purge writes before it waits for the disk, and that a purge of the Append queue
 * moves before it lets reads in. */
enum {
    RAFTLOG_ROUND_CHANGES = 256,
    RAFTLOG_ROUND_BYTES = 1 << 20,
    RAFTLOG_PURGE_BYTES = 1 << 26,
    RAFTLOG_MOVED_BYTES = 1 << 22
};

typedef struct raftlog raftlog;
typedef struct raftlog_batch raftlog_batch;

/* Bytes of the caller's, or a part of a result. */
typedef struct {
    const uint8_t *data;
    size_t len;
} raftlog_slice;

typedef struct {
    uint64_t index;
    const uint8_t *data;
    size_t len;
} raftlog_entry;

/* A result, in bytes that the caller owns. Begin with all zeros. A buffer may be used for many calls: each replaces
 * what it contains, and makes more room if needed. */
typedef struct {
    uint8_t *data;
    size_t len;
    size_t room;
} raftlog_bytes;

/* Frees the room, and leaves an empty buffer, which may be used again. */
void raftlog_bytes_free(raftlog_bytes *bytes);

/* ---- opening and closing */

/* Opens the log in a folder and stores it in `*out`; it is the caller's until `raftlog_close`. A missing folder is
 * made. The settings are TOML, for example "target-file-size = \"64MB\"\nrecovery-mode = \"absolute-consistency\"".
 * Each that is not given has its default, and so have all if `settings` is NULL or "". Unknown keys are ignored. On a
 * failure `*out` is NULL, and `text` (which may be NULL) gets as much of the failure's text as fits in `room` bytes,
 * with a NUL at its end. The text has the absolute path and the system's cause. It fails as RAFTLOG_INVALID (no
 * folder, or settings that are refused), RAFTLOG_IN_USE, RAFTLOG_NOT_PLAIN, RAFTLOG_FOLDER, RAFTLOG_CORRUPTION,
 * RAFTLOG_LZ4, RAFTLOG_RANGE or RAFTLOG_IO. */
int raftlog_open(const char *folder, const char *settings, raftlog **out, char *text, size_t room);

/* Gets the progress of an opening: how many bytes of all files are read. When all are read, they are replayed, which
 * takes as long again. It may make no call on a log. */
typedef void raftlog_progress(void *with, uint64_t done, uint64_t all);

/* As `raftlog_open`, and calls `watch` with each file; `with` is its first argument. */
int raftlog_open_watched(const char *folder, const char *settings, raftlog_progress *watch, void *with,
                         raftlog **out, char *text, size_t room);

/* The same in memory, for tests. It fails as RAFTLOG_INVALID for settings that are refused. */
int raftlog_open_memory(const char *settings, raftlog **out, char *text, size_t room);

/* What an opening cut off a log file: bytes from an offset on, after the last record that can be read. They may be of
 * a write that was not synced, or what an earlier file left in a recycled one. A later version may add fields at the
 * end. */
typedef struct {
    const char *path; /* of the file, from the folder; it lasts until the log is closed */
    uint64_t offset, len;
    bool stale; /* the first record in these bytes is an earlier file's, as usual after a kill if files are recycled */
} raftlog_cut;

/* Returns how many cuts the opening made, and stores the first of them, at most `room`, in `cuts`, which may be NULL
 * if `room` is 0. `size` is sizeof(raftlog_cut), as for `raftlog_stats`. Zeros, which contain nothing, and files that an
 * opening ignores are not among them: `raftctl FOLDER check` reports these, and before an opening what it would cut. A
 * monitor reports the cuts that are not stale. It cannot learn from `stale` whether a write that was not synced, or a
 * damaged last record, is before the stale record. */
size_t raftlog_cuts(raftlog *log, raftlog_cut *cuts, size_t room, size_t size);

/* The log notes in its folder, in the file SPANS, which numbers its files have had. By this note an opening knows which
 * files were deleted by someone else. */
enum {
    /* Files of these numbers are needed, and do not exist: what they contained is lost. A program that ignores SPANS may
     * have dropped them: accept them then. */
    RAFTLOG_FILE_MISSING = 1,
    /* A file of this number exists, and does not follow on the log's files. An opening reads it, and not those before. */
    RAFTLOG_FILE_STRAY = 2,
    /* Another program wrote to the log after the note of these numbers: whether a file is missing isn't known. */
    RAFTLOG_NOTE_STALE = 3,
    /* A file was missing at an earlier opening, and cannot be put back: a next file got its number, or a purge dropped
     * files after it. Which file it was is not known any more: the numbers are those of the note. */
    RAFTLOG_LOST_BEFORE = 4
};

typedef struct {
    int kind;
    bool is_rewrite;      /* of the Rewrite queue: the files are NUMBER.rewrite, else NUMBER.raftlog */
    uint64_t first, last; /* the least and the greatest number; 16 digits of it begin a name */
} raftlog_lost;

/* Returns how many such facts the opening found, and stores the first of them, at most `room`, in `lost`, which may be
 * NULL if `room` is 0. `size` is sizeof(raftlog_lost), as for `raftlog_stats`. After a crash or a kill there are none.
 * Later openings report them too, until the files are put back, the loss is accepted, or the note itself cannot be read.
 * A missing file whose number no other file got is also forgotten if the note becomes stale: another program writes to
 * the log, or each note is refused while two files are made. If a note was refused, files that a purge dropped may be
 * reported besides. Without a note nothing is reported, and nothing if the settings may name `spill-dir` in another form
 * than by one line `spill-dir = "PATH"`. Such a log removes the note, with what it reported, when it makes, deletes or
 * renames a file. If one of the note's two halves is damaged, the other one counts: files that a purge dropped since
 * may be reported. */
size_t raftlog_missing(raftlog *log, raftlog_lost *lost, size_t room, size_t size);

/* As `raftlog_open`, but fails as RAFTLOG_LOST if a file is missing or was, or is a stray, as `raftlog_missing` knows
 * it. It has changed no log file then. */
int raftlog_open_whole(const char *folder, const char *settings, raftlog **out, char *text, size_t room);

/* Accepts what is missing in a folder that nobody has open: the note then has the files after the last gap, in
 * the log's folder and the second folder that the note names. Put files back before: one that is put back after is read,
 * but its loss is not noticed. A note that cannot be read or replaced is removed, and the next opening begins one if the
 * files' numbers have no gap. A SPANS of another program is removed too. It fails as
 * RAFTLOG_INVALID, RAFTLOG_IN_USE, RAFTLOG_FOLDER or RAFTLOG_NO_MEMORY, with a text as `raftlog_open`. */
int raftlog_accept_missing(const char *folder, char *text, size_t room);

/* Syncs, closes and frees the log, whatever it returns. After RAFTLOG_OK all that was written survives a crash. After
 * RAFTLOG_IO or RAFTLOG_FAILED the next opening finds all that was done before; if the machine crashes first, all that
 * was synced, and perhaps more. Calls that wait when it begins return first. Calls that begin while it waits for them
 * fail as RAFTLOG_FAILED and do nothing. No call may begin when it may have returned. For NULL it returns
 * RAFTLOG_OK. */
int raftlog_close(raftlog *log);

/* Stores the text of this thread's last failure on this log, as much of it as fits in `room` bytes, with a NUL at its
 * end. Returns the whole length in bytes, without the NUL. `text` may be NULL for the length alone. If a file call
 * failed, the text names the file, the folder and the system's cause. */
size_t raftlog_message(raftlog *log, char *text, size_t room);

/* Syncs are counted in classes by their times. The first class has those under a microsecond, each next class those
 * under twice the bound before, and the last class those of 4 seconds or more. */
enum { RAFTLOG_TIMES = 24 };

/* What a log has done since it was opened, in rounds that are over. On average changes / rounds changes share a round,
 * and a sync takes sync_ns / syncs. A purge and a next file have syncs of their own; without these synced_changes /
 * syncs changes share a sync. Calls of the system that failed are not counted, nor are the files that are kept for
 * reuse. A later version may add numbers at the end. */
typedef struct {
    uint64_t rounds;
    uint64_t changes;        /* writes, syncs, compactions and purges in these rounds */
    uint64_t synced_changes; /* changes that asked for a sync and were done */
    uint64_t largest_round;  /* the most changes of a round */
    uint64_t syncs;          /* syncs of log files (fdatasync), whoever asked for them */
    uint64_t bytes;          /* bytes written to log files */
    uint64_t sync_ns;        /* time of these syncs, in nanoseconds */
    uint64_t batches;        /* writes that were done */
    uint64_t writes;         /* calls of the system that wrote these bytes */
    uint64_t longest_sync_ns;
    uint64_t sync_times[RAFTLOG_TIMES]; /* syncs by classes of their times */
    uint64_t next_files;     /* files that a queue has begun */
    uint64_t recycled_files; /* of these, files that were dropped or reserved before */
    uint64_t deleted_files;
    uint64_t purges;         /* purge calls that were carried out, each short call too */
    uint64_t purge_ns;       /* time of these calls, without their wait for a round */
    uint64_t longest_purge_ns;
    uint64_t files;          /* files in the folder now, reserved ones too; 0 in memory */
    uint64_t index_bytes;    /* memory of the index now: places of entries, rows of keys and groups, without the bytes
                              * of keys and values */
    uint64_t block_hits;     /* reads of an entry whose block was kept (the last 16 are), purges' reads too */
    uint64_t block_misses;   /* reads of an entry that had to read its block */
} raftlog_counts;

/* Stores the numbers. `size` is sizeof(raftlog_counts) of the header with which the program was built. So an older
 * program gets the numbers that it knows, and a newer one 0 for those that the library does not count. Each number is
 * that of some moment of the call. The last three are read in turn with other calls, a step for each group; if another
 * call is inside the log for more than 10 ms, they are as before. It fails as RAFTLOG_INVALID if `size` is 0. */
int raftlog_stats(raftlog *log, raftlog_counts *counts, size_t size);

/* What a code means. The text is constant. */
const char *raftlog_code_text(int code);

/* ---- memory
 *
 * The index is in memory: 40 bytes an entry, and keys with their values. So is what was written since the last sync,
 * and during a purge twice RAFTLOG_PURGE_BYTES, and at most 8 KB for each item of a record. 2 MB are kept for a change that
 * has begun, and not touched before they are needed. The rest of the log files is mapped: the system takes that memory back
 * when it needs it, and reads it again from the files on demand. */

/* By default the program ends by SIGBUS if a part of a file cannot be read again: the disk fails, or another program
 * cut the file. After this call, once for the process, a read that needs this part fails as RAFTLOG_CORRUPTION, and so
 * does each later one. An opening that needs it fails as RAFTLOG_IO and cuts nothing. Other SIGBUS go to the handler
 * that was set before. It fails as RAFTLOG_INVALID if no handler can be set. */
int raftlog_survive_bus_errors(void);

/* How entries that are no longer in memory will be read. In order, the default: with each read the system reads ahead,
 * as far as the disk's read_ahead_kb says (128 KB, or some MB). At random: one read of no more than is asked for; this
 * costs half a microsecond if the entry is in memory. A purge always reads at random. */
int raftlog_expect_reads(raftlog *log, bool at_random);

/* ---- batches */

/* Returns a batch without items, or NULL if there is no memory. A batch is written as a whole or not at all. It is the
 * caller's until `raftlog_batch_free`. Adding copies its arguments, and fails as RAFTLOG_NO_MEMORY, RAFTLOG_RANGE
 * (2^59 bytes), or RAFTLOG_INVALID for a NULL with a length; then the batch is as it was. */
raftlog_batch *raftlog_batch_new(void);
/* NULL is ignored, here and by the next call. */
void raftlog_batch_free(raftlog_batch *batch);
/* Removes all items, and keeps the memory for more. */
void raftlog_batch_clear(raftlog_batch *batch);
/* True for NULL too. */
bool raftlog_batch_is_empty(const raftlog_batch *batch);
/* Puts a value at a key. A key that begins with two underscores is refused when the batch is written. */
int raftlog_batch_put(raftlog_batch *batch, uint64_t group, const void *key, size_t key_len, const void *value,
                      size_t value_len);
/* Deletes a key, if it exists. */
int raftlog_batch_delete(raftlog_batch *batch, uint64_t group, const void *key, size_t key_len);
/* Adds entries with consecutive indexes. They replace the group's entries from the first index on. That the indexes
 * are consecutive, and follow those that the group has, is checked when the batch is written. */
int raftlog_batch_entries(raftlog_batch *batch, uint64_t group, const raftlog_entry *entries, size_t count);
/* Removes all entries and keys of the group. */
int raftlog_batch_clean(raftlog_batch *batch, uint64_t group);
/* Removes the entries below an index. */
int raftlog_batch_compact(raftlog_batch *batch, uint64_t group, uint64_t index);

/* ---- changes */

/* Writes a batch, and empties it if that is done; else the batch is as it was. After RAFTLOG_OK with `sync` it
 * survives a crash, with all that was written before it; without `sync` it does after the next sync. It fails as
 * RAFTLOG_INVALID (a key with two underscores, or that of a number), RAFTLOG_GAP, RAFTLOG_RANGE or RAFTLOG_TRY_AGAIN;
 * after these the log is as it was. After RAFTLOG_IO the log has failed, and after RAFTLOG_NO_MEMORY it may have. */
int raftlog_write(raftlog *log, raftlog_batch *batch, bool sync);

/* Writes a batch that acts once, however often it is written. With it each of the groups gets the number beside it,
 * and keeps the number until the group is cleaned. Each number must be greater than the one that its group keeps; a
 * group that keeps none counts as 0. If none of the numbers is greater, the batch was written before: nothing is
 * written, and the call returns RAFTLOG_OK, after a sync if requested. It fails as `raftlog_write`, as
 * RAFTLOG_INVALID if there are no groups or a group is given twice, and as RAFTLOG_STALE_NUMBER. After RAFTLOG_IO,
 * RAFTLOG_FAILED or RAFTLOG_NO_MEMORY write it again when the log is open again. */
int raftlog_write_once(raftlog *log, raftlog_batch *batch, const uint64_t *groups, const uint64_t *numbers, size_t count,
                       bool sync);

/* The same with the bytes of a batch, for other languages: the number of items, and for each item a byte for its kind,
 * its group, and then
 *   1 put: the key, the value;  2 delete: the key;  3 entries: how many, one at least, and each of them;  4 clean;
 *   5 compact: the index.
 * A key, a value and an entry have their length before them, and an entry begins with its index. Each number takes
 * eight bytes, the most significant first. Other bytes are refused as RAFTLOG_INVALID. */
int raftlog_write_bytes(raftlog *log, const void *bytes, size_t len, bool sync);
int raftlog_write_once_bytes(raftlog *log, const void *bytes, size_t len, const uint64_t *groups, const uint64_t *numbers,
                             size_t count, bool sync);

/* Syncs: after RAFTLOG_OK all that was written survives a crash. RAFTLOG_IO fails the log. */
int raftlog_sync(raftlog *log);

/* Removes the entries below an index, without a sync, and stores how many they were (`count` may be NULL). It fails as
 * RAFTLOG_RANGE or RAFTLOG_TRY_AGAIN, after which the log is as it was, or as RAFTLOG_IO. */
int raftlog_compact_to(raftlog *log, uint64_t group, uint64_t index, uint64_t *count);

/* Purges. They change nothing of the log's contents, sync the log, and free the space of what it no longer needs. They
 * fail as RAFTLOG_RANGE, RAFTLOG_INVALID or RAFTLOG_TRY_AGAIN, or as RAFTLOG_IO. The log may have failed then: the
 * next call shows it.
 *
 * By the settings' thresholds (`purge-threshold`, `purge-rewrite-threshold`), to be called every few seconds: it does
 * nothing while the log is small. It stores the groups that have old entries and should be compacted, for
 * `raftlog_next_group` (`groups` may be NULL). */
int raftlog_purge_expired_files(raftlog *log, raftlog_bytes *groups);
/* The same in short calls, between which other threads read and write. Each call writes again what some groups have in old
 * files: at most `budget` bytes, or one group that has more. 1 MB is a good budget. The last call has no such limit: it
 * writes again what has become due meanwhile, and drops the files. One thing differs: `raftlog_purge_expired_files`
 * returns a group with many old entries, and writes these again only in the tenth purge; this call returns the group too,
 * but writes them again at once. After a failure the calls before it are done. */
int raftlog_purge_in_short_calls(raftlog *log, uint64_t budget, raftlog_bytes *groups);
/* The number of the last file of the Append queue that both calls above would write again now, or RAFTLOG_ABSENT if they
 * would write none. It is the watermark for your own series of `raftlog_must_rewrite_append_groups`. */
int raftlog_append_rewrite_watermark(raftlog *log, uint64_t *watermark);
/* Whatever the size. Each stores how many files of a queue were dropped (`count` may be NULL). The first writes what
 * the Append queue's files contain to the Rewrite queue, and drops these files. The second writes what the Rewrite
 * queue's files contain to a new one, and drops these files. The third drops the first files of both queues that
 * contain nothing any more, and counts those of the Append queue. A dropped file is deleted, or kept for reuse. The
 * first one counts one file more that it went on to meanwhile: it makes short calls, as below, and then a whole one. */
int raftlog_must_rewrite_append_queue(raftlog *log, uint64_t *count);
int raftlog_must_rewrite_rewrite_queue(raftlog *log, uint64_t *count);
int raftlog_must_purge_all_stale(raftlog *log, uint64_t *count);
/* The first of them in short calls, between which others write. It drops no file. It writes again what the groups from
 * `*group` on have in the Append queue's files up to the number `*watermark`: of as many groups as cost at most `budget`
 * bytes together, but of one at least. A group costs 64 bytes, and what it has there. It stores in `*group` the group of
 * the next call, or 0 after the last one. If `*watermark` was greater than the number of the last file, it stores that
 * number there. On a failure both stay.
 *   uint64_t watermark = UINT64_MAX, group = 0;
 *   do code = raftlog_must_rewrite_append_groups(log, &watermark, &group, 1 << 20);
 *   while (code == RAFTLOG_OK && group);
 *   if (code == RAFTLOG_OK) code = raftlog_must_purge_all_stale(log, NULL);
 * Then all of these files are dropped, and nothing that was written meanwhile was written again. */
int raftlog_must_rewrite_append_groups(raftlog *log, uint64_t *watermark, uint64_t *group, uint64_t budget);

/* The second of them in short calls, between which others write. The first call, with 0 as `*group`, begins a next
 * file of the Rewrite queue. Each call writes again what the groups from `*group` on have in that queue: of as many
 * groups as cost at most `budget` bytes together, but of one at least. A group costs 64 bytes, and what it has there. It
 * stores the group of the next call, or 0 after the last one. Then the files before are dropped, if each atomic group
 * is together in them, as this library writes it. On a failure `*group` stays. An opening or another purge, by any
 * thread, ends such calls, and a failure may: begin again with 0, else the files before stay. Calls that were left half
 * done are not ended: with 0 they continue with the same next file.
 *   uint64_t group = 0;
 *   do code = raftlog_must_rewrite_rewrite_groups(log, &group, 1 << 20);
 *   while (code == RAFTLOG_OK && group); */
int raftlog_must_rewrite_rewrite_groups(raftlog *log, uint64_t *group, uint64_t budget);

/* ---- reads, which change nothing of the log's contents */

/* The value that a group has at a key, or RAFTLOG_ABSENT. */
int raftlog_get(raftlog *log, uint64_t group, const void *key, size_t key_len, raftlog_bytes *value);

/* The bytes of the group's entry with an index, or RAFTLOG_ABSENT. It may fail as RAFTLOG_IO or RAFTLOG_CORRUPTION,
 * after which the log is as it was, and, if another program wrote the entry, as RAFTLOG_WRONG_INDEX or
 * RAFTLOG_NOT_AN_ENTRY. */
int raftlog_get_entry(raftlog *log, uint64_t group, uint64_t index, raftlog_bytes *value);

/* The entries from `begin` up to the one before `end`: as many as take at most `max_size` bytes together (each counts
 * 8 bytes more than its own), but one at least; 0 is no bound. For a group without entries and keys it returns none,
 * whatever the bounds. It fails as RAFTLOG_INVALID if `end` is below `begin`, as RAFTLOG_COMPACTED, as
 * RAFTLOG_NO_ENTRY, and as `raftlog_get_entry`. */
int raftlog_fetch_entries(raftlog *log, uint64_t group, uint64_t begin, uint64_t end, uint64_t max_size,
                          raftlog_bytes *entries);
/* Stores the next of the fetched entries, which points into the bytes; false after the last one. `*at` begins with
 * 0. */
bool raftlog_next_entry(const raftlog_bytes *entries, size_t *at, raftlog_entry *entry);

/* The index of the group's first and of its last entry, or RAFTLOG_ABSENT if the group has none. */
int raftlog_first_index(raftlog *log, uint64_t group, uint64_t *index);
int raftlog_last_index(raftlog *log, uint64_t group, uint64_t *index);

/* The keys from `start` up to those before `end` with their values, in the order of the keys' bytes, or with `reverse`
 * in the opposite order. A bound may be NULL for none. `limit` counts pairs; 0 is no limit. */
int raftlog_scan(raftlog *log, uint64_t group, const raftlog_slice *start, const raftlog_slice *end, bool reverse,
                 uint64_t limit, raftlog_bytes *pairs);
/* Stores the next of the scanned pairs, which points into the bytes; false after the last one. `*at` begins with 0. */
bool raftlog_next_pair(const raftlog_bytes *pairs, size_t *at, raftlog_slice *key, raftlog_slice *value);

/* The groups into which something was put since they were last cleaned, in order. After a purge the next opening may
 * not know a group that is empty. */
int raftlog_groups(raftlog *log, raftlog_bytes *groups);
/* Stores the next of the groups; false after the last one. `*at` begins with 0. */
bool raftlog_next_group(const raftlog_bytes *groups, size_t *at, uint64_t *group);

#ifdef __cplusplus
}
#endif

#endif
