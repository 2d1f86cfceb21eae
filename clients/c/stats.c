/* What a log counts. */
#include "parts.h"

#include <time.h>

/* How long `raftlog_stats` waits for a call that is inside the log. */
enum { PATIENCE_NS = 10 * 1000 * 1000, SECOND_NS = 1000 * 1000 * 1000 };

/* In this turn, so that no part is greater than its whole. */
static void copy_counts(const raftlog *log, raftlog_counts *to) {
    const struct parts_counts *from = &log->counts;
    for (int i = 0; i < RAFTLOG_TIMES; i++) to->sync_times[i] = from->sync_times[i];
    to->longest_sync_ns = from->longest_sync_ns;
    to->longest_purge_ns = from->longest_purge_ns;
    to->purge_ns = from->purge_ns;
    to->purges = from->purges;
    to->recycled_files = from->recycled_files;
    to->next_files = from->next_files;
    to->deleted_files = from->deleted_files;
    to->files = from->files;
    to->sync_ns = from->sync_ns;
    to->batches = from->batches;
    to->synced_changes = from->synced_changes;
    to->largest_round = from->largest_round;
    to->changes = from->changes;
    to->rounds = log->done;
    to->syncs = from->syncs;
    to->writes = from->writes;
    to->bytes = from->bytes;
    to->index_bytes = from->index_bytes;
    to->block_hits = from->block_hits;
    to->block_misses = from->block_misses;
}

/* Notes what the proved part counts, in turn with other calls. Beside a long one the numbers stay as they are. */
static void note_inner(raftlog *log) {
    uint64_t index_bytes, hits, misses;
    struct timespec until;
    clock_gettime(CLOCK_REALTIME, &until);
    until.tv_nsec += PATIENCE_NS;
    until.tv_sec += until.tv_nsec / SECOND_NS;
    until.tv_nsec %= SECOND_NS;
    if (pthread_mutex_timedlock(&log->lock, &until)) return;
    raft_c_counts(&log->handle, &index_bytes, &hits, &misses);
    log->counts.index_bytes = index_bytes;
    log->counts.block_hits = hits;
    log->counts.block_misses = misses;
    pthread_mutex_unlock(&log->lock);
}

int raftlog_stats(raftlog *log, raftlog_counts *counts, size_t size) {
    raftlog_counts all = {0};
    if (!log) return RAFTLOG_INVALID;
    if (!counts || !size) return parts_fail(log, RAFTLOG_INVALID, NULL);
    if (!parts_begin_read(log)) return parts_fail_closed(log);
    note_inner(log);
    copy_counts(log, &all);
    parts_end_read(log);
    parts_copy_sized(counts, size, &all, sizeof all);
    return RAFTLOG_OK;
}
