/* How long reads and writes wait beside a purge: `pauses FOLDER [BUDGET]`, a purge in calls of so many bytes, or in one call
 * without BUDGET. The log has 200,000 puts of 1,000 bytes to 50,000 keys of 100 groups, first in turn and then at random, in files
 * of 16 MB. One thread reads keys at random meanwhile, and one writes; each pauses 0.2 ms after a call. */
#include "keys.h"

#include <pthread.h>
#include <stdatomic.h>
#include <time.h>
#include <unistd.h>

enum { KEYS = 50000, PUTS = 200000, GROUPS = 100, PAUSE = 200, BEFORE = 300000 };

static raftlog *open_log;
static atomic_bool is_purging, is_over;

/* What one thread waited while the purge ran, in seconds. */
struct waits {
    long calls;
    double longest;
};

static double now(void) {
    struct timespec at;
    clock_gettime(CLOCK_MONOTONIC, &at);
    return (double)at.tv_sec + (double)at.tv_nsec * 1e-9;
}

static void note_wait(struct waits *waits, double began) {
    double waited = now() - began;
    if (!atomic_load(&is_purging)) return;
    waits->calls++;
    if (waits->longest < waited) waits->longest = waited;
}

static void put(raftlog_batch *batch, uint64_t number) {
    char value[VALUE];
    uint64_t key = number << 8;
    fill(value, (int)number);
    CHECK(!raftlog_batch_put(batch, number % GROUPS + 1, &key, sizeof key, value, VALUE) && !raftlog_write(open_log, batch, false));
}

static void *read_on(void *of) {
    raftlog_bytes bytes = {0};
    unsigned seed = 7;
    while (!atomic_load(&is_over)) {
        uint64_t number = (uint64_t)rand_r(&seed) % KEYS, key = number << 8;
        double began = now();
        CHECK(!raftlog_get(open_log, number % GROUPS + 1, &key, sizeof key, &bytes));
        note_wait(of, began);
        usleep(PAUSE);
    }
    raftlog_bytes_free(&bytes);
    return NULL;
}

static void *write_on(void *of) {
    raftlog_batch *batch = raftlog_batch_new();
    while (!atomic_load(&is_over)) {
        double began = now();
        CHECK(!raftlog_batch_put(batch, GROUPS + 1, "key", 3, "value", 5) && !raftlog_write(open_log, batch, false));
        note_wait(of, began);
        usleep(PAUSE);
    }
    raftlog_batch_free(batch);
    return NULL;
}

static void fill_log(void) {
    raftlog_batch *batch = raftlog_batch_new();
    unsigned seed = 1;
    for (uint64_t i = 0; i < PUTS; i++) put(batch, i < KEYS ? i : (uint64_t)rand_r(&seed) % KEYS);
    raftlog_batch_free(batch);
}

int main(int argc, char **argv) {
    struct waits reads = {0}, writes = {0};
    pthread_t reader, writer;
    raftlog_counts before, after;
    CHECK(argc == 2 || argc == 3);
    open_log = open_with(argv[1], "target-file-size = \"16MB\"\npurge-threshold = \"150MB\"\n");
    fill_log();
    CHECK(!pthread_create(&reader, NULL, read_on, &reads) && !pthread_create(&writer, NULL, write_on, &writes));
    usleep(BEFORE);
    CHECK(!raftlog_stats(open_log, &before, sizeof before));
    double began = now();
    atomic_store(&is_purging, true);
    int code = argc == 3 ? raftlog_purge_in_short_calls(open_log, strtoull(argv[2], NULL, 10), NULL)
                         : raftlog_purge_expired_files(open_log, NULL);
    atomic_store(&is_purging, false);
    double took = now() - began;
    CHECK(!code && !raftlog_stats(open_log, &after, sizeof after));
    atomic_store(&is_over, true);
    CHECK(!pthread_join(reader, NULL) && !pthread_join(writer, NULL));
    printf("purge: %.2f s, %lu calls, %lu MB written\n", took, (unsigned long)(after.purges - before.purges),
           (unsigned long)((after.bytes - before.bytes) >> 20));
    printf("reads: %ld, the longest %.1f ms\nwrites: %ld, the longest %.1f ms\n", reads.calls, reads.longest * 1e3, writes.calls,
           writes.longest * 1e3);
    return raftlog_close(open_log);
}
