/* Purges in short calls: `purges FOLDER`. Other threads write and read between the calls, and the contents stay as they are. */
#include "keys.h"

#include <pthread.h>
#include <stdatomic.h>
#include <unistd.h>

enum { GROUPS = 20, FIRST = 50, OLD = 100, ENTRIES = 100, BUDGET = 4000 };

/* A purge of the Append queue is due above 256 KB, one of the Rewrite queue above 32 KB. */
static const char *settings = "target-file-size = \"16KB\"\npurge-threshold = \"256KB\"\npurge-rewrite-threshold = \"32KB\"\n";

/* Puts of values of 1000 bytes to twenty groups in turn. A key has the value of the last put. */
struct puts {
    raftlog *log;
    uint32_t from, count, keys; /* of each group */
    atomic_uint *done;          /* NULL: nobody asks */
    atomic_bool *is_over;       /* the puts end early then; NULL: they don't */
};

static void put(raftlog *log, raftlog_batch *batch, uint32_t number, uint32_t keys) {
    char value[VALUE];
    uint32_t key = number / GROUPS % keys;
    fill(value, (int)number);
    CHECK(!raftlog_batch_put(batch, FIRST + number % GROUPS, &key, sizeof key, value, VALUE));
    CHECK(!raftlog_write(log, batch, false));
}

static void *put_all(void *of) {
    const struct puts *puts = of;
    raftlog_batch *batch = raftlog_batch_new();
    for (uint32_t i = 0; i < puts->count && !(puts->is_over && atomic_load(puts->is_over)); i++) {
        put(puts->log, batch, puts->from + i, puts->keys);
        if (puts->done) atomic_fetch_add(puts->done, 1);
    }
    raftlog_batch_free(batch);
    return NULL;
}

/* Each key has the value of the last of so many puts. */
static void has_all(raftlog *log, uint32_t count, uint32_t keys) {
    raftlog_bytes bytes = {0};
    char value[VALUE];
    for (uint32_t i = count - keys * GROUPS; i < count; i++) {
        uint32_t key = i / GROUPS % keys;
        fill(value, (int)i);
        CHECK(!raftlog_get(log, FIRST + i % GROUPS, &key, sizeof key, &bytes) && bytes.len == VALUE && !memcmp(bytes.data, value, VALUE));
    }
    raftlog_bytes_free(&bytes);
}

static uint64_t purges_of(raftlog *log) {
    raftlog_counts counts;
    CHECK(!raftlog_stats(log, &counts, sizeof counts));
    return counts.purges;
}

/* ---- a series of calls that the caller makes */

static int rewrite_append(raftlog *log) {
    uint64_t watermark = UINT64_MAX, group = 0, before, last;
    int calls = 0;
    do {
        before = group, last = watermark;
        CHECK(!raftlog_must_rewrite_append_groups(log, &watermark, &group, 25000));
        CHECK((!group || group > before) && (!calls++ || watermark == last));
    } while (group);
    CHECK(watermark != UINT64_MAX);
    return calls;
}

static int rewrite_rewrite(raftlog *log) {
    uint64_t group = 0, before;
    int calls = 0;
    do {
        before = group;
        CHECK(!raftlog_must_rewrite_rewrite_groups(log, &group, 25000) && (!group || group > before));
        calls++;
    } while (group);
    return calls;
}

static void refused(raftlog *log) {
    uint64_t watermark = 7, group = 3;
    CHECK(raftlog_must_rewrite_rewrite_groups(log, NULL, 0) == RAFTLOG_INVALID);
    CHECK(raftlog_must_rewrite_rewrite_groups(NULL, &group, 0) == RAFTLOG_INVALID);
    CHECK(raftlog_must_rewrite_append_groups(log, NULL, &group, 0) == RAFTLOG_INVALID && group == 3);
    CHECK(raftlog_must_rewrite_append_groups(log, &watermark, NULL, 0) == RAFTLOG_INVALID);
    CHECK(raftlog_must_rewrite_append_groups(NULL, &watermark, &group, 0) == RAFTLOG_INVALID);
    CHECK(raftlog_append_rewrite_watermark(NULL, &watermark) == RAFTLOG_INVALID && watermark == 7);
    CHECK(raftlog_append_rewrite_watermark(log, NULL) == RAFTLOG_INVALID);
    CHECK(raftlog_purge_in_short_calls(NULL, 0, NULL) == RAFTLOG_INVALID);
}

/* A call takes one group, since each has 25 values of 1000 bytes; another thread writes meanwhile. */
static void series(const char *folder) {
    char text[TEXT_ROOM];
    uint64_t count;
    raftlog *log;
    CHECK(!(folder ? raftlog_open(folder, settings, &log, text, sizeof text) : raftlog_open_memory(settings, &log, text, sizeof text)));
    struct puts first = {log, 0, 500, 50, NULL, NULL}, meanwhile = {log, 500, 500, 50, NULL, NULL};
    pthread_t writer;
    put_all(&first);
    CHECK(!pthread_create(&writer, NULL, put_all, &meanwhile));
    CHECK(rewrite_append(log) >= GROUPS);
    CHECK(!pthread_join(writer, NULL));
    CHECK(!raftlog_must_purge_all_stale(log, &count) && count >= 1);
    has_all(log, 1000, 50);
    CHECK(rewrite_rewrite(log) >= GROUPS);
    has_all(log, 1000, 50);
    refused(log);
    CHECK(!raftlog_close(log));
}

/* ---- a purge by the thresholds */

static bool has_group(const raftlog_bytes *groups, uint64_t wanted) {
    uint64_t group;
    bool has = false;
    for (size_t at = 0; raftlog_next_group(groups, &at, &group);) has |= group == wanted;
    return has;
}

static void append_old(raftlog *log) {
    static const uint8_t data[200];
    raftlog_entry entries[ENTRIES];
    raftlog_batch *batch = raftlog_batch_new();
    for (uint64_t i = 0; i < ENTRIES; i++) entries[i] = (raftlog_entry){i + 1, data, sizeof data};
    CHECK(!raftlog_batch_entries(batch, OLD, entries, ENTRIES) && !raftlog_write(log, batch, false));
    raftlog_batch_free(batch);
}

/* While the queue is small nothing is due. Then the calls of one purge move all groups, and the old one is returned. */
static uint32_t purge_append(raftlog *log, raftlog_bytes *groups) {
    uint64_t watermark = 7, before = purges_of(log);
    struct puts puts = {log, 0, 400, 10, NULL, NULL};
    CHECK(raftlog_append_rewrite_watermark(log, &watermark) == RAFTLOG_ABSENT);
    CHECK(!raftlog_purge_in_short_calls(log, BUDGET, groups) && !groups->len && purges_of(log) == before + 1);
    append_old(log);
    put_all(&puts);
    CHECK(!raftlog_append_rewrite_watermark(log, &watermark) && watermark > 1);
    before = purges_of(log);
    CHECK(!raftlog_purge_in_short_calls(log, BUDGET, groups) && has_group(groups, OLD));
    CHECK(purges_of(log) >= before + 10);
    CHECK(raftlog_append_rewrite_watermark(log, &watermark) == RAFTLOG_ABSENT);
    has_all(log, 400, 10);
    return 400;
}

/* Most of the Rewrite queue is garbage then: its calls come first, and drop its files. */
static uint32_t purge_rewrite(raftlog *log, uint32_t from, raftlog_bytes *groups) {
    uint64_t watermark;
    for (int i = 0; i < 8; i++, from += 400) {
        struct puts puts = {log, from, 400, 10, NULL, NULL};
        put_all(&puts);
        CHECK(!raftlog_purge_in_short_calls(log, i % 2 ? 0 : BUDGET, i % 3 ? groups : NULL));
        CHECK(raftlog_append_rewrite_watermark(log, &watermark) == RAFTLOG_ABSENT);
        has_all(log, from + 400, 10);
    }
    return from;
}

/* Puts of another thread are done between the calls of a purge. Those of a purge with few calls, which was not due, don't count. */
static uint32_t purge_beside(raftlog *log, uint32_t from, raftlog_bytes *groups) {
    atomic_uint done = 0;
    atomic_bool is_over = false;
    unsigned between = 0;
    struct puts puts = {log, from, UINT32_MAX / 2, 10, &done, &is_over};
    pthread_t writer;
    CHECK(!pthread_create(&writer, NULL, put_all, &puts));
    for (int patience = 10000; between <= 10; patience--) {
        uint64_t calls = purges_of(log);
        unsigned before = atomic_load(&done);
        CHECK(patience && !raftlog_purge_in_short_calls(log, BUDGET, groups));
        if (purges_of(log) > calls + 10) between += atomic_load(&done) - before;
        usleep(1000);
    }
    atomic_store(&is_over, true);
    CHECK(!pthread_join(writer, NULL));
    return from + atomic_load(&done);
}

static uint64_t first_rewrite_file(const char *folder) {
    char command[TEXT_ROOM];
    unsigned long number = 0;
    snprintf(command, sizeof command, "ls '%s' | sed -n 's/\\.rewrite$//p' | head -n 1", folder);
    FILE *found = popen(command, "r");
    CHECK(found && fscanf(found, "%lu", &number) == 1 && !pclose(found));
    return number;
}

static void by_thresholds(const char *folder) {
    raftlog_bytes groups = {0};
    uint64_t last;
    raftlog *log = open_with(folder, settings);
    uint32_t count = purge_append(log, &groups);
    uint64_t first = first_rewrite_file(folder);
    count = purge_rewrite(log, count, &groups);
    CHECK(first_rewrite_file(folder) > first);
    count = purge_beside(log, count, &groups);
    for (int turn = 0; turn < 2; turn++) {
        has_all(log, count, 10);
        CHECK(!raftlog_last_index(log, OLD, &last) && last == ENTRIES);
        CHECK(!raftlog_close(log));
        log = open_with(folder, settings);
    }
    CHECK(!raftlog_close(log));
    raftlog_bytes_free(&groups);
}

int main(int argc, char **argv) {
    char place[TEXT_ROOM];
    CHECK(argc == 2);
    series(NULL);
    series(argv[1]);
    snprintf(place, sizeof place, "%s/thresholds", argv[1]);
    by_thresholds(place);
    puts("ok");
    return 0;
}
