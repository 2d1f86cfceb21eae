/* Fetches of LMDB, for PERFORMANCE's comparison: raftbench's workload `append` and its part `fetch`, entry by entry.
 *
 * COUNT entries of SIZE bytes in 100 groups, each under the key of its group and index, and then fetches of up to 100
 * consecutive ones from the same places as raftbench. "in place" looks at each entry where the map has it; "copied"
 * takes a copy of each to memory of its own, as the engine's messages are. FOLDER should be in memory (/dev/shm).
 *
 *     gcc -O3 -o /tmp/lmdb bench/reference/lmdb.c -llmdb
 *     /tmp/lmdb FOLDER [COUNT [SIZE]]
 */
#include <endian.h>
#include <inttypes.h>
#include <lmdb.h>
#include <stdio.h>
#include <stdlib.h>
#include <string.h>
#include <time.h>

enum { GROUPS = 100, FETCH_LEN = 100, TURN = 1000 };

struct place {
    uint64_t group, index;
};

struct log {
    MDB_env *env;
    MDB_dbi table;
    uint64_t count;
    size_t size;
};

static void check(int code, const char *what) {
    if (code) fprintf(stderr, "%s: %s\n", what, mdb_strerror(code)), exit(1);
}

static uint64_t micros(void) {
    struct timespec now;
    clock_gettime(CLOCK_MONOTONIC, &now);
    return (uint64_t)now.tv_sec * 1000000 + (uint64_t)now.tv_nsec / 1000;
}

static uint64_t next_state(uint64_t state) { return state * 6364136223846793005u + 1442695040888963407u; }

static uint64_t last_index(const struct log *log, uint64_t group) {
    return log->count / GROUPS + (group < log->count % GROUPS);
}

static void report(const char *name, uint64_t start, uint64_t count) {
    uint64_t taken = micros() - start;
    fprintf(stderr, "%s: %" PRIu64 " operations, %" PRIu64 " us, %" PRIu64 " ns each\n", name, count, taken,
            taken * 1000 / (count ? count : 1));
}

static void open_log(struct log *log, const char *folder) {
    check(mdb_env_create(&log->env), "create");
    check(mdb_env_set_mapsize(log->env, (size_t)4 << 30), "map");
    check(mdb_env_open(log->env, folder, MDB_NOSYNC | MDB_WRITEMAP, 0644), "open");
    MDB_txn *txn;
    check(mdb_txn_begin(log->env, NULL, 0, &txn), "begin");
    check(mdb_dbi_open(txn, NULL, 0, &log->table), "table");
    check(mdb_txn_commit(txn), "commit");
}

/* A thousand entries a transaction. */
static void append_all(const struct log *log) {
    uint8_t *bytes = calloc(1, log->size);
    MDB_txn *txn = NULL;
    for (uint64_t number = 0; number < log->count; number++) {
        if (!txn) check(mdb_txn_begin(log->env, NULL, 0, &txn), "begin");
        uint64_t name[2] = {htobe64(number % GROUPS), htobe64(number / GROUPS + 1)};
        memcpy(bytes, &name[1], 8);
        MDB_val key = {sizeof name, name}, value = {log->size, bytes};
        check(mdb_put(txn, log->table, &key, &value, 0), "put");
        if (number % TURN == TURN - 1) check(mdb_txn_commit(txn), "commit"), txn = NULL;
    }
    if (txn) check(mdb_txn_commit(txn), "commit");
    free(bytes);
}

/* The places that raftbench begins its fetches at. */
static struct place *places_of(const struct log *log, uint64_t *len) {
    struct place *places = calloc(log->count / FETCH_LEN + 1, sizeof *places);
    uint64_t state = 1;
    *len = 0;
    for (uint64_t number = 0; number < log->count; number++) {
        state = next_state(state);
        if (number % FETCH_LEN) continue;
        uint64_t group = (state >> 20) % GROUPS;
        places[(*len)++] = (struct place){group, (state >> 32) % last_index(log, group) + 1};
    }
    return places;
}

/* Answers how many entries it found; adds the first byte of each index to the sum. */
static uint64_t fetch(MDB_cursor *cursor, struct place from, uint64_t end, uint8_t **copies, uint64_t *sum) {
    uint64_t name[2] = {htobe64(from.group), htobe64(from.index)}, found = 0;
    MDB_val key = {sizeof name, name}, value;
    int code = mdb_cursor_get(cursor, &key, &value, MDB_SET_RANGE);
    for (uint64_t index = from.index; index < end && !code; index++) {
        *sum += ((const uint8_t *)value.mv_data)[7];
        if (copies) {
            copies[found] = malloc(value.mv_size);
            memcpy(copies[found], value.mv_data, value.mv_size);
        }
        found++;
        if (index + 1 < end) code = mdb_cursor_get(cursor, &key, &value, MDB_NEXT);
    }
    return found;
}

/* A reader that begins anew for each fetch. The copies of one are freed as the next one is made. */
static void fetch_all(const struct log *log, const struct place *places, uint64_t len, int is_copied) {
    uint8_t *copies[FETCH_LEN];
    uint64_t start = micros(), fetched = 0, before = 0, sum = 0;
    MDB_txn *txn;
    MDB_cursor *cursor;
    check(mdb_txn_begin(log->env, NULL, MDB_RDONLY, &txn), "begin");
    check(mdb_cursor_open(txn, log->table, &cursor), "cursor");
    for (uint64_t at = 0; at < len; at++) {
        mdb_txn_reset(txn);
        check(mdb_txn_renew(txn), "renew");
        check(mdb_cursor_renew(txn, cursor), "renew");
        uint64_t last = last_index(log, places[at].group), end = places[at].index + FETCH_LEN;
        for (; before > 0; before--) free(copies[before - 1]);
        uint64_t found = fetch(cursor, places[at], end < last + 1 ? end : last + 1, is_copied ? copies : NULL, &sum);
        before = is_copied ? found : 0;
        fetched += found;
    }
    report(is_copied ? "  fetch, copied" : "  fetch, in place", start, fetched);
    printf("  fetch: %" PRIu64 " operations, sum %" PRIu64 "\n", fetched, sum);
    for (; before > 0; before--) free(copies[before - 1]);
    mdb_cursor_close(cursor);
    mdb_txn_abort(txn);
}

int main(int argc, char **argv) {
    struct log log = {.count = 500000, .size = 256};
    if (argc < 2) return fprintf(stderr, "usage: lmdb FOLDER [COUNT [SIZE]]\n"), 2;
    if (argc > 2) log.count = strtoull(argv[2], NULL, 10);
    if (argc > 3) log.size = strtoull(argv[3], NULL, 10);
    if (log.count < GROUPS || log.size < 8) return fprintf(stderr, "too few\n"), 2;
    open_log(&log, argv[1]);
    uint64_t start = micros(), len;
    append_all(&log);
    report("append, a thousand a transaction", start, log.count);
    struct place *places = places_of(&log, &len);
    for (int turn = 0; turn < 3; turn++) {
        fetch_all(&log, places, len, 0);
        fetch_all(&log, places, len, 1);
    }
    free(places);
    mdb_env_close(log.env);
    return 0;
}
