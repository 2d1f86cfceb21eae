/* Synced puts by many threads, and a get beside them: `bench_threads FOLDER [WORD=NUMBER]..`. Of
 * each number of threads each store has its turn, again and again; told are the best turn, and the
 * puts of the middle one.
 *   seconds=1   of a turn        turns=3      of each store       threads=0    1, 4, 16 and 64
 *   sync-us=0   a disk of our own: a sync takes so long, below 0 no time, and nothing goes to the disk
 *   pause-us=0  the most that a writer waits between its puts
 *   reads=0     1: the time of a get alone and beside the writers
 *   peers=1     0: this library alone
 *   fill=0      so many puts by one thread into each store, and entries into this one, whose
 *               memory is told then */
#include "raftlog.h"
#include "stores.h"

#include <pthread.h>
#include <stdatomic.h>
#include <stdbool.h>
#include <stdio.h>
#include <stdlib.h>
#include <string.h>
#include <sys/prctl.h>
#include <sys/syscall.h>
#include <sys/wait.h>
#include <time.h>
#include <unistd.h>

enum { MOST = 64, STORES = 5, KEYS = 1000, TIMES = 1 << 16, TURNS = 100 };

static struct {
    long seconds, turns, threads, sync_us, pause_us, reads, peers, fill;
} set = {1, 3, 0, 0, 0, 0, 1, 0};

/* ---- the calls of all stores on the disk: what stands here goes before libc's */

static _Atomic uint64_t syncs;
bool is_unsynced;

static int sync_by(long call, int fd) {
    atomic_fetch_add(&syncs, 1);
    if (!set.sync_us) return (int)syscall(call, fd);
    if (is_unsynced) return 0;
    static _Thread_local bool is_exact;
    if (!is_exact) is_exact = !prctl(PR_SET_TIMERSLACK, 1);
    struct timespec time = {0, set.sync_us * 1000};
    return nanosleep(&time, NULL);
}

int fdatasync(int fd) { return sync_by(SYS_fdatasync, fd); }
int fsync(int fd) { return sync_by(SYS_fsync, fd); }

/* ---- this library */

struct log {
    raftlog *log;
    raftlog_batch *batches[MOST];
    uint64_t entries[MOST]; /* that each thread's group has */
};

static void *raftlog_open_at(const char *folder) {
    char text[400];
    struct log *log = calloc(1, sizeof *log);
    if (log && raftlog_open(folder, NULL, &log->log, text, sizeof text))
        puts(text), free(log), log = NULL;
    for (int i = 0; log && i < MOST; i++) log->batches[i] = raftlog_batch_new();
    return log;
}

static int raftlog_put_one(void *with, uint64_t thread, const uint8_t *key, const uint8_t *value) {
    struct log *log = with;
    raftlog_batch *batch = log->batches[thread];
    return raftlog_batch_put(batch, thread, key, KEY, value, VALUE)
           || raftlog_write(log->log, batch, true);
}

/* The value alone, as the next entry of the thread's group. */
static int raftlog_append_one(void *with, uint64_t thread, const uint8_t *key, const uint8_t *value) {
    (void)key;
    struct log *log = with;
    raftlog_batch *batch = log->batches[thread];
    raftlog_entry entry = {++log->entries[thread], value, VALUE};
    return raftlog_batch_entries(batch, thread, &entry, 1)
           || raftlog_write(log->log, batch, true);
}

static int raftlog_get_one(void *with, const uint8_t *key) {
    static _Thread_local raftlog_bytes bytes;
    return raftlog_get(((struct log *)with)->log, 0, key, KEY, &bytes) || bytes.len != VALUE;
}

static void raftlog_close_it(void *with) {
    struct log *log = with;
    if (raftlog_close(log->log)) puts("the close failed");
    for (int i = 0; i < MOST; i++) raftlog_batch_free(log->batches[i]);
    free(log);
}

static const struct store own = {"raftlog", raftlog_open_at, raftlog_put_one, raftlog_get_one,
                                 raftlog_close_it};
static const struct store entries = {"entries", raftlog_open_at, raftlog_append_one, NULL,
                                     raftlog_close_it};

/* ---- a turn of a store */

static double now(void) {
    struct timespec t;
    clock_gettime(CLOCK_MONOTONIC, &t);
    return (double)t.tv_sec + (double)t.tv_nsec * 1e-9;
}

struct writer {
    const struct store *store;
    void *log;
    uint64_t thread, puts;
    atomic_bool *stops;
    float *took; /* of TIMES puts the seconds, again and again */
    bool failed;
    pthread_t id;
};

/* No key begins with two underscores. */
static void key_of(uint64_t i, uint8_t *key) {
    uint64_t h = i * 0x9E3779B97F4A7C15ull | 0x80;
    memcpy(key, &h, 8);
    memcpy(key + 8, &i, 8);
}

static void *write_on(void *with) {
    struct writer *w = with;
    uint8_t key[KEY], value[VALUE] = {7};
    unsigned seed = (unsigned)w->thread;
    while (!atomic_load(w->stops) && !w->failed) {
        key_of(w->puts, key);
        double began = now();
        w->failed = w->store->put(w->log, w->thread, key, value);
        w->took[w->puts++ % TIMES] = (float)(now() - began);
        if (set.pause_us) usleep((unsigned)(rand_r(&seed) % (set.pause_us + 1)));
    }
    return NULL;
}

struct result {
    double puts, syncs, middle,
        worst; /* a second; microseconds: the middle, and the slowest hundredth */
};

static int by_size(const void *a, const void *b) {
    float x = *(const float *)a, y = *(const float *)b;
    return x < y ? -1 : x > y;
}

static void take_times(struct result *result, float *took, size_t count) {
    qsort(took, count, sizeof *took, by_size);
    if (!count) return;
    result->middle = took[count / 2] * 1e6;
    result->worst = took[count * 99 / 100] * 1e6;
}

/* Gets keys of thread 0 until the time is over. */
static struct result read_on(const struct store *store, void *log, double until) {
    static float took[TIMES];
    struct result result = {0};
    size_t count = 0;
    uint8_t key[KEY];
    for (; count < TIMES && now() < until; count++) {
        key_of(count * 7919 % KEYS, key);
        double began = now();
        if (store->get(log, key)) puts("a get failed"), exit(1);
        took[count] = (float)(now() - began);
        usleep(20);
    }
    take_times(&result, took, count);
    return result;
}

static struct writer writers[MOST];

static void begin_writers(const struct store *store, void *log, long threads, atomic_bool *stops) {
    for (long t = 0; t < threads; t++) {
        float *took = writers[t].took ? writers[t].took : malloc(TIMES * sizeof *took);
        uint64_t thread = (uint64_t)t + (set.reads != 0);
        writers[t] = (struct writer){store, log, thread, 0, stops, took, false, 0};
        if (!took || pthread_create(&writers[t].id, NULL, write_on, &writers[t])) exit(1);
    }
}

/* What they did, once they have stopped. */
static void end_writers(long threads, struct result *result) {
    static float all[MOST * 1024];
    size_t times = 0;
    for (long t = 0; t < threads; t++) {
        pthread_join(writers[t].id, NULL);
        if (writers[t].failed) printf("a put of %s failed\n", writers[t].store->name), exit(1);
        result->puts += (double)writers[t].puts;
        for (uint64_t i = 0; i < 1024 && i < writers[t].puts; i++)
            all[times++] = writers[t].took[i];
    }
    if (!set.reads) take_times(result, all, times);
}

static struct result turn(const struct store *store, const char *folder, long threads) {
    char command[400];
    atomic_bool stops = false;
    void *log = store->open(folder);
    uint8_t key[KEY], value[VALUE] = {7};
    struct result result = {0};
    if (!log) printf("%s doesn't open\n", store->name), exit(1);
    for (uint64_t i = 0; set.reads && i < KEYS; i++)
        key_of(i, key), store->put(log, 0, key, value);
    uint64_t before = syncs;
    double began = now();
    begin_writers(store, log, threads, &stops);
    if (set.reads) result = read_on(store, log, began + (double)set.seconds);
    else usleep((unsigned)set.seconds * 1000000);
    atomic_store(&stops, true);
    end_writers(threads, &result);
    double seconds = now() - began;
    result.puts /= seconds;
    result.syncs = (double)(syncs - before) / seconds;
    store->close(log);
    snprintf(command, sizeof command, "rm -rf '%s'", folder);
    if (system(command)) exit(1);
    return result;
}

/* ---- memory */

/* A line of the system's about this process, in MB. */
static long held_mb(const char *word) {
    char line[200];
    long held = 0;
    FILE *file = fopen("/proc/self/status", "r");
    while (file && fgets(line, sizeof line, file))
        if (!strncmp(line, word, strlen(word))) held = atol(line + strlen(word)) / 1024;
    if (file) fclose(file);
    return held;
}

/* In a process of its own, so that nothing of another store's is counted. */
static void fill_one(const struct store *store, const char *folder) {
    uint8_t key[KEY], value[VALUE] = {7};
    pid_t child = fork();
    if (child) {
        waitpid(child, NULL, 0);
        return;
    }
    void *log = store->open(folder);
    for (long i = 0; log && i < set.fill; i++) {
        key_of((uint64_t)i, key);
        for (size_t at = 0; at < VALUE; at += 2) value[at] = (uint8_t)rand();
        if (store->put(log, (uint64_t)i % MOST, key, value)) puts("a put failed"), exit(1);
    }
    printf("%-8s own %ld MB, files' %ld MB\n", store->name, held_mb("RssAnon:"), held_mb("RssFile:"));
    store->close(log);
    exit(0);
}

static void fill(const struct store **stores, const char *folder) {
    char command[400];
    snprintf(command, sizeof command, "du -sm '%s'; rm -rf '%s'", folder, folder);
    fill_one(&entries, folder);
    for (int s = 0; !system(command) && stores[s]; s++) fill_one(stores[s], folder);
}

/* ---- all of them */

static double middle_of(float *some, long count) {
    qsort(some, (size_t)count, sizeof *some, by_size);
    return (double)some[count / 2];
}

static void compare(const struct store **stores, const char *folder, long threads) {
    static float puts[STORES][TURNS];
    struct result best[STORES] = {0};
    for (long t = 0; t < set.turns; t++)
        for (int s = 0; stores[s]; s++) {
            struct result one = turn(stores[s], folder, threads);
            bool is_best =
                set.reads && threads ? one.middle < best[s].middle : one.puts > best[s].puts;
            puts[s][t] = (float)one.puts;
            if (!t || is_best) best[s] = one;
        }
    for (int s = 0; stores[s]; s++)
        printf("%7ld %-8s %9.0f %9.0f %9.0f %9.2f %9.1f %9.1f\n", threads, stores[s]->name,
               best[s].puts, middle_of(puts[s], set.turns), best[s].syncs,
               best[s].syncs > 0 ? best[s].puts / best[s].syncs : 0, best[s].middle,
               best[s].worst);
}

static bool parse(int argc, char **argv) {
    struct {
        const char *word;
        long *value;
    } words[] = {{"seconds=", &set.seconds},   {"turns=", &set.turns},
                 {"threads=", &set.threads},   {"sync-us=", &set.sync_us},
                 {"pause-us=", &set.pause_us}, {"reads=", &set.reads},
                 {"peers=", &set.peers},       {"fill=", &set.fill}};
    for (int i = 2; i < argc; i++) {
        bool is_known = false;
        for (size_t w = 0; w < sizeof words / sizeof *words; w++) {
            size_t len = strlen(words[w].word);
            if (strncmp(argv[i], words[w].word, len)) continue;
            *words[w].value = atol(argv[i] + len);
            is_known = true;
        }
        if (!is_known) return fprintf(stderr, "no such word: %s\n", argv[i]), false;
    }
    return argc > 1 && set.seconds > 0 && set.threads <= MOST && set.turns > 0
           && set.turns <= TURNS;
}

int main(int argc, char **argv) {
    if (!parse(argc, argv))
        return fputs("bench_threads FOLDER "
                     "[seconds=|turns=|threads=|sync-us=|pause-us=|reads=|peers=NUMBER]..\n",
                     stderr),
               2;
    const struct store *stores[STORES] = {&own};
    is_unsynced = set.sync_us < 0;
    setvbuf(stdout, NULL, _IOLBF, 0);
    for (int s = 0; set.peers && peers[s].name; s++) {
        /* It syncs by a flag of a file too, which a disk of our own doesn't slow. */
        if (set.sync_us > 0 && !strcmp(peers[s].name, "LMDB")) continue;
        for (int at = 1; at < STORES; at++)
            if (!stores[at]) {
                stores[at] = &peers[s];
                break;
            }
    }
    if (set.fill) return fill(stores, argv[1]), 0;
    printf("threads store       puts/s    middle   syncs/s puts/sync  %s\n",
           set.reads ? "get: middle, slowest 1% us" : "put: middle, slowest 1% us");
    if (set.reads) compare(stores, argv[1], 0);
    long counts[] = {1, 4, 16, 64};
    for (int i = 0; i < 4; i++)
        if (!set.threads || set.threads == counts[i]) compare(stores, argv[1], counts[i]);
    return 0;
}
