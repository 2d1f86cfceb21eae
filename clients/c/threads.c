/* Many threads on one log: `threads FOLDER [storm|close|kill|fail]..`, all of them without a word.
 * Storms of mixed calls, closes in the middle of them, processes that are killed, and file calls that
 * fail in the middle of rounds: what was answered is found. It prints "ok", or what was wrong. */
#include "faults.h"
#include "raftlog.h"

#include <errno.h>
#include <pthread.h>
#include <signal.h>
#include <stdio.h>
#include <stdlib.h>
#include <string.h>
#include <sys/mman.h>
#include <sys/wait.h>
#include <unistd.h>

static int turn;

#define CHECK(what)                                                                  \
    do {                                                                             \
        if (!(what)) {                                                               \
            printf("%s:%d: %s, at file call %d\n", __FILE__, __LINE__, #what, turn); \
            exit(1);                                                                 \
        }                                                                            \
    } while (0)

/* The code of a call, which has to be this one; who finds a failed log ends. */
#define IS(call, wanted)                                         \
    do {                                                         \
        int is = (call);                                         \
        if (is == RAFTLOG_IO || is == RAFTLOG_FAILED) return is; \
        CHECK(is == (wanted));                                   \
    } while (0)

enum { MOST = 64 };

static raftlog *open_at(const char *folder) {
    char text[400];
    raftlog *log;
    int code = raftlog_open(folder, "target-file-size = \"64KB\"", &log, text, sizeof text);
    if (code) printf("%d %s\n", code, text);
    CHECK(!code);
    return log;
}

static void drop(const char *folder) {
    char command[400];
    snprintf(command, sizeof command, "rm -rf '%s'", folder);
    CHECK(system(command) == 0);
}

/* One of many threads, each with a group of its own. */
struct writer {
    raftlog *log;
    raftlog_batch *batch;
    raftlog_bytes bytes;
    uint64_t group, turns;
    bool mixes;
    uint64_t first;             /* entry of the group */
    _Atomic uint64_t *answered; /* entries */
    int code;                   /* by which it ended */
    atomic_int tid;             /* of its thread, once that runs, where the log is closed beside it */
    atomic_bool has_ended;
    pthread_t thread;
};

static int write_batch(struct writer *w, bool sync) {
    int code = raftlog_write(w->log, w->batch, sync);
    CHECK(!code == raftlog_batch_is_empty(w->batch));
    raftlog_batch_clear(w->batch);
    return code;
}

/* Entry `i`, and the key that says so. */
static int write_entry(struct writer *w, uint64_t i, bool sync) {
    raftlog_entry entry = {i, (const uint8_t *)&i, sizeof i};
    CHECK(!raftlog_batch_entries(w->batch, w->group, &entry, 1));
    CHECK(!raftlog_batch_put(w->batch, w->group, "last", 4, &i, sizeof i));
    return write_batch(w, sync);
}

static int be_refused(struct writer *w, uint64_t i) {
    raftlog_entry far = {i + 5, (const uint8_t *)"far", 3};
    CHECK(!raftlog_batch_entries(w->batch, w->group, &far, 1));
    IS(write_batch(w, i % 2), RAFTLOG_GAP);
    CHECK(!raftlog_batch_put(w->batch, w->group, "__own", 5, "", 0));
    IS(write_batch(w, i % 3 == 0), RAFTLOG_INVALID);
    CHECK(!raftlog_batch_put(w->batch, w->group, "\xffonce", 5, "", 0));
    IS(write_batch(w, true), RAFTLOG_INVALID);
    IS(raftlog_write_bytes(w->log, "no batch", 8, true), RAFTLOG_INVALID);
    char text[400];
    CHECK(raftlog_message(w->log, text, sizeof text) > 0 && strstr(text, "no batch"));
    return RAFTLOG_OK;
}

/* The second write of a number changes nothing. */
static int write_once(struct writer *w, uint64_t i) {
    uint64_t group = w->group + 1000, zero = 0;
    CHECK(!raftlog_batch_put(w->batch, group, "once", 4, &i, sizeof i));
    IS(raftlog_write_once(w->log, w->batch, &group, &i, 1, i % 4 == 0), RAFTLOG_OK);
    CHECK(!raftlog_batch_put(w->batch, group, "once", 4, &zero, sizeof zero));
    IS(raftlog_write_once(w->log, w->batch, &group, &i, 1, i % 4 == 1), RAFTLOG_OK);
    IS(raftlog_get(w->log, group, "once", 4, &w->bytes), RAFTLOG_OK);
    CHECK(w->bytes.len == 8 && *(uint64_t *)w->bytes.data == i);
    return RAFTLOG_OK;
}

static int compact_and_purge(struct writer *w, uint64_t i) {
    uint64_t count, upto = i - 4, watermark = UINT64_MAX, group = i % 4;
    if (i % 8 == 0) {
        IS(raftlog_compact_to(w->log, w->group, upto, &count), RAFTLOG_OK);
        CHECK(count == (w->first < upto ? upto - w->first : 0));
        if (w->first < upto) w->first = upto;
    }
    if (w->group == 1 && i % 16 == 3)
        IS(raftlog_purge_expired_files(w->log, &w->bytes), RAFTLOG_OK);
    if (w->group == 2 && i % 16 == 5)
        IS(raftlog_must_rewrite_append_queue(w->log, NULL), RAFTLOG_OK);
    if (w->group == 2 && i % 16 == 13)
        IS(raftlog_must_rewrite_append_groups(w->log, &watermark, &group, 1000), RAFTLOG_OK);
    if (w->group == 3 && i % 16 == 15) {
        group = 0;
        IS(raftlog_must_rewrite_rewrite_groups(w->log, &group, 1000), RAFTLOG_OK);
    }
    if (w->group == 3 && i % 16 == 7)
        IS(raftlog_must_rewrite_rewrite_queue(w->log, NULL), RAFTLOG_OK);
    if (w->group == 4 && i % 16 == 9) IS(raftlog_must_purge_all_stale(w->log, &count), RAFTLOG_OK);
    if (i % 5 == 0) IS(raftlog_sync(w->log), RAFTLOG_OK);
    return RAFTLOG_OK;
}

/* What was answered is seen, and nothing but that of the own group. */
static int read_own(struct writer *w, uint64_t i) {
    uint64_t index;
    raftlog_counts counts;
    IS(raftlog_get(w->log, w->group, "last", 4, &w->bytes), RAFTLOG_OK);
    CHECK(w->bytes.len == 8 && *(uint64_t *)w->bytes.data == i);
    IS(raftlog_first_index(w->log, w->group, &index), RAFTLOG_OK);
    CHECK(index == w->first);
    IS(raftlog_fetch_entries(w->log, w->group, w->first, i + 1, 0, &w->bytes), RAFTLOG_OK);
    IS(raftlog_fetch_entries(w->log, w->group, w->first, i + 2, 0, &w->bytes), RAFTLOG_NO_ENTRY);
    IS(raftlog_groups(w->log, &w->bytes), RAFTLOG_OK);
    CHECK(!raftlog_stats(w->log, &counts, sizeof counts) && counts.synced_changes <= counts.changes);
    return RAFTLOG_OK;
}

/* A batch is seen whole, also before it is answered: the entry with its key. */
static int read_other(struct writer *w) {
    uint64_t other = w->group == 1 ? 2 : w->group - 1, seen, last;
    int code = raftlog_get(w->log, other, "last", 4, &w->bytes);
    if (code == RAFTLOG_ABSENT) return RAFTLOG_OK;
    IS(code, RAFTLOG_OK);
    memcpy(&seen, w->bytes.data, sizeof seen);
    IS(raftlog_last_index(w->log, other, &last), RAFTLOG_OK);
    CHECK(last >= seen);
    return RAFTLOG_OK;
}

static int turn_of(struct writer *w, uint64_t i) {
    int code = write_entry(w, i, i % 3 == w->group % 3);
    if (code) return code;
    atomic_store(w->answered, i);
    code = read_other(w);
    if (w->mixes && !code) code = be_refused(w, i);
    if (w->mixes && !code) code = write_once(w, i);
    if (w->mixes && !code) code = compact_and_purge(w, i);
    return code ? code : read_own(w, i);
}

static void *write_on(void *with) {
    struct writer *w = with;
    w->batch = raftlog_batch_new();
    for (uint64_t i = 1; !w->code && i <= w->turns; i++) w->code = turn_of(w, i);
    raftlog_bytes_free(&w->bytes);
    raftlog_batch_free(w->batch);
    return NULL;
}

/* What was answered stands, and at most one more entry of each group. */
static void finds(raftlog *log, uint64_t threads, _Atomic uint64_t *answered) {
    raftlog_bytes bytes = {0};
    for (uint64_t t = 0; t < threads; t++) {
        uint64_t last = 0, first = 1;
        int code = raftlog_last_index(log, t + 1, &last);
        CHECK(code == 0 || (code == RAFTLOG_ABSENT && answered[t] == 0));
        CHECK(last == answered[t] || last == answered[t] + 1);
        if (!last) continue;
        CHECK(!raftlog_first_index(log, t + 1, &first));
        for (uint64_t i = first; i <= last; i++) {
            CHECK(!raftlog_get_entry(log, t + 1, i, &bytes));
            CHECK(bytes.len == 8 && *(uint64_t *)bytes.data == i);
        }
        CHECK(!raftlog_get(log, t + 1, "last", 4, &bytes) && *(uint64_t *)bytes.data == last);
    }
    raftlog_bytes_free(&bytes);
}

static void run(raftlog *log, uint64_t threads, uint64_t turns, bool mixes, struct writer *w,
                _Atomic uint64_t *answered) {
    for (uint64_t t = 0; t < threads; t++) {
        atomic_store(&answered[t], 0);
        w[t] = (struct writer){.log = log,
                               .group = t + 1,
                               .turns = turns,
                               .mixes = mixes,
                               .first = 1,
                               .answered = &answered[t]};
        CHECK(!pthread_create(&w[t].thread, NULL, write_on, &w[t]));
    }
    for (uint64_t t = 0; t < threads; t++) CHECK(!pthread_join(w[t].thread, NULL));
}

static void storm(const char *folder, uint64_t threads, uint64_t turns, bool mixes) {
    struct writer w[MOST];
    _Atomic uint64_t answered[MOST];
    raftlog_counts counts;
    raftlog *log = open_at(folder);
    run(log, threads, turns, mixes, w, answered);
    CHECK(!raftlog_stats(log, &counts, sizeof counts) && counts.rounds <= counts.changes
          && counts.largest_round <= threads);
    printf("%2d threads: %llu changes in %llu rounds, at most %llu; %llu synced by %llu syncs\n",
           (int)threads, (unsigned long long)counts.changes, (unsigned long long)counts.rounds,
           (unsigned long long)counts.largest_round, (unsigned long long)counts.synced_changes,
           (unsigned long long)counts.syncs);
    for (int again = 0; again < 2; again++) {
        for (uint64_t t = 0; t < threads; t++) CHECK(!w[t].code && answered[t] == turns);
        finds(log, threads, answered);
        CHECK(!raftlog_close(log));
        log = open_at(folder);
    }
    CHECK(!raftlog_close(log));
    drop(folder);
}

/* The file call of this turn fails: all are answered, and the next opening finds what was
 * answered. Whether it was reached. */
static bool fail_at(const char *folder, uint64_t threads, bool mixes) {
    struct writer w[MOST];
    _Atomic uint64_t answered[MOST];
    enum { TURNS = 12 };
    raftlog *log = open_at(folder);
    atomic_store(&faults_left, turn);
    run(log, threads, TURNS, mixes, w, answered);
    bool was_reached = atomic_load(&faults_left) == 0, is_told = false;
    for (uint64_t t = 0; t < threads; t++) {
        is_told |= w[t].code == RAFTLOG_IO;
        if (w[t].code == 0) CHECK(answered[t] == TURNS);
        else CHECK(was_reached && (w[t].code == RAFTLOG_IO || w[t].code == RAFTLOG_FAILED));
    }
    bool fails = was_reached && !faults_of_note;
    CHECK(fails == is_told);
    uint64_t index;
    if (fails)
        CHECK(raftlog_sync(log) == RAFTLOG_FAILED
              && raftlog_last_index(log, 1, &index) == RAFTLOG_FAILED);
    atomic_store(&faults_left, 0);
    CHECK(raftlog_close(log) == (fails ? RAFTLOG_FAILED : 0));
    faults_of_note = false;
    log = open_at(folder);
    CHECK(raftlog_missing(log, NULL, 0, 0) == 0);
    finds(log, threads, answered);
    CHECK(!raftlog_close(log));
    drop(folder);
    return was_reached;
}

/* The n-th file call is another one in each run: so each of the first, and then some of those that
 * follow. */
static void fail(const char *folder) {
    int errors[] = {EIO, ENOSPC}, last = 0;
    for (int e = 0; e < 2; e++) {
        faults_error = errors[e];
        for (turn = 1; fail_at(folder, 16, e == 0); turn += turn < 20 ? 1 : 7) last = turn;
        for (turn = 1; turn < 60 && fail_at(folder, 4, e == 1); turn += 3) {}
        for (turn = 2; turn < 60 && fail_at(folder, e ? 1 : 64, e == 0); turn += 9) {}
    }
    turn = 0;
    printf("file calls up to %d failed in turn\n", last);
}

/* Processes of 1, 4, 16 and 64 threads in turn are killed: what was answered stands. */
static void be_killed(const char *folder, int times) {
    _Atomic uint64_t *answered = mmap(NULL, MOST * sizeof *answered, PROT_READ | PROT_WRITE,
                                      MAP_SHARED | MAP_ANONYMOUS, -1, 0);
    CHECK(answered != MAP_FAILED);
    uint64_t all = 0;
    for (int i = 0; i < times; i++) {
        uint64_t threads = 1u << 2 * (i % 4);
        for (int t = 0; t < MOST; t++) atomic_store(&answered[t], 0);
        pid_t child = fork();
        CHECK(child >= 0);
        if (!child) {
            struct writer w[MOST];
            run(open_at(folder), threads, UINT64_MAX, i / 4 % 2, w, answered);
            _exit(0);
        }
        usleep(30000 + 7000 * i);
        int status;
        CHECK(!kill(child, SIGKILL) && waitpid(child, &status, 0) == child);
        CHECK(WIFSIGNALED(status));
        raftlog *log = open_at(folder);
        finds(log, threads, answered);
        CHECK(!raftlog_close(log));
        for (uint64_t t = 0; t < threads; t++) all += answered[t];
        drop(folder);
    }
    printf("killed %d times, %llu answered entries found\n", times, (unsigned long long)all);
}

/* ---- a close in the middle of a storm */

/* No call begins any more. */
static atomic_bool is_over;

/* One call of many: an entry, and then others. */
static int call_once(struct writer *w, uint64_t i) {
    uint64_t index;
    if (i % 3 == 0) {
        int code = write_entry(w, i / 3 + 1, w->group % 2);
        if (!code) atomic_store(w->answered, i / 3 + 1);
        return code;
    }
    if (i % 3 == 1) return raftlog_last_index(w->log, w->group, &index);
    if (i % 24 == 5 && w->group == 1) return raftlog_must_rewrite_append_queue(w->log, NULL);
    if (i % 24 == 14) return raftlog_sync(w->log);
    return raftlog_get(w->log, w->group, "last", 4, &w->bytes);
}

static void *call_until_closed(void *with) {
    struct writer *w = with;
    w->batch = raftlog_batch_new();
    atomic_store(&w->tid, faults_thread());
    for (uint64_t i = 0; !w->code && !atomic_load(&is_over); i++) w->code = call_once(w, i);
    CHECK(!w->code || w->code == RAFTLOG_FAILED);
    raftlog_bytes_free(&w->bytes);
    raftlog_batch_free(w->batch);
    atomic_store(&w->has_ended, true);
    return NULL;
}

static void *close_it(void *log) {
    CHECK(raftlog_close(log) == 0);
    return NULL;
}

/* Begins every second one. */
static void begin(struct writer *w, uint64_t first, uint64_t threads) {
    for (uint64_t t = first; t < threads; t += 2)
        CHECK(!pthread_create(&w[t].thread, NULL, call_until_closed, &w[t]));
}

/* Begins a close behind a sync that is held up, and then half of the threads, and lets the sync go on
 * once each call that has begun waits: each is answered, or refused and does nothing. */
static void close_behind_sync(raftlog *log, struct writer *w, uint64_t threads) {
    raftlog_counts counts;
    pthread_t closer;
    faults_hold_syncs(true);
    faults_await_sync();
    CHECK(!pthread_create(&closer, NULL, close_it, log));
    while (raftlog_stats(log, &counts, sizeof counts) != RAFTLOG_FAILED) usleep(1000);
    begin(w, 1, threads);
    for (uint64_t t = 0; t < threads; t++)
        CHECK(faults_await_thread(&w[t].tid, &w[t].has_ended));
    atomic_store(&is_over, true);
    faults_hold_syncs(false);
    CHECK(!pthread_join(closer, NULL));
    for (uint64_t t = 0; t < threads; t++) CHECK(!pthread_join(w[t].thread, NULL));
}

static void close_in_storm(const char *folder, uint64_t threads, useconds_t pause) {
    struct writer w[MOST];
    _Atomic uint64_t answered[MOST];
    raftlog *log = open_at(folder);
    uint64_t last, refused = 0;
    atomic_store(&is_over, false);
    for (uint64_t t = 0; t < threads; t++) {
        atomic_store(&answered[t], 0);
        w[t] = (struct writer){.log = log, .group = t + 1, .answered = &answered[t]};
    }
    begin(w, 0, threads);
    usleep(pause);
    close_behind_sync(log, w, threads);
    log = open_at(folder);
    finds(log, threads, answered);
    for (uint64_t t = 0; t < threads; t++) {
        refused += w[t].code == RAFTLOG_FAILED;
        int code = raftlog_last_index(log, t + 1, &last);
        CHECK(answered[t] ? !code && last == answered[t] : code == RAFTLOG_ABSENT);
    }
    CHECK(refused >= threads / 2 && !raftlog_close(log));
    drop(folder);
    printf("closed beside %2d threads, of which %d were refused\n", (int)threads, (int)refused);
}

int main(int argc, char **argv) {
    char *all[] = {"storm", "close", "kill", "fail"};
    if (argc < 2) return fputs("threads FOLDER [storm|close|kill|fail]..\n", stderr), 2;
    const char *folder = argv[1];
    int count = argc == 2 ? 4 : argc - 2;
    char **words = argc == 2 ? all : argv + 2;
    setvbuf(stdout, NULL, _IOLBF, 0);
    for (int i = 0; i < count; i++) {
        if (!strcmp(words[i], "storm"))
            for (uint64_t threads = 1; threads <= MOST; threads *= 4) {
                storm(folder, threads, 320 / threads, true);
                storm(folder, threads, 1280 / threads, false);
            }
        else if (!strcmp(words[i], "close"))
            for (useconds_t pause = 0; pause < 80000; pause += 20000)
                for (uint64_t threads = 1; threads <= MOST; threads *= 4)
                    close_in_storm(folder, threads, pause);
        else if (!strcmp(words[i], "kill")) be_killed(folder, 16);
        else if (!strcmp(words[i], "fail")) fail(folder);
        else return fputs("threads FOLDER [storm|close|kill|fail]..\n", stderr), 2;
    }
    puts("ok");
    return 0;
}
