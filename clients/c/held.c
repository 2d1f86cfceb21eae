/* Rounds behind a sync that is held up: `held FOLDER ROWS` plays the rows of held.txt, which says
 * what they are, then a close beside calls that wait, those that come late, and a read beside a purge.
 * It prints "ok", or what was wrong. */
#include "faults.h"
#include "raftlog.h"

#include <pthread.h>
#include <stdio.h>
#include <stdlib.h>
#include <string.h>
#include <unistd.h>

static const char *row = "the close";

#define CHECK(what)                                                               \
    do {                                                                          \
        if (!(what)) {                                                            \
            printf("%s:%d: %s, at the row %s\n", __FILE__, __LINE__, #what, row); \
            exit(1);                                                              \
        }                                                                         \
    } while (0)

enum { HELD = 1, OTHER = 2, LATE = 3, FIRST = 10, MOST = 512 };

/* How long is looked whether a close has begun, in us, and how often it may not yet. */
enum { PAUSE = 1000, PATIENCE = 30000 };

struct call {
    raftlog *log;
    uint64_t group;
    char kind; /* as held.txt's */
    bool sync;
    size_t size;
    int code;
    atomic_int tid; /* of its thread, once that runs */
    atomic_bool has_ended;
    pthread_t thread;
};

static int write_one(struct call *call) {
    raftlog_batch *batch = raftlog_batch_new();
    char *value = calloc(1, call->size + 1);
    CHECK(batch && value);
    const char *key = call->kind == 'x' ? "__refused" : "key";
    CHECK(!raftlog_batch_put(batch, call->group, key, strlen(key), value, call->size));
    int code = raftlog_write(call->log, batch, call->sync);
    CHECK(!code == raftlog_batch_is_empty(batch));
    free(value);
    raftlog_batch_free(batch);
    return code;
}

static int read_one(struct call *call) {
    raftlog_bytes bytes = {0};
    int code = raftlog_get(call->log, call->group, "key", 3, &bytes);
    CHECK(code || bytes.len == 1);
    raftlog_bytes_free(&bytes);
    return code;
}

/* Each thread has the text of its own failure. */
static void tells_why(struct call *call) {
    static const char *texts[] = {
        [RAFTLOG_INVALID] = "underscore", [RAFTLOG_IO] = ".raftlog", [RAFTLOG_FAILED] = "failed"};
    char text[400];
    CHECK(raftlog_message(call->log, text, sizeof text) > 0);
    if (!strstr(text, texts[call->code])) printf("%d: %s\n", call->code, text);
    CHECK(strstr(text, texts[call->code]));
}

static void *make_call(void *with) {
    struct call *call = with;
    atomic_store(&call->tid, faults_thread());
    switch (call->kind) {
    case 'w':
    case 'x': call->code = write_one(call); break;
    case 'r':
    case 'o': call->code = read_one(call); break;
    case 's': call->code = raftlog_sync(call->log); break;
    case 'c': call->code = raftlog_compact_to(call->log, call->group, 1, NULL); break;
    case 'p': call->code = raftlog_must_rewrite_append_queue(call->log, NULL); break;
    }
    if (call->code && call->group != LATE) tells_why(call);
    atomic_store(&call->has_ended, true);
    return NULL;
}

static void begin(struct call *call) {
    pthread_attr_t small;
    CHECK(!pthread_attr_init(&small) && !pthread_attr_setstacksize(&small, 1 << 17));
    CHECK(!pthread_create(&call->thread, &small, make_call, call));
    pthread_attr_destroy(&small);
}

/* Waits until a call waits for another one, or has ended: so those that begin after it come after
 * it. */
static void settle(struct call *call) {
    CHECK(faults_await_thread(&call->tid, &call->has_ended));
}

static void end(struct call *call) { CHECK(!pthread_join(call->thread, NULL)); }

static raftlog *open_at(const char *folder) {
    char text[400] = "";
    raftlog *log;
    CHECK(!raftlog_open(folder, NULL, &log, text, sizeof text));
    return log;
}

static void drop(const char *folder) {
    char command[400];
    snprintf(command, sizeof command, "rm -rf '%s'", folder);
    CHECK(system(command) == 0);
}

/* Begins a write whose sync is held up, in a log that has a key of another group. */
static void hold(raftlog *log, struct call *held) {
    struct call other = {.log = log, .group = OTHER, .kind = 'w', .size = 1};
    make_call(&other);
    faults_hold_syncs(true);
    *held = (struct call){.log = log, .group = HELD, .kind = 'w', .sync = true, .size = 1};
    begin(held);
    faults_await_sync();
}

/* The calls that a text has: how many. */
static int calls_of(char *text, raftlog *log, struct call *calls) {
    int count = 0;
    for (char *rest, *word = strtok_r(text, " ", &rest); word; word = strtok_r(NULL, " ", &rest)) {
        char *at = word + 1;
        struct call call = {.log = log, .kind = *word, .size = 1};
        if (*at == '+') call.sync = true, at++;
        if (*at && *at != '*') call.size = 1024 * strtoul(at, &at, 10);
        for (int times = *at == '*' ? atoi(at + 1) : 1; times; times--, count++) {
            CHECK(count < MOST);
            call.group = call.kind == 'r'   ? HELD
                         : call.kind == 'o' ? OTHER
                                            : (uint64_t)(FIRST + count);
            memcpy(&calls[count], &call, sizeof call);
        }
    }
    return count;
}

/* Whether the answers are those of the text, of the held write first. */
static void answers_are(char *text, const struct call *held, const struct call *calls, int count) {
    int at = -1;
    for (char *rest, *word = strtok_r(text, " ", &rest); word; word = strtok_r(NULL, " ", &rest)) {
        char *times = strchr(word, '*');
        for (int left = times ? atoi(times + 1) : 1; left; left--, at++) {
            int code = at < 0 ? held->code : calls[at].code;
            if (code != atoi(word)) printf("call %d is answered %d\n", at + 1, code);
            CHECK(at < count && code == atoi(word));
        }
    }
    CHECK(at == count);
}

/* What was done stands after the next opening, and what was refused doesn't. */
static void finds(const char *folder, const struct call *calls, int count) {
    raftlog *log = open_at(folder);
    raftlog_bytes bytes = {0};
    for (int i = 0; i < count; i++) {
        int code = raftlog_get(log, calls[i].group, "key", 3, &bytes);
        if (calls[i].kind == 'w' && !calls[i].code) CHECK(!code && bytes.len == calls[i].size);
        if (calls[i].kind == 'x') CHECK(code == RAFTLOG_ABSENT);
    }
    raftlog_bytes_free(&bytes);
    CHECK(!raftlog_close(log));
}

/* Who reads a log that has failed is told why. */
static void fails_to_read(raftlog *log) {
    struct call read = {.log = log, .group = OTHER, .kind = 'o'};
    make_call(&read);
    CHECK(read.code == RAFTLOG_FAILED);
}

static void play(const char *folder, const char *line) {
    static struct call held, calls[MOST];
    char *words[5], *rest, *copy = strdup(line);
    for (int i = 0; i < 5; i++) CHECK((words[i] = strtok_r(i ? NULL : copy, "|", &rest)));
    raftlog *log = open_at(folder);
    raftlog_counts before, after;
    hold(log, &held);
    CHECK(!raftlog_stats(log, &before, sizeof before));
    bool is_order = strchr(words[1], 'o') != NULL;
    int count = calls_of(words[0], log, calls), fails = atoi(words[1] + strspn(words[1], " o"));
    for (int i = 0; i < count; i++) {
        begin(&calls[i]);
        settle(&calls[i]);
    }
    CHECK(!atomic_load(&held.has_ended));
    for (int i = 0; i < count; i++)
        CHECK(atomic_load(&calls[i].has_ended) == (calls[i].kind == 'o'));
    int syncs = atomic_load(&faults_syncs);
    atomic_store(is_order ? &faults_orders_left : &faults_left, fails);
    faults_hold_syncs(false);
    end(&held);
    for (int i = 0; i < count; i++) end(&calls[i]);
    atomic_store(&faults_left, 0);
    if (fails) fails_to_read(log);
    answers_are(words[2], &held, calls, count);
    CHECK(!raftlog_stats(log, &after, sizeof after) && after.rounds - before.rounds == (uint64_t)atoi(words[3]));
    if (!strchr(words[4], '?')) CHECK(atomic_load(&faults_syncs) - syncs == atoi(words[4]));
    CHECK(raftlog_close(log) == (fails ? RAFTLOG_FAILED : RAFTLOG_OK));
    finds(folder, calls, count);
    drop(folder);
    free(copy);
}

static void *close_it(void *with) {
    CHECK(raftlog_close(with) == 0);
    return NULL;
}

/* A close while others wait: they get their answers, and those that begin then are refused. */
static void close_beside(const char *folder) {
    static struct call held, calls[4], late[3];
    char kinds[] = "w w+ r w", late_kinds[] = "o r r";
    pthread_t closer;
    raftlog *log = open_at(folder);
    hold(log, &held);
    int count = calls_of(kinds, log, calls);
    for (int i = 0; i < count; i++) {
        begin(&calls[i]);
        settle(&calls[i]);
    }
    CHECK(!pthread_create(&closer, NULL, close_it, log));
    raftlog_counts counts;
    for (int left = PATIENCE; raftlog_stats(log, &counts, sizeof counts) != RAFTLOG_FAILED; left--) {
        CHECK(left > 0);
        usleep(PAUSE);
    }
    int late_count = calls_of(late_kinds, log, late);
    raftlog_bytes bytes = {0};
    for (int i = 0; i < late_count; i++)
        CHECK(raftlog_get(log, late[i].group, "key", 3, &bytes) == RAFTLOG_FAILED);
    struct call write = {.log = log, .group = LATE, .kind = 'w', .size = 1};
    begin(&write);
    settle(&write);
    faults_hold_syncs(false);
    CHECK(!pthread_join(closer, NULL));
    end(&write);
    end(&held);
    CHECK(write.code == RAFTLOG_FAILED && !held.code);
    for (int i = 0; i < count; i++) {
        end(&calls[i]);
        CHECK(!calls[i].code);
    }
    finds(folder, calls, count);
    raftlog_bytes_free(&bytes);
    drop(folder);
}

/* Those that come while a round is handed over are of it, since its sync hasn't begun; a purge
 * isn't. */
static void come_late(const char *folder) {
    static struct call held, calls[5];
    char kinds[] = "w+ x w+ w p";
    raftlog *log = open_at(folder);
    raftlog_counts before, after;
    hold(log, &held);
    CHECK(!raftlog_stats(log, &before, sizeof before));
    int count = calls_of(kinds, log, calls), syncs = atomic_load(&faults_syncs);
    begin(&calls[0]);
    settle(&calls[0]);
    faults_hold_orders(true);
    faults_hold_syncs(false);
    faults_await_order();
    for (int i = 1; i < count; i++) {
        begin(&calls[i]);
        settle(&calls[i]);
    }
    faults_hold_syncs(true);
    faults_hold_orders(false);
    faults_await_sync();
    CHECK(atomic_load(&faults_syncs) == syncs + 1);
    faults_hold_syncs(false);
    end(&held);
    for (int i = 0; i < count; i++) end(&calls[i]);
    CHECK(!raftlog_stats(log, &after, sizeof after) && after.rounds - before.rounds == 3
          && after.largest_round == 4 && calls[1].code == RAFTLOG_INVALID);
    CHECK(!raftlog_close(log));
    finds(folder, calls, count);
    drop(folder);
}

/* A read of any group waits while a purge is inside the proved part, and not while its sync runs. One
 * of the Append queue goes there several times. */
static void read_beside_purge(const char *folder) {
    static struct call calls[4];
    char kinds[] = "p o o o";
    raftlog *log = open_at(folder);
    struct call put = {.log = log, .group = OTHER, .kind = 'w', .size = 1};
    make_call(&put);
    int count = calls_of(kinds, log, calls);
    faults_hold_orders(true);
    begin(&calls[0]);
    faults_await_order();
    begin(&calls[1]);
    settle(&calls[1]);
    CHECK(!atomic_load(&calls[1].has_ended));
    faults_hold_syncs(true);
    faults_hold_orders(false);
    faults_await_sync();
    end(&calls[1]);
    begin(&calls[2]);
    end(&calls[2]);
    faults_hold_orders(true);
    faults_hold_syncs(false);
    faults_await_order();
    begin(&calls[3]);
    settle(&calls[3]);
    CHECK(!atomic_load(&calls[3].has_ended) && !atomic_load(&calls[0].has_ended));
    faults_hold_orders(false);
    end(&calls[3]);
    end(&calls[0]);
    for (int i = 0; i < count; i++) CHECK(!calls[i].code);
    CHECK(!raftlog_close(log));
    drop(folder);
}

int main(int argc, char **argv) {
    char line[400];
    FILE *rows = argc == 3 ? fopen(argv[2], "r") : NULL;
    if (!rows) return fputs("held FOLDER ROWS\n", stderr), 2;
    int played = 0;
    while (fgets(line, sizeof line, rows)) {
        line[strcspn(line, "\n")] = 0;
        if (*line == '#' || !*line) continue;
        row = line;
        play(argv[1], line);
        played++;
    }
    fclose(rows);
    row = "the close";
    close_beside(argv[1]);
    row = "those that come late";
    come_late(argv[1]);
    row = "a read beside a purge";
    read_beside_purge(argv[1]);
    printf("ok, %d rows\n", played);
    return 0;
}
