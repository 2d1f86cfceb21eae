/* Each request of the library for memory is refused in turn: `no_memory FOLDER`. A call that meets it succeeds, or returns
 * RAFTLOG_NO_MEMORY; then the log holds what it held before, and the same call succeeds. Then all requests are refused from every
 * third one on, until the call returns. By these a log may fail: the next opening finds it with or without that change, and both
 * are counted. An opening succeeds, or returns RAFTLOG_NO_MEMORY, and the next one finds everything. */
#include "keys.h"
#include "refusals.h"

#include <ftw.h>
#include <pthread.h>

enum { GROUPS = 40, KEYS = 4, THREADS = 4, VALUE_ROOM = 300, ENTRY_ROOM = 100 };

static const char *settings = "target-file-size = \"4KB\"\npurge-threshold = \"16KB\"\npurge-rewrite-threshold = \"4KB\"\n";

/* A list of steps, one letter each: a small letter changes one group, or reads it; a capital is a purge. */
struct list {
    const char *name, *steps;
    uint64_t groups; /* that the steps take in turn */
    bool sync;
};

#define PUTS "pppppppppppppppppppppppppppppppppppppppp"
#define WRITES "peoepeodeecnpeoepeedcpeonpepeoepcpeodnee"

static const struct list lists[] = {
    {"40 puts to 40 groups", PUTS, 40, false},
    {"writes of all kinds, each with a sync", WRITES "s" WRITES "g", 5, true},
    {"purges", WRITES "A" WRITES "R" WRITES "D" WRITES "E", 5, false},
    {"purges in short calls", WRITES "B" WRITES "S" WRITES "F" WRITES "g", 5, true},
};

enum { LISTS = sizeof lists / sizeof *lists };

static const struct list *now;
static char what_runs[80];

static void need(bool is_so, const char *what) {
    if (is_so) return;
    printf("%s, request %d%s: %s\n", what_runs, refusals_turn, refusals_go_on ? " and all after it" : "", what);
    exit(1);
}

/* ---- what a log has to hold */

struct group {
    uint64_t first, last;  /* entries; 0: none */
    uint64_t values[KEYS]; /* 0: no value */
};

struct model {
    struct group groups[GROUPS];
};

struct step {
    char letter;
    uint64_t group, key, number; /* numbers of later steps are greater */
};

static struct step step_at(const struct list *list, uint64_t i) {
    return (struct step){list->steps[i], i % list->groups, i / list->groups % KEYS, i + 1};
}

static void note(struct model *model, const struct step *step) {
    struct group *group = &model->groups[step->group];
    switch (step->letter) {
    case 'p': case 'o': group->values[step->key] = step->number; break;
    case 'd': group->values[step->key] = 0; break;
    case 'c': group->first = group->last; break;
    case 'n': *group = (struct group){.values = {step->number}}; break;
    case 'e':
        if (!group->last) group->first = 1;
        group->last += 2;
        break;
    }
}

static bool has_value(raftlog *log, uint64_t group, uint64_t key, uint64_t number, raftlog_bytes *bytes) {
    int code = raftlog_get(log, group + 1, &key, sizeof key, bytes);
    if (!number) return code == RAFTLOG_ABSENT;
    return !code && bytes->len == VALUE_ROOM && !memcmp(bytes->data, &number, sizeof number);
}

static bool has_entries(raftlog *log, uint64_t group, const struct group *of, raftlog_bytes *bytes) {
    uint64_t first = 0, last = 0;
    int code = raftlog_first_index(log, group + 1, &first);
    if (!of->last) return code == RAFTLOG_ABSENT;
    if (code || raftlog_last_index(log, group + 1, &last) || first != of->first || last != of->last) return false;
    for (uint64_t i = first; i <= last; i++)
        if (raftlog_get_entry(log, group + 1, i, bytes) || bytes->len != ENTRY_ROOM || memcmp(bytes->data, &i, sizeof i)) return false;
    return true;
}

static bool holds(raftlog *log, const struct model *model) {
    raftlog_bytes bytes = {0};
    bool is_so = true;
    for (uint64_t group = 0; group < GROUPS && is_so; group++) {
        const struct group *of = &model->groups[group];
        for (uint64_t key = 0; key < KEYS && is_so; key++) is_so = has_value(log, group, key, of->values[key], &bytes);
        if (is_so) is_so = has_entries(log, group, of, &bytes);
    }
    raftlog_bytes_free(&bytes);
    return is_so;
}

/* ---- steps */

static int add_entries(raftlog_batch *batch, uint64_t group, uint64_t last) {
    char data[2][ENTRY_ROOM] = {{0}};
    raftlog_entry entries[2];
    for (int i = 0; i < 2; i++) {
        uint64_t index = ++last;
        memcpy(data[i], &index, sizeof index);
        entries[i] = (raftlog_entry){index, (const uint8_t *)data[i], ENTRY_ROOM};
    }
    return raftlog_batch_entries(batch, group + 1, entries, 2);
}

static int fill_batch(raftlog_batch *batch, const struct step *step, const struct model *model) {
    char value[VALUE_ROOM] = {0};
    uint64_t key = step->letter == 'n' ? 0 : step->key;
    memcpy(value, &step->number, sizeof step->number);
    if (step->letter == 'd') return raftlog_batch_delete(batch, step->group + 1, &key, sizeof key);
    if (step->letter == 'e') return add_entries(batch, step->group, model->groups[step->group].last);
    int code = step->letter == 'n' ? raftlog_batch_clean(batch, step->group + 1) : RAFTLOG_OK;
    return code ? code : raftlog_batch_put(batch, step->group + 1, &key, sizeof key, value, sizeof value);
}

static int write_step(raftlog *log, const struct step *step, const struct model *model, bool sync) {
    raftlog_batch *batch = raftlog_batch_new();
    uint64_t group = step->group + 1;
    int code = batch ? fill_batch(batch, step, model) : RAFTLOG_NO_MEMORY;
    if (!code && step->letter == 'o') code = raftlog_write_once(log, batch, &group, &step->number, 1, sync);
    else if (!code) code = raftlog_write(log, batch, sync);
    raftlog_batch_free(batch);
    return code;
}

static int read_step(raftlog *log, uint64_t group) {
    raftlog_bytes bytes = {0};
    int code = raftlog_scan(log, group + 1, NULL, NULL, false, 0, &bytes);
    if (!code) code = raftlog_groups(log, &bytes);
    raftlog_bytes_free(&bytes);
    return code;
}

static int make(raftlog *log, const struct step *step, const struct model *model, bool sync) {
    uint64_t watermark = UINT64_MAX, from = 0;
    switch (step->letter) {
    case 'g': return read_step(log, step->group);
    case 's': return raftlog_sync(log);
    case 'c': return raftlog_compact_to(log, step->group + 1, model->groups[step->group].last, NULL);
    case 'A': return raftlog_must_rewrite_append_queue(log, NULL);
    case 'B': return raftlog_must_rewrite_append_groups(log, &watermark, &from, 2000);
    case 'R': return raftlog_must_rewrite_rewrite_queue(log, NULL);
    case 'S': return raftlog_must_rewrite_rewrite_groups(log, &from, 2000);
    case 'D': return raftlog_must_purge_all_stale(log, NULL);
    case 'E': return raftlog_purge_expired_files(log, NULL);
    case 'F': return raftlog_purge_in_short_calls(log, 2000, NULL);
    default: return write_step(log, step, model, sync);
    }
}

static int remove_one(const char *path, const struct stat *is, int kind, struct FTW *at) {
    (void)is, (void)kind, (void)at;
    return remove(path);
}

static void remove_all(const char *folder) { CHECK(!nftw(folder, remove_one, 8, FTW_DEPTH | FTW_PHYS)); }

/* ---- a list of steps, in which a request is refused */

struct counts {
    int runs, refused, failed, found;
};

static bool has_failed(raftlog *log) {
    uint64_t index;
    return raftlog_last_index(log, 1, &index) == RAFTLOG_FAILED;
}

/* A call was refused: whether the log goes on. */
static bool goes_on(raftlog *log, const struct step *step, const struct model *model, struct counts *counts) {
    refusals_end();
    counts->refused++;
    if (has_failed(log)) {
        need(refusals_go_on, "one refused request has failed the log");
        return false;
    }
    need(holds(log, model), "a refused call has changed the log");
    need(make(log, step, model, now->sync) == RAFTLOG_OK, "the same call is refused again");
    return true;
}

/* The next opening finds what the log held before a change, or after it, if that may be. Returns whether it is the latter. */
static bool finds(const char *folder, const struct model *before, const struct model *after) {
    raftlog *log = open_with(folder, settings);
    bool is_before = holds(log, before);
    need(is_before || (after && holds(log, after)), "the next opening finds other contents");
    CHECK(raftlog_close(log) == 0);
    remove_all(folder);
    return !is_before;
}

/* Whether the request of this turn was made. */
static bool run_steps(const char *folder, struct counts *counts) {
    struct model model = {0}, after = {0};
    raftlog *log = open_with(folder, settings);
    bool fails = false, was_made = false;
    refusals_begin();
    for (uint64_t i = 0; now->steps[i] && !fails; i++) {
        struct step step = step_at(now, i);
        after = model;
        note(&after, &step);
        int code = make(log, &step, &model, now->sync);
        need(!code || code == RAFTLOG_NO_MEMORY || code == RAFTLOG_IO, raftlog_code_text(code));
        was_made |= code != 0;
        fails = code && !goes_on(log, &step, &model, counts);
        if (!fails) model = after;
    }
    was_made |= refusals_end();
    need(fails || holds(log, &model), "the log holds something else in the end");
    need(raftlog_close(log) == (fails ? RAFTLOG_FAILED : RAFTLOG_OK), "the close returns something else");
    counts->found += finds(folder, &model, fails ? &after : NULL);
    counts->runs += was_made;
    counts->failed += fails;
    return was_made;
}

/* ---- threads that write at the same time */

struct writer {
    raftlog *log;
    uint64_t group, done;
    int refused;
    pthread_t thread;
};

static void *write_on(void *of) {
    struct writer *writer = of;
    const struct model none = {0};
    int code = RAFTLOG_OK;
    for (uint64_t i = 0; i < KEYS && !code; i++) {
        struct step step = {'p', writer->group, i, i + 1};
        code = make(writer->log, &step, &none, now->sync);
        if (code == RAFTLOG_NO_MEMORY && !has_failed(writer->log)) {
            writer->refused++;
            code = make(writer->log, &step, &none, now->sync);
        }
        writer->done += !code;
    }
    return NULL;
}

static bool run_threads(const char *folder, struct counts *counts) {
    struct writer writers[THREADS];
    struct model model = {0};
    raftlog *log = open_with(folder, settings);
    refusals_begin();
    for (uint64_t t = 0; t < THREADS; t++) {
        writers[t] = (struct writer){.log = log, .group = t};
        CHECK(!pthread_create(&writers[t].thread, NULL, write_on, &writers[t]));
    }
    for (uint64_t t = 0; t < THREADS; t++) {
        CHECK(!pthread_join(writers[t].thread, NULL));
        counts->refused += writers[t].refused;
        for (uint64_t i = 0; i < writers[t].done; i++) model.groups[t].values[i] = i + 1;
    }
    bool was_made = refusals_end();
    need(!has_failed(log), "one refused request has failed the log");
    need(holds(log, &model), "the log holds something else in the end");
    CHECK(raftlog_close(log) == 0);
    finds(folder, &model, NULL);
    counts->runs += was_made;
    return was_made;
}

/* ---- openings */

/* A log in both queues, whose last file ends in bytes that an opening cuts off. */
static void prepare(const char *folder, struct model *model) {
    const struct list list = {.steps = WRITES "A" WRITES "B" WRITES, .groups = 5};
    raftlog *log = open_with(folder, settings);
    for (uint64_t i = 0; list.steps[i]; i++) {
        struct step step = step_at(&list, i);
        CHECK(make(log, &step, model, true) == 0);
        note(model, &step);
    }
    CHECK(raftlog_close(log) == 0);
    run("last=$(ls '%s'/*.%s | tail -n 1) && printf 'no record' >>\"$last\"", folder, "raftlog");
}

static bool run_opening(const char *from, const char *folder, const struct model *model, struct counts *counts) {
    char text[TEXT_ROOM];
    raftlog *log;
    run("cp -r '%s' '%s'", from, folder);
    refusals_begin();
    int code = raftlog_open(folder, settings, &log, text, sizeof text);
    bool was_made = refusals_end();
    if (code && code != RAFTLOG_NO_MEMORY) printf("%d %s\n", code, text);
    need(!code || code == RAFTLOG_NO_MEMORY, "an opening fails by another code");
    need(!code || strstr(text, folder), "the text of an opening lacks the folder");
    if (!code) CHECK(raftlog_close(log) == 0);
    finds(folder, model, NULL);
    counts->runs += was_made;
    counts->refused += code != 0;
    return was_made;
}

/* ---- all of them */

static void tell(const struct counts *counts) {
    printf("%s: %d requests, %d calls refused, %d logs failed, %d with the refused change\n", what_runs, counts->runs,
           counts->refused, counts->failed, counts->found);
    fflush(stdout);
}

static void begin_with(const char *name, bool go_on) {
    refusals_go_on = go_on;
    snprintf(what_runs, sizeof what_runs, "%s%s", name, go_on ? ", all requests of a call" : "");
}

static int next_turn(void) { return refusals_go_on ? 3 : 1; }

static void fail_in_lists(const char *folder) {
    for (int i = 0; i < 2 * LISTS; i++) {
        struct counts counts = {0};
        now = &lists[i / 2];
        begin_with(now->name, i % 2);
        for (refusals_turn = 1; run_steps(folder, &counts);) refusals_turn += next_turn();
        tell(&counts);
    }
}

static void fail_in_threads(const char *folder) {
    for (int sync = 0; sync < 2; sync++) {
        struct counts counts = {0};
        const struct list list = {.sync = sync};
        now = &list;
        begin_with(sync ? "threads, with syncs" : "threads", false);
        for (refusals_turn = 1; run_threads(folder, &counts);) refusals_turn++;
        tell(&counts);
    }
}

static void fail_in_openings(const char *folder) {
    char from[TEXT_ROOM / 2];
    struct model model = {0};
    CHECK((size_t)snprintf(from, sizeof from, "%s.prepared", folder) < sizeof from);
    prepare(from, &model);
    for (int i = 0; i < 2; i++) {
        struct counts counts = {0};
        begin_with("openings", i);
        for (refusals_turn = 1; run_opening(from, folder, &model, &counts);) refusals_turn += next_turn();
        tell(&counts);
    }
    remove_all(from);
}

int main(int argc, char **argv) {
    CHECK(argc == 2);
    fail_in_lists(argv[1]);
    fail_in_threads(argv[1]);
    fail_in_openings(argv[1]);
    puts("ok");
    return 0;
}
