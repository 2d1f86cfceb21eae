/* Through C: `stay stay COUNT GROUPS` what a call takes that has one put to rewrite, where so many entries of 256 bytes
 * stay in the Rewrite queue; `stay rotate RECYCLED COUNT` puts that begin a file of 64 KB, in memory, purges of one file,
 * and requests of memory; `stay open FOLDER` an opening. Linked with --wrap of malloc, calloc, realloc and free. */
#include "raftlog.h"

#include <stdio.h>
#include <stdlib.h>
#include <string.h>
#include <time.h>

enum { TURNS = 9 };

static uint64_t requests, requested;
void *__real_malloc(size_t);
void *__real_calloc(size_t, size_t);
void *__real_realloc(void *, size_t);
void *__wrap_malloc(size_t n) { return requests++, requested += n, __real_malloc(n); }
void *__wrap_calloc(size_t n, size_t m) { return requests++, requested += n * m, __real_calloc(n, m); }
void *__wrap_realloc(void *p, size_t n) { return requests++, requested += n, __real_realloc(p, n); }

static double now(void) {
    struct timespec t;
    clock_gettime(CLOCK_MONOTONIC, &t);
    return t.tv_sec * 1e6 + t.tv_nsec / 1e3;
}

static void need(int code, const char *what) {
    if (code) fprintf(stderr, "%s: %s\n", what, raftlog_code_text(code)), exit(1);
}

static raftlog *open_memory(const char *settings) {
    char text[300];
    raftlog *log;
    if (raftlog_open_memory(settings, &log, text, sizeof text)) fprintf(stderr, "%s\n", text), exit(1);
    return log;
}

static void put(raftlog *log, raftlog_batch *batch, uint64_t group, uint64_t key) {
    char name[17], value[101];
    snprintf(name, sizeof name, "%016llu", (unsigned long long)key);
    memset(value, 'v', 100);
    raftlog_batch_put(batch, group, name, 16, value, 100);
    need(raftlog_write(log, batch, false), "put");
}

static int append(raftlog *log) { return raftlog_must_rewrite_append_queue(log, NULL); }
static int append_groups(raftlog *log) {
    uint64_t watermark = UINT64_MAX, group = 0;
    int code;
    do code = raftlog_must_rewrite_append_groups(log, &watermark, &group, 1 << 20);
    while (!code && group);
    return code;
}
static int stale(raftlog *log) { return raftlog_must_purge_all_stale(log, NULL); }
static int expired(raftlog *log) { return raftlog_purge_expired_files(log, NULL); }
static int whole(raftlog *log) { return raftlog_must_rewrite_rewrite_queue(log, NULL); }

static void measure(raftlog *log, const char *name, int (*call)(raftlog *), int turns, bool puts) {
    raftlog_batch *batch = raftlog_batch_new();
    printf("stay %s:", name);
    for (int turn = 0; turn < turns; turn++) {
        if (puts) put(log, batch, 0, turn);
        double t = now();
        need(call(log), name);
        printf(" %.1f", now() - t);
    }
    printf("\n");
    raftlog_batch_free(batch);
}

static void short_calls(raftlog *log, const char *name, uint64_t budget) {
    uint64_t group = 0, calls = 0;
    double longest = 0, begun = now();
    do {
        double t = now();
        need(raftlog_must_rewrite_rewrite_groups(log, &group, budget), name);
        t = now() - t;
        if (t > longest) longest = t;
        calls++;
    } while (group);
    printf("stay %s: %.1f %llu %.1f\n", name, longest, (unsigned long long)calls, now() - begun);
}

static void stay(uint64_t count, uint64_t groups) {
    raftlog *log = open_memory("target-file-size = \"16MB\"");
    raftlog_batch *batch = raftlog_batch_new();
    uint8_t value[248];
    memset(value, 7, sizeof value);
    for (uint64_t i = 0; i < count; i++) {
        raftlog_entry entry = {1 + i / groups, value, sizeof value};
        raftlog_batch_entries(batch, i % groups, &entry, 1);
        need(raftlog_write(log, batch, false), "entry");
    }
    raftlog_batch_free(batch);
    measure(log, "all", append, 1, false);
    measure(log, "rewrite", append, TURNS, true);
    measure(log, "groups", append_groups, TURNS, true);
    measure(log, "stale", stale, TURNS, true);
    measure(log, "expired", expired, TURNS, false);
    measure(log, "whole", whole, 1, false);
    short_calls(log, "short", 1 << 18);
    need(raftlog_close(log), "close");
}

/* 100 keys, so that nothing stands in a file but the last ones; a purge after each file. A put that begins a file is told
 * by its requests of memory, which are more than twice those of others: their number has to be that of the files. */
static void rotate(bool recycled, uint64_t count) {
    char settings[200];
    snprintf(settings, sizeof settings, "target-file-size = \"64KB\"\npurge-threshold = \"64KB\"\nenable-log-recycle = %s\n",
             recycled ? "true" : "false");
    raftlog *log = open_memory(settings);
    raftlog_batch *batch = raftlog_batch_new();
    double all = 0, begins = 0, purges = 0;
    uint64_t plain = 0, begun = 0, least = 1000, own[2] = {0}, more[2] = {0};
    for (uint64_t i = 0; i < count; i++) {
        uint64_t r = requests, b = requested;
        double t = now();
        put(log, batch, i % 100, i % 100);
        t = now() - t;
        r = requests - r, b = requested - b;
        if (i < 400) { /* in the first file */
            if (i >= 200 && r < least) least = r;
            continue;
        }
        if (r < least + 5) {
            all += t, plain++, own[0] += r, own[1] += b;
            continue;
        }
        begins += t, begun++, more[0] += r, more[1] += b;
        t = now();
        need(expired(log), "purge");
        purges += now() - t;
    }
    printf("rotate %d: %.3f %.3f %.3f %llu\n", recycled, all / plain, begins / begun, purges / begun, (unsigned long long)begun);
    printf("requests %d: %.2f %.1f, %.2f %.1f\n", recycled, (double)own[0] / plain, (double)own[1] / plain,
           (double)more[0] / begun, (double)more[1] / begun);
    raftlog_batch_free(batch);
    need(raftlog_close(log), "close");
}

static void open_folder(const char *folder) {
    char text[300];
    raftlog *log;
    double t = now();
    if (raftlog_open(folder, NULL, &log, text, sizeof text)) fprintf(stderr, "%s\n", text), exit(1);
    t = now() - t;
    printf("folder 0 us, opened %.0f us\n", t);
    need(raftlog_close(log), "close");
}

int main(int argc, char **argv) {
    if (argc == 4 && !strcmp(argv[1], "stay")) stay(strtoull(argv[2], 0, 10), strtoull(argv[3], 0, 10));
    else if (argc == 4 && !strcmp(argv[1], "rotate")) rotate(argv[2][0] == '1', strtoull(argv[3], 0, 10));
    else if (argc == 3 && !strcmp(argv[1], "open")) open_folder(argv[2]);
    else return 2;
    return 0;
}
