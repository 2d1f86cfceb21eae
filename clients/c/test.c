/* Exercises every call on a folder and in memory: `./test FOLDER`. It prints "ok", or what was wrong. */
#include "raftlog.h"

#include <pthread.h>
#include <stdio.h>
#include <stdlib.h>
#include <string.h>
#include <signal.h>
#include <sys/resource.h>
#include <sys/wait.h>
#include <unistd.h>

#define CHECK(what) do { if (!(what)) { printf("%s:%d: %s\n", __FILE__, __LINE__, #what); exit(1); } } while (0)

static raftlog *open_at(const char *folder) {
    char text[200];
    raftlog *log;
    int code = folder ? raftlog_open(folder, NULL, &log, text, sizeof text) : raftlog_open_memory(NULL, &log, text, sizeof text);
    if (code) printf("%d %s\n", code, text);
    CHECK(code == 0 && log);
    return log;
}

/* Values at keys */
static void keys(raftlog *log) {
    raftlog_batch *batch = raftlog_batch_new();
    raftlog_bytes bytes = {0};
    CHECK(batch);
    CHECK(raftlog_batch_is_empty(batch));
    CHECK(raftlog_batch_put(batch, 1, "a", 1, "first", 5) == 0);
    CHECK(raftlog_batch_put(batch, 1, "b", 1, NULL, 0) == 0);
    CHECK(raftlog_batch_put(batch, 1, "c", 1, "third", 5) == 0);
    CHECK(raftlog_batch_delete(batch, 1, "c", 1) == 0);
    CHECK(raftlog_write(log, batch, true) == 0 && raftlog_batch_is_empty(batch));
    CHECK(raftlog_get(log, 1, "a", 1, &bytes) == 0 && bytes.len == 5 && !memcmp(bytes.data, "first", 5));
    CHECK(raftlog_get(log, 1, "b", 1, &bytes) == 0 && bytes.len == 0);
    CHECK(raftlog_get(log, 1, "c", 1, &bytes) == RAFTLOG_ABSENT);
    CHECK(raftlog_get(log, 2, "a", 1, &bytes) == RAFTLOG_ABSENT);
    char *big = malloc(100000);
    memset(big, 7, 100000);
    CHECK(raftlog_batch_put(batch, 3, "big", 3, big, 100000) == 0);
    CHECK(raftlog_write(log, batch, false) == 0);
    CHECK(raftlog_get(log, 3, "big", 3, &bytes) == 0 && bytes.len == 100000 && !memcmp(bytes.data, big, 100000));
    free(big);
    raftlog_bytes_free(&bytes);
    raftlog_batch_free(batch);
}

/* What an opening cuts off: four bytes, but no zeros */
static void cuts(const char *folder) {
    char place[1000];
    snprintf(place, sizeof place, "%s/cut", folder);
    raftlog *log = open_at(place);
    raftlog_cut found[2];
    CHECK(raftlog_cuts(log, found, 2, sizeof *found) == 0 && raftlog_cuts(NULL, NULL, 0, 0) == 0);
    CHECK(raftlog_close(log) == 0);
    snprintf(place, sizeof place, "%s/cut/0000000000000001.raftlog", folder);
    FILE *file = fopen(place, "ab");
    CHECK(file && fseek(file, 0, SEEK_END) == 0);
    long end = ftell(file);
    CHECK(fwrite("torn", 4, 1, file) == 1 && fclose(file) == 0);
    snprintf(place, sizeof place, "%s/cut", folder);
    log = open_at(place);
    CHECK(raftlog_cuts(log, NULL, 0, 0) == 1 && raftlog_cuts(log, found, 2, sizeof *found) == 1);
    CHECK(!strcmp(found[0].path, "0000000000000001.raftlog"));
    CHECK(found[0].offset == (uint64_t)end && found[0].len == 4 && !found[0].stale);
    /* A program that was built with a shorter struct, and one with a longer one. */
    struct { const char *path; uint64_t offset; } less[2] = {{"", 7}, {"", 7}};
    struct { raftlog_cut known; uint64_t more; } longer[2] = {{found[0], 7}, {found[0], 7}};
    CHECK(raftlog_cuts(log, (raftlog_cut *)less, 2, sizeof *less) == 1);
    CHECK(less[0].offset == (uint64_t)end && less[1].offset == 7);
    CHECK(raftlog_cuts(log, (raftlog_cut *)longer, 2, sizeof *longer) == 1);
    CHECK(longer[0].known.len == 4 && longer[0].more == 0 && longer[1].more == 7);
    CHECK(raftlog_close(log) == 0);
}

/* Fills files, drops them, writes in one of them again, and ends without a close */
static void use_again(const char *place) {
    const char *settings = "target-file-size = \"4KB\"\nenable-log-recycle = true\nprefill-for-recycle = false";
    char text[300], value[300] = "";
    raftlog *log;
    raftlog_batch *batch = raftlog_batch_new();
    int code = raftlog_open(place, settings, &log, text, sizeof text);
    for (int i = 0; !code && i < 64; i++) {
        code = raftlog_batch_put(batch, 1, "key", 3, value, 200);
        if (!code) code = raftlog_write(log, batch, true);
        if (!code && i == 40) code = raftlog_must_rewrite_append_queue(log, NULL);
    }
    _exit(code);
}

/* Makes such a log in a folder, by a process of its own */
static void leave_open(const char *place) {
    pid_t child = fork();
    if (!child) use_again(place);
    int status;
    CHECK(waitpid(child, &status, 0) == child && WIFEXITED(status) && WEXITSTATUS(status) == 0);
}

/* The only cut of an opening */
static raftlog_cut one_cut(const char *place, char *path, size_t room) {
    raftlog_cut found[2];
    raftlog *log = open_at(place);
    CHECK(raftlog_cuts(log, found, 2, sizeof *found) == 1);
    snprintf(path, room, "%s/%s", place, found[0].path);
    CHECK(raftlog_close(log) == 0);
    return found[0];
}

/* What an earlier file left is stale; the file's own records, after one that is damaged, are not */
static void stale_cuts(const char *folder) {
    char place[1000], path[2000], again[2000];
    snprintf(place, sizeof place, "%s/stale", folder);
    leave_open(place);
    raftlog_cut cut = one_cut(place, path, sizeof path);
    CHECK(cut.stale && cut.offset > 500 && cut.len > 200);
    raftlog *log = open_at(place);
    CHECK(raftlog_cuts(log, NULL, 0, 0) == 0);
    CHECK(raftlog_close(log) == 0);

    snprintf(place, sizeof place, "%s/damaged", folder);
    leave_open(place);
    snprintf(again, sizeof again, "%s/%s", place, strrchr(path, '/') + 1);
    FILE *file = fopen(again, "r+b");
    CHECK(file && fseek(file, 100, SEEK_SET) == 0 && fputc(0xff, file) == 0xff && fclose(file) == 0);
    cut = one_cut(place, path, sizeof path);
    CHECK(!strcmp(path, again) && cut.offset < 100 && !cut.stale);
}

/* Scans of keys */
static void scans(raftlog *log) {
    raftlog_bytes bytes = {0};
    raftlog_slice key, value, from = {(const uint8_t *)"b", 1};
    size_t at = 0;
    CHECK(raftlog_scan(log, 1, NULL, NULL, false, 0, &bytes) == 0);
    CHECK(raftlog_next_pair(&bytes, &at, &key, &value) && key.len == 1 && *key.data == 'a' && value.len == 5);
    CHECK(raftlog_next_pair(&bytes, &at, &key, &value) && key.len == 1 && *key.data == 'b' && value.len == 0);
    CHECK(!raftlog_next_pair(&bytes, &at, &key, &value));
    CHECK(raftlog_scan(log, 1, &from, NULL, false, 0, &bytes) == 0);
    at = 0;
    CHECK(raftlog_next_pair(&bytes, &at, &key, &value) && *key.data == 'b' && !raftlog_next_pair(&bytes, &at, &key, &value));
    CHECK(raftlog_scan(log, 1, NULL, &from, true, 1, &bytes) == 0);
    at = 0;
    CHECK(raftlog_next_pair(&bytes, &at, &key, &value) && *key.data == 'a' && !raftlog_next_pair(&bytes, &at, &key, &value));
    raftlog_bytes_free(&bytes);
}

/* Entries */
static void entry_calls(raftlog *log) {
    raftlog_batch *batch = raftlog_batch_new();
    raftlog_bytes bytes = {0};
    size_t at;
    char text[200];
    uint64_t index, count;
    CHECK(raftlog_first_index(log, 7, &index) == RAFTLOG_ABSENT);
    raftlog_entry entries[10], entry;
    for (int i = 0; i < 10; i++) entries[i] = (raftlog_entry){5 + i, (const uint8_t *)"entry-bytes" + i % 4, 7};
    CHECK(raftlog_batch_entries(batch, 7, entries, 10) == 0);
    CHECK(raftlog_write(log, batch, true) == 0);
    CHECK(raftlog_first_index(log, 7, &index) == 0 && index == 5);
    CHECK(raftlog_last_index(log, 7, &index) == 0 && index == 14);
    CHECK(raftlog_get_entry(log, 7, 8, &bytes) == 0 && bytes.len == 7 && !memcmp(bytes.data, "ry-byte", 7));
    CHECK(raftlog_get_entry(log, 7, 15, &bytes) == RAFTLOG_ABSENT);
    CHECK(raftlog_fetch_entries(log, 7, 6, 9, 0, &bytes) == 0);
    at = 0;
    for (uint64_t i = 6; i < 9; i++)
        CHECK(raftlog_next_entry(&bytes, &at, &entry) && entry.index == i && entry.len == 7
              && !memcmp(entry.data, entries[i - 5].data, 7));
    CHECK(!raftlog_next_entry(&bytes, &at, &entry));
    CHECK(raftlog_fetch_entries(log, 7, 5, 15, 31, &bytes) == 0);
    at = 0;
    CHECK(raftlog_next_entry(&bytes, &at, &entry) && raftlog_next_entry(&bytes, &at, &entry) && !raftlog_next_entry(&bytes, &at, &entry));
    CHECK(raftlog_fetch_entries(log, 7, 4, 9, 0, &bytes) == RAFTLOG_COMPACTED);
    CHECK(raftlog_message(log, text, sizeof text) == 15 && !strcmp(text, "entry compacted"));
    CHECK(raftlog_message(log, text, 6) == 15 && !strcmp(text, "entry"));
    CHECK(raftlog_fetch_entries(log, 7, 5, 16, 0, &bytes) == RAFTLOG_NO_ENTRY);
    CHECK(raftlog_fetch_entries(log, 99, 5, 16, 0, &bytes) == 0 && bytes.len == 0);
    CHECK(raftlog_compact_to(log, 7, 8, &count) == 0 && count == 3);
    CHECK(raftlog_first_index(log, 7, &index) == 0 && index == 8);
    CHECK(raftlog_batch_compact(batch, 7, 10) == 0 && raftlog_write(log, batch, false) == 0);
    CHECK(raftlog_first_index(log, 7, &index) == 0 && index == 10);
    raftlog_bytes_free(&bytes);
    raftlog_batch_free(batch);
}

/* Batches that are refused change nothing */
static void refusals(raftlog *log) {
    raftlog_batch *batch = raftlog_batch_new();
    raftlog_bytes bytes = {0};
    char text[200];
    raftlog_entry entry = {100, (const uint8_t *)"entry", 5};
    CHECK(raftlog_batch_entries(batch, 7, &entry, 1) == 0 && raftlog_batch_put(batch, 1, "d", 1, "x", 1) == 0);
    CHECK(raftlog_write(log, batch, true) == RAFTLOG_GAP && !raftlog_batch_is_empty(batch));
    raftlog_batch_clear(batch);
    CHECK(raftlog_get(log, 1, "d", 1, &bytes) == RAFTLOG_ABSENT);
    CHECK(raftlog_batch_put(batch, 1, "__x", 3, "x", 1) == 0 && raftlog_write(log, batch, true) == RAFTLOG_INVALID);
    raftlog_batch_clear(batch);
    CHECK(raftlog_write_bytes(log, "\1\0\0", 3, false) == RAFTLOG_INVALID);
    CHECK(raftlog_write_bytes(log, "\0\0\0\0\0\0\0\1", 8, false) == RAFTLOG_INVALID);
    CHECK(raftlog_write_bytes(log, "\0\0\0\0\0\0\0\0x", 9, false) == RAFTLOG_INVALID);
    CHECK(raftlog_write_bytes(log, NULL, 0, true) == RAFTLOG_INVALID);
    CHECK(raftlog_message(log, text, sizeof text) > 0 && strstr(text, "no batch"));
    CHECK(raftlog_write(log, batch, true) == 0);
    CHECK(raftlog_write_bytes(log, "\0\0\0\0\0\0\0\0", 8, true) == 0);
    raftlog_bytes_free(&bytes);
    raftlog_batch_free(batch);
}

/* Groups */
static void groups(raftlog *log) {
    raftlog_batch *batch = raftlog_batch_new();
    raftlog_bytes bytes = {0};
    size_t at;
    uint64_t group, sum = 0;
    CHECK(raftlog_batch_clean(batch, 3) == 0 && raftlog_write(log, batch, true) == 0);
    CHECK(raftlog_groups(log, &bytes) == 0);
    for (at = 0; raftlog_next_group(&bytes, &at, &group);) sum = sum * 10 + group;
    CHECK(sum == 17);
    CHECK(raftlog_sync(log) == 0);
    raftlog_bytes_free(&bytes);
    raftlog_batch_free(batch);
}

/* Bad arguments: an error, and nothing is lost */
static void bad_arguments(raftlog *log) {
    raftlog_batch *batch = raftlog_batch_new();
    raftlog_bytes bytes = {0};
    uint64_t index, count;
    CHECK(raftlog_batch_put(batch, 1, NULL, 1, "x", 1) == RAFTLOG_INVALID);
    CHECK(raftlog_batch_put(batch, 1, "k", 1, NULL, 1) == RAFTLOG_INVALID);
    CHECK(raftlog_batch_entries(batch, 1, NULL, 1) == RAFTLOG_INVALID);
    CHECK(raftlog_batch_entries(batch, 1, NULL, 0) == 0 && raftlog_batch_is_empty(batch));
    CHECK(raftlog_batch_put(batch, 8, NULL, 0, NULL, 0) == 0 && raftlog_write(log, batch, false) == 0);
    CHECK(raftlog_get(log, 8, NULL, 0, &bytes) == 0 && bytes.len == 0);
    char *long_key = calloc(1, 1 << 20);
    CHECK(raftlog_batch_put(batch, 8, long_key, 1 << 20, "v", 1) == 0 && raftlog_write(log, batch, false) == 0);
    CHECK(raftlog_get(log, 8, long_key, 1 << 20, &bytes) == 0 && bytes.len == 1);
    free(long_key);
    CHECK(raftlog_get(log, 1, "a", 1, &bytes) == 0 && bytes.len == 5);
    CHECK(raftlog_must_purge_all_stale(log, &count) == 0);
    CHECK(raftlog_must_rewrite_append_queue(log, &count) == 0);
    CHECK(raftlog_must_rewrite_rewrite_queue(log, &count) == 0);
    CHECK(raftlog_last_index(log, 7, &index) == 0 && index == 14);
    raftlog_bytes_free(&bytes);
    raftlog_batch_free(batch);
}

static int put_once(raftlog *log, const char *value, const uint64_t *of, const uint64_t *numbers, size_t count) {
    raftlog_batch *batch = raftlog_batch_new();
    CHECK(raftlog_batch_put(batch, 40, "k", 1, value, 1) == 0);
    int code = raftlog_write_once(log, batch, of, numbers, count, true);
    CHECK(raftlog_batch_is_empty(batch) == (code == 0));
    raftlog_batch_free(batch);
    return code;
}

static bool has_once(raftlog *log, char value) {
    raftlog_bytes bytes = {0};
    bool has = !raftlog_get(log, 40, "k", 1, &bytes) && bytes.len == 1 && *bytes.data == (uint8_t)value;
    raftlog_bytes_free(&bytes);
    return has;
}

/* Writes that act once */
static void once(raftlog *log) {
    raftlog_batch *batch = raftlog_batch_new();
    raftlog_bytes bytes = {0};
    uint64_t of[] = {40, 41}, old[] = {5, 0}, mixed[] = {6, 0}, both[] = {6, 1}, twice[] = {40, 40};
    CHECK(put_once(log, "a", of, old, 1) == 0 && put_once(log, "b", of, old, 1) == 0 && has_once(log, 'a'));
    CHECK(put_once(log, "c", of, mixed, 2) == RAFTLOG_STALE_NUMBER);
    CHECK(put_once(log, "c", twice, both, 2) == RAFTLOG_INVALID && put_once(log, "c", of, both, 0) == RAFTLOG_INVALID);
    CHECK(has_once(log, 'a') && put_once(log, "c", of, both, 2) == 0 && has_once(log, 'c'));
    CHECK(put_once(log, "d", of, both, 2) == 0 && has_once(log, 'c'));
    CHECK(raftlog_batch_put(batch, 40, "\xffonce", 5, "v", 1) == 0 && raftlog_write(log, batch, true) == RAFTLOG_INVALID);
    CHECK(raftlog_get(log, 40, "\xffonce", 5, &bytes) == RAFTLOG_ABSENT);
    CHECK(raftlog_scan(log, 40, NULL, NULL, false, 0, &bytes) == 0 && bytes.len == 8 + 1 + 8 + 1);
    raftlog_bytes_free(&bytes);
    raftlog_batch_free(batch);
}

struct aside {
    raftlog *log;
    uint32_t from;
};

/* Puts 500 values of 1000 bytes into twenty groups */
static void *put_aside(void *of) {
    struct aside *aside = of;
    raftlog_batch *batch = raftlog_batch_new();
    char value[1000] = {0};
    for (uint32_t i = aside->from; i < aside->from + 500; i++)
        CHECK(raftlog_batch_put(batch, 50 + i % 20, &i, sizeof i, value, sizeof value) == 0 && raftlog_write(aside->log, batch, false) == 0);
    raftlog_batch_free(batch);
    return NULL;
}

static void calls(raftlog *log) {
    keys(log);
    scans(log);
    entry_calls(log);
    refusals(log);
    groups(log);
    bad_arguments(log);
    once(log);
}

static uint64_t files_in(const char *folder) {
    char command[400];
    unsigned long count = 0;
    snprintf(command, sizeof command, "find '%s' -name '0*.r*' | wc -l", folder);
    FILE *found = popen(command, "r");
    CHECK(found && fscanf(found, "%lu", &count) == 1 && !pclose(found));
    return count;
}

/* What a log counts, for programs that know fewer numbers and for those that know more */
static void counts(const char *folder) {
    struct { raftlog_counts known; uint64_t later[2]; } longer;
    uint64_t shorter[9], classes = 0, longest = 0;
    char place[400], text[300];
    raftlog *log;
    snprintf(place, sizeof place, "%s/counts", folder);
    CHECK(!raftlog_open(place, "target-file-size = \"64KB\"", &log, text, sizeof text));
    memset(&longer, 7, sizeof longer);
    CHECK(!raftlog_stats(log, &longer.known, sizeof longer) && longer.known.syncs == 0 && longer.known.next_files == 0);
    CHECK(longer.later[0] == 0 && longer.later[1] == 0 && longer.known.files == files_in(place));
    struct aside first = {log, 0};
    put_aside(&first);
    CHECK(!raftlog_sync(log) && !raftlog_must_rewrite_append_queue(log, NULL));
    CHECK(!raftlog_stats(log, &longer.known, sizeof longer));
    raftlog_counts *known = &longer.known;
    for (int i = 0; i < RAFTLOG_TIMES; i++) classes += known->sync_times[i];
    CHECK(classes == known->syncs && known->longest_sync_ns <= known->sync_ns && known->sync_ns && known->longest_sync_ns);
    CHECK(known->batches == 500 && known->bytes > 1000000 && known->writes >= 500 && known->next_files > 8);
    CHECK(known->purges == 1 && known->longest_purge_ns == known->purge_ns && known->purge_ns);
    CHECK(known->files == files_in(place) && known->recycled_files <= known->next_files);
    memset(shorter, 7, sizeof shorter);
    memset(&longest, 7, sizeof longest);
    CHECK(!raftlog_stats(log, (raftlog_counts *)shorter, 8 * sizeof *shorter) && shorter[7] == 500 && shorter[8] == longest);
    CHECK(raftlog_stats(log, known, 0) == RAFTLOG_INVALID && raftlog_stats(NULL, known, sizeof *known) == RAFTLOG_INVALID);
    for (uint32_t i = 0; i < 2; i++) put_aside(&first);
    CHECK(!raftlog_purge_expired_files(log, NULL) && !raftlog_must_rewrite_append_queue(log, NULL));
    CHECK(!raftlog_stats(log, known, sizeof *known) && known->purges == 3 && known->files == files_in(place));
    CHECK(known->recycled_files + known->deleted_files > 0 && !raftlog_close(log));
}

/* The memory of the index, and reads of a block that is kept from the first one on */
static void inner_counts(const char *folder) {
    enum { ENTRIES = 1000 };
    raftlog_entry entries[ENTRIES];
    raftlog_counts before, after;
    raftlog_bytes bytes = {0};
    raftlog_batch *batch = raftlog_batch_new();
    char place[400];
    snprintf(place, sizeof place, "%s/inner", folder);
    raftlog *log = open_at(place);
    for (uint64_t i = 0; i < ENTRIES; i++) entries[i] = (raftlog_entry){i + 1, (const uint8_t *)"some bytes", 10};
    CHECK(!raftlog_stats(log, &before, sizeof before));
    CHECK(!raftlog_batch_entries(batch, 1, entries, ENTRIES) && !raftlog_write(log, batch, true));
    CHECK(!raftlog_stats(log, &after, sizeof after) && after.index_bytes >= before.index_bytes + 40 * ENTRIES);
    CHECK(after.block_hits == 0 && after.block_misses == 0);
    for (uint64_t i = 1; i <= 10; i++) CHECK(!raftlog_get_entry(log, 1, i, &bytes) && bytes.len == 10);
    CHECK(!raftlog_stats(log, &after, sizeof after) && after.block_hits == 9 && after.block_misses == 1);
    CHECK(!raftlog_close(log));
    raftlog_bytes_free(&bytes);
    raftlog_batch_free(batch);
}

static void *put_many(void *of) {
    raftlog *log = of;
    raftlog_batch *batch = raftlog_batch_new();
    raftlog_bytes bytes = {0};
    for (uint32_t i = 0; i < 2000; i++) {
        uint64_t key = (uint64_t)(uintptr_t)&bytes << 16 ^ i;
        CHECK(raftlog_batch_put(batch, 20, &key, 8, &i, 4) == 0 && raftlog_write(log, batch, false) == 0);
        CHECK(raftlog_get(log, 20, &key, 8, &bytes) == 0 && bytes.len == 4 && !memcmp(bytes.data, &i, 4));
    }
    raftlog_bytes_free(&bytes);
    raftlog_batch_free(batch);
    return NULL;
}

static void threads(raftlog *log) {
    pthread_t many[4];
    raftlog_bytes bytes = {0};
    for (int i = 0; i < 4; i++) CHECK(!pthread_create(&many[i], NULL, put_many, log));
    for (int i = 0; i < 4; i++) pthread_join(many[i], NULL);
    size_t at = 0, count = 0;
    raftlog_slice key, value;
    CHECK(raftlog_scan(log, 20, NULL, NULL, false, 0, &bytes) == 0);
    while (raftlog_next_pair(&bytes, &at, &key, &value)) count++;
    CHECK(count == 8000);
    raftlog_bytes_free(&bytes);
}

/* An order that fails breaks the log, and the next opening finds what was answered before. */
static void broken(const char *folder) {
    raftlog *log = open_at(folder);
    raftlog_batch *batch = raftlog_batch_new();
    raftlog_bytes bytes = {0};
    char text[200], big[50000] = {0};
    CHECK(raftlog_batch_put(batch, 30, "k", 1, "v", 1) == 0 && raftlog_write(log, batch, true) == 0);
    struct rlimit was, less = {1 << 20, RLIM_INFINITY};
    CHECK(!getrlimit(RLIMIT_FSIZE, &was));
    less.rlim_max = was.rlim_max;
    signal(SIGXFSZ, SIG_IGN);
    CHECK(!setrlimit(RLIMIT_FSIZE, &less));
    int code = 0;
    for (int i = 0; !code && i < 100; i++) {
        CHECK(raftlog_batch_put(batch, 30, &i, sizeof i, big, sizeof big) == 0);
        code = raftlog_write(log, batch, i % 2);
    }
    CHECK(code == RAFTLOG_IO && raftlog_message(log, text, sizeof text) > 0 && strstr(text, "large"));
    CHECK(raftlog_write(log, batch, true) == RAFTLOG_FAILED && raftlog_sync(log) == RAFTLOG_FAILED);
    CHECK(raftlog_get(log, 30, "k", 1, &bytes) == RAFTLOG_FAILED);
    CHECK(!setrlimit(RLIMIT_FSIZE, &was));
    CHECK(raftlog_sync(log) == RAFTLOG_FAILED && raftlog_close(log) == RAFTLOG_FAILED);
    log = open_at(folder);
    CHECK(raftlog_get(log, 30, "k", 1, &bytes) == 0 && bytes.len == 1 && *bytes.data == 'v');
    CHECK(raftlog_close(log) == 0);
    raftlog_bytes_free(&bytes);
    raftlog_batch_free(batch);
}

int main(int argc, char **argv) {
    CHECK(argc == 2);
    char text[300], path[300];
    raftlog *log = open_at(NULL), *other;
    calls(log);
    threads(log);
    CHECK(raftlog_close(log) == 0);
    log = open_at(argv[1]);
    CHECK(raftlog_open(argv[1], NULL, &other, text, sizeof text) == RAFTLOG_IN_USE && !other && strstr(text, argv[1]));
    calls(log);
    threads(log);
    CHECK(raftlog_close(log) == 0);
    log = open_at(argv[1]);
    raftlog_bytes bytes = {0};
    uint64_t index;
    CHECK(raftlog_get(log, 1, "a", 1, &bytes) == 0 && bytes.len == 5 && !memcmp(bytes.data, "first", 5));
    CHECK(raftlog_last_index(log, 7, &index) == 0 && index == 14);
    uint64_t of = 40, number = 6;
    CHECK(put_once(log, "e", &of, &number, 1) == 0 && has_once(log, 'c'));
    CHECK(raftlog_close(log) == 0);
    raftlog_bytes_free(&bytes);
    broken(argv[1]);
    snprintf(path, sizeof path, "%s/0000000000000099.raftlog", argv[1]);
    CHECK(symlink("/etc/passwd", path) == 0);
    CHECK(raftlog_open(argv[1], NULL, &log, text, sizeof text) == RAFTLOG_NOT_PLAIN && strstr(text, "99.raftlog"));
    unlink(path);
    const char *wrong[] = {"recovery-mode = \"hopeful\"", "target-file-size = \"3 stones\"", "target-file-size = 3 MB"};
    for (int i = 0; i < 3; i++) CHECK(raftlog_open(argv[1], wrong[i], &log, text, sizeof text) == RAFTLOG_INVALID && *text);
    CHECK(raftlog_open("/proc/none/x", NULL, &log, text, sizeof text) == RAFTLOG_FOLDER);
    CHECK(raftlog_open(NULL, NULL, &log, NULL, 0) == RAFTLOG_INVALID && raftlog_close(NULL) == 0);
    cuts(argv[1]);
    stale_cuts(argv[1]);
    counts(argv[1]);
    inner_counts(argv[1]);
    puts("ok");
    return 0;
}
