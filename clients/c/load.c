/* `raftctl`'s commands of the tests of crashes, through the C client:
 * `tools/disk-tests/crash_tests.py clients/c/build/load --threads 8`. It loads and verifies keys
 * that are numbered from 0, and prints the last key that each sync covers; it purges and rewrites.
 * With `--threads` each of so many threads has keys of its own, in a group of its own. */
#include "raftlog.h"

#include <pthread.h>
#include <stdio.h>
#include <stdlib.h>
#include <string.h>
#include <unistd.h>

/* Threads. */
enum { MOST = 64 };

static int failed(int code, const char *text) {
    if (code == RAFTLOG_IN_USE) text = "it is open already";
    else if (code == RAFTLOG_NOT_PLAIN) text = raftlog_code_text(code);
    return fprintf(stderr, "raftctl: %s\n", text), 1;
}

/* The number and a space, again and again, cut to the size. */
static size_t value_of(uint64_t number, size_t size, char *value) {
    char text[30];
    size_t len = (size_t)snprintf(text, sizeof text, "%llu ", (unsigned long long)number);
    for (size_t i = 0; i < size; i++) value[i] = text[i % len];
    return size;
}

static int put(raftlog *log, uint64_t group, const char *key, const char *value, size_t len,
               bool sync) {
    raftlog_batch *batch = raftlog_batch_new();
    if (!batch) return RAFTLOG_NO_MEMORY;
    int code = raftlog_batch_put(batch, group, key, strlen(key), value, len);
    if (!code) code = raftlog_write(log, batch, sync);
    raftlog_batch_free(batch);
    return code;
}

struct words {
    /* The command and what follows it, without the options. */
    const char *plain[5];
    int count;
    uint64_t sync_each, purge_each, threads;
    char *settings;
};

static char *text_of(const char *path) {
    FILE *file = fopen(path, "r");
    if (!file) return NULL;
    char *text = calloc(1, 1 << 16);
    if (text && !fread(text, 1, (1 << 16) - 1, file) && ferror(file)) free(text), text = NULL;
    fclose(file);
    return text;
}

static bool parse(int argc, char **argv, struct words *words) {
    for (int i = 2; i < argc; i++) {
        bool has_value = i + 1 < argc;
        if (has_value && !strcmp(argv[i], "--sync-each"))
            words->sync_each = strtoull(argv[++i], NULL, 10);
        else if (has_value && !strcmp(argv[i], "--purge-each"))
            words->purge_each = strtoull(argv[++i], NULL, 10);
        else if (has_value && !strcmp(argv[i], "--threads"))
            words->threads = strtoull(argv[++i], NULL, 10);
        else if (has_value && !strcmp(argv[i], "--settings")) {
            if (!(words->settings = text_of(argv[++i]))) return false;
        } else if (!strcmp(argv[i], "--cut")) {
            continue; // a word of raftctl's, which the crash tests give to both programs
        } else if (words->count < 4) words->plain[words->count++] = argv[i];
        else return false;
    }
    return words->count > 0 && words->threads > 0 && words->threads <= MOST;
}

static uint64_t number_at(const struct words *words, int place) {
    return words->plain[place] ? strtoull(words->plain[place], NULL, 10) : 0;
}

struct thread {
    raftlog *log;
    const struct words *words;
    uint64_t number;
    int code;
    pthread_t id;
};

/* By a call of its own, which the tests record among the calls on files. */
static void tell_synced(uint64_t key, const struct thread *thread) {
    char text[60];
    int len = snprintf(text, sizeof text, "synced %llu by %llu\n", (unsigned long long)key,
                       (unsigned long long)thread->number);
    if (write(STDOUT_FILENO, text, (size_t)len) != len) exit(1);
}

/* The first thread purges for all. */
static void *load_keys(void *with) {
    struct thread *thread = with;
    const struct words *words = thread->words;
    uint64_t count = number_at(words, 1), size = number_at(words, 2), each = words->sync_each;
    uint64_t purge_each = thread->number ? 0 : words->purge_each;
    char key[30], *value = malloc(size + 1);
    int code = value ? 0 : RAFTLOG_NO_MEMORY;
    for (uint64_t i = 0; !code && i < count; i++) {
        bool sync = each && ((i + 1) % each == 0 || i + 1 == count);
        snprintf(key, sizeof key, "%llu", (unsigned long long)i);
        code = put(thread->log, 1 + thread->number, key, value, value_of(i, size, value), sync);
        if (!code && sync) tell_synced(i, thread);
        if (!code && purge_each && (i + 1) % purge_each == 0)
            code = raftlog_purge_expired_files(thread->log, NULL);
    }
    free(value);
    thread->code = code;
    return NULL;
}

static int load(raftlog *log, const struct words *words) {
    struct thread threads[MOST];
    int code = 0;
    for (uint64_t t = 0; t < words->threads; t++) {
        threads[t] = (struct thread){.log = log, .words = words, .number = t};
        if (t && pthread_create(&threads[t].id, NULL, load_keys, &threads[t])) exit(1);
    }
    load_keys(&threads[0]);
    for (uint64_t t = 0; t < words->threads; t++) {
        if (t) pthread_join(threads[t].id, NULL);
        if (!code || threads[t].code == RAFTLOG_IO) code = threads[t].code;
    }
    return code;
}

static int verify_group(raftlog *log, const struct words *words, uint64_t group) {
    uint64_t count = number_at(words, 1), size = number_at(words, 2);
    char key[30], *value = malloc(size + 1);
    raftlog_bytes found = {0};
    uint64_t standing = 0, other = 0;
    int code = value ? 0 : RAFTLOG_NO_MEMORY;
    for (uint64_t i = 0; (!code || code == RAFTLOG_ABSENT) && i < count; i++) {
        snprintf(key, sizeof key, "%llu", (unsigned long long)i);
        if ((code = raftlog_get(log, group, key, strlen(key), &found))) continue;
        bool right = found.len == value_of(i, size, value) && !memcmp(found.data, value, size);
        if (right && standing == i) standing++;
        else other++;
    }
    free(value);
    raftlog_bytes_free(&found);
    printf("present %llu\ndifferent %llu\n", (unsigned long long)standing, (unsigned long long)other);
    return code == RAFTLOG_ABSENT ? 0 : code ? code : other ? RAFTLOG_CORRUPTION : 0;
}

static int verify(raftlog *log, const struct words *words) {
    int code = 0;
    for (uint64_t t = 0; !code && t < words->threads; t++) code = verify_group(log, words, 1 + t);
    return code;
}

static int rewrite(raftlog *log, const char *what) {
    if (!what) return RAFTLOG_INVALID;
    if (!strcmp(what, "append")) return raftlog_must_rewrite_append_queue(log, NULL);
    if (!strcmp(what, "rewrite")) return raftlog_must_rewrite_rewrite_queue(log, NULL);
    return strcmp(what, "stale") ? RAFTLOG_INVALID : raftlog_must_purge_all_stale(log, NULL);
}

static int carry_out(raftlog *log, const struct words *words) {
    const char *command = words->plain[0], *value = words->plain[3];
    if (!strcmp(command, "load")) return load(log, words);
    if (!strcmp(command, "verify")) return verify(log, words);
    if (!strcmp(command, "purge")) return raftlog_purge_expired_files(log, NULL);
    if (!strcmp(command, "rewrite")) return rewrite(log, words->plain[1]);
    if (strcmp(command, "put") || !value) return RAFTLOG_INVALID;
    return put(log, number_at(words, 1), words->plain[2], value, strlen(value), true);
}

int main(int argc, char **argv) {
    char text[400];
    raftlog *log;
    struct words words = {.threads = 1};
    if (argc < 3 || !parse(argc, argv, &words)) return 2;
    int code = raftlog_open(argv[1], words.settings, &log, text, sizeof text);
    free(words.settings);
    if (code) return failed(code, text);
    code = carry_out(log, &words);
    if (code) raftlog_message(log, text, sizeof text);
    int closed = raftlog_close(log);
    return code ? failed(code, text) : closed ? failed(closed, raftlog_code_text(closed)) : 0;
}
