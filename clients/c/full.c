/* A disk that is full: `full FOLDER FILLER THREADS`, where FILLER is a file on the same small disk
 * that is removed once the disk is full. The round that meets it fails, and the log with it; the
 * next opening finds all that was answered before. */
#include "raftlog.h"

#include <pthread.h>
#include <stdio.h>
#include <stdlib.h>
#include <string.h>
#include <unistd.h>

#define CHECK(what)                                           \
    do {                                                      \
        if (!(what)) {                                        \
            printf("%s:%d: %s\n", __FILE__, __LINE__, #what); \
            exit(1);                                          \
        }                                                     \
    } while (0)

enum { SIZE = 3000, EACH = 100000, MOST = 64 };
static const char *SETTINGS = "target-file-size = \"64KB\"";

/* A thread with a group of its own, and how many of its puts were answered. */
struct writer {
    raftlog *log;
    uint64_t group, answered;
    int code;
    pthread_t id;
};

static void *fill(void *with) {
    struct writer *w = with;
    char text[400], value[SIZE];
    raftlog_batch *batch = raftlog_batch_new();
    for (; !w->code && w->answered < EACH; w->answered += !w->code) {
        memset(value, (int)w->answered, SIZE);
        CHECK(!raftlog_batch_put(batch, w->group, &w->answered, sizeof w->answered, value, SIZE));
        w->code = raftlog_write(w->log, batch, w->answered % 4 == 0);
    }
    CHECK((w->code == RAFTLOG_IO || w->code == RAFTLOG_FAILED) && !raftlog_batch_is_empty(batch));
    CHECK(raftlog_message(w->log, text, sizeof text) > 0 && strstr(text, "No space")
          && strstr(text, ".raftlog: "));
    CHECK(raftlog_write(w->log, batch, true) == RAFTLOG_FAILED);
    raftlog_batch_free(batch);
    return NULL;
}

static void finds(raftlog *log, const struct writer *w) {
    char value[SIZE];
    raftlog_bytes bytes = {0};
    for (uint64_t i = 0; i < w->answered; i++) {
        memset(value, (int)i, SIZE);
        CHECK(!raftlog_get(log, w->group, &i, sizeof i, &bytes) && bytes.len == SIZE
              && !memcmp(bytes.data, value, SIZE));
    }
    raftlog_bytes_free(&bytes);
}

int main(int argc, char **argv) {
    char text[400];
    static struct writer writers[MOST];
    raftlog *log;
    raftlog_bytes bytes = {0};
    uint64_t threads = argc == 4 ? strtoull(argv[3], NULL, 10) : 0, answered = 0, told = 0;
    CHECK(threads > 0 && threads <= MOST);
    CHECK(!raftlog_open(argv[1], SETTINGS, &log, text, sizeof text));
    for (uint64_t t = 0; t < threads; t++) {
        writers[t] = (struct writer){.log = log, .group = 1 + t};
        CHECK(!pthread_create(&writers[t].id, NULL, fill, &writers[t]));
    }
    for (uint64_t t = 0; t < threads; t++) {
        CHECK(!pthread_join(writers[t].id, NULL));
        answered += writers[t].answered;
        told += writers[t].code == RAFTLOG_IO;
    }
    CHECK(told > 0 && answered > 10 && raftlog_get(log, 1, "k", 1, &bytes) == RAFTLOG_FAILED);
    CHECK(raftlog_close(log) == RAFTLOG_FAILED);
    CHECK(!unlink(argv[2]));
    int code = raftlog_open(argv[1], SETTINGS, &log, text, sizeof text);
    if (code) printf("%d %s\n", code, text);
    CHECK(!code);
    for (uint64_t t = 0; t < threads; t++) finds(log, &writers[t]);
    CHECK(!raftlog_close(log));
    raftlog_bytes_free(&bytes);
    printf("ok, %llu writes by %llu threads before the disk was full\n",
           (unsigned long long)answered, (unsigned long long)threads);
    return 0;
}
