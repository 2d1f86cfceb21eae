/* Each file call of the library fails in turn: `failing FOLDER`. The call that meets it answers
 * so, each later one that the log failed, and the next opening finds all that was answered before.
 * Then a signal interrupts each in turn, and no call fails.
 */
#include "faults.h"
#include "raftlog.h"

#include <errno.h>
#include <stdio.h>
#include <stdlib.h>
#include <string.h>

#define CHECK(what)                                                                  \
    do {                                                                             \
        if (!(what)) {                                                               \
            printf("%s:%d: %s, at file call %d\n", __FILE__, __LINE__, #what, turn); \
            exit(1);                                                                 \
        }                                                                            \
    } while (0)

static int turn;

/* Calls on a log until one fails: how many writes were answered. */
static uint64_t calls(raftlog *log, int *code) {
    raftlog_batch *batch = raftlog_batch_new();
    char value[300] = {0};
    uint64_t i = 0, watermark = UINT64_MAX, group = 0;
    for (*code = 0; !*code && i < 40; i++) {
        raftlog_entry entry = {i + 1, (const uint8_t *)&i, sizeof i};
        CHECK(!raftlog_batch_entries(batch, 1, &entry, 1)
              && !raftlog_batch_put(batch, 2, "last", 4, &i, sizeof i));
        CHECK(!raftlog_batch_put(batch, 3, &i, sizeof i, value, sizeof value));
        if ((*code = raftlog_write(log, batch, i % 3 == 0))) break;
        if (i == 20) *code = raftlog_compact_to(log, 1, 10, NULL);
        if (i == 23) *code = raftlog_must_rewrite_append_groups(log, &watermark, &group, 0);
        if (i == 25) *code = raftlog_must_rewrite_append_queue(log, NULL);
        if (i == 30) *code = raftlog_must_purge_all_stale(log, NULL);
        if (i == 33) group = 0, *code = raftlog_must_rewrite_rewrite_groups(log, &group, 0);
        if (i == 35) *code = raftlog_must_rewrite_rewrite_queue(log, NULL);
    }
    raftlog_batch_free(batch);
    return i;
}

static void finds(const char *folder, uint64_t answered) {
    char text[200];
    raftlog *log;
    raftlog_bytes bytes = {0};
    uint64_t first = 1, last = 0, i;
    int code = raftlog_open(folder, "target-file-size = \"4KB\"", &log, text, sizeof text);
    if (code) printf("%d %s\n", code, text);
    CHECK(code == 0 && raftlog_missing(log, NULL, 0, 0) == 0);
    if (!raftlog_last_index(log, 1, &last))
        CHECK(!raftlog_first_index(log, 1, &first) && (first == 1 || first == 10));
    CHECK(last == answered || last == answered + 1);
    for (i = first; i <= last; i++)
        CHECK(!raftlog_get_entry(log, 1, i, &bytes) && bytes.len == 8
              && *(uint64_t *)bytes.data == i - 1);
    for (i = 0; i < last; i++)
        CHECK(!raftlog_get(log, 3, &i, sizeof i, &bytes) && bytes.len == 300);
    if (last)
        CHECK(!raftlog_get(log, 2, "last", 4, &bytes) && *(uint64_t *)bytes.data == last - 1);
    CHECK(raftlog_close(log) == 0);
    raftlog_bytes_free(&bytes);
}

/* Whether the file call of this turn was reached. */
static int fail_at(const char *folder) {
    char text[200], command[400];
    raftlog *log;
    uint64_t answered = 0;
    atomic_store(&faults_left, turn);
    int code = raftlog_open(folder, "target-file-size = \"4KB\"", &log, text, sizeof text),
        closed = 0;
    if (code) CHECK((code == RAFTLOG_FOLDER || code == RAFTLOG_IO) && *text && !faults_of_note);
    else {
        answered = calls(log, &code);
        if (code) {
            CHECK(code == RAFTLOG_IO && raftlog_message(log, text, sizeof text) > 0);
            CHECK(strstr(text, "the log has failed: close it")
                  && strstr(text, strerror(faults_error)));
            CHECK(raftlog_sync(log) == RAFTLOG_FAILED);
        }
        closed = raftlog_close(log);
        CHECK(code ? closed == RAFTLOG_FAILED : closed == 0 || closed == RAFTLOG_IO);
    }
    int reached = atomic_load(&faults_left) == 0;
    if (faults_error == EINTR) CHECK(!code && !closed);
    else CHECK(faults_of_note ? reached : reached == (code || closed));
    faults_of_note = false;
    atomic_store(&faults_left, 0);
    finds(folder, answered);
    snprintf(command, sizeof command, "rm -rf '%s'", folder);
    CHECK(system(command) == 0);
    return reached;
}

int main(int argc, char **argv) {
    if (argc != 2) return 1;
    int errors[] = {EIO, ENOSPC, EINTR};
    for (int e = 0; e < 3; e++) {
        faults_error = errors[e];
        for (turn = 1; fail_at(argv[1]);) turn++;
    }
    printf("ok, %d file calls failed in turn\n", turn - 1);
    return 0;
}
