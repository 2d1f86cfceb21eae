/* Memory runs out under an open log: `memory FOLDER`. The call that meets it and each later one return it, and the next opening
 * finds every key whose write succeeded before. Each log is opened in a process of its own, since the addresses that a log
 * reserves would count against the next limit. */
#include "keys.h"

#include <sys/resource.h>
#include <sys/wait.h>
#include <unistd.h>

enum { MB = 1 << 20, LIMITS = 3, MOST = 200000 };

static const char *folder;

static bool has_text(raftlog *log) { return raftlog_message(log, NULL, 0) > 0; }

/* The first byte is 0, since the bytes of some numbers would begin with two underscores. */
static uint64_t key_of(int number) { return (uint64_t)number << 8; }

/* Every fourth write has a sync. It returns RAFTLOG_NO_MEMORY too if the batch finds no memory. */
static int put(raftlog *log, int number) {
    char value[VALUE];
    raftlog_batch *batch = raftlog_batch_new();
    if (!batch) return RAFTLOG_NO_MEMORY;
    uint64_t key = key_of(number);
    fill(value, number);
    int code = raftlog_batch_put(batch, 1, &key, sizeof key, value, VALUE);
    bool is_written = code == 0;
    if (is_written) code = raftlog_write(log, batch, number % 4 == 3);
    CHECK(!is_written || !code || has_text(log));
    raftlog_batch_free(batch);
    return code;
}

/* Writes until memory runs out, and sends how many writes were done before. */
static void write_until_full(int megabytes, int to) {
    struct rlimit limit = {(rlim_t)megabytes * MB, (rlim_t)megabytes * MB};
    raftlog_bytes bytes = {0};
    raftlog *log;
    char text[TEXT_ROOM];
    int done = 0, code;
    uint64_t key = key_of(0);
    CHECK(!setrlimit(RLIMIT_AS, &limit));
    CHECK(raftlog_open(folder, NULL, &log, text, sizeof text) == 0);
    while (!(code = put(log, done)) && done < MOST) done++;
    CHECK(write(to, &done, sizeof done) == sizeof done);
    CHECK(code == RAFTLOG_NO_MEMORY || code == RAFTLOG_IO);
    /* The log has failed or not: each call says which. */
    code = raftlog_get(log, 1, &key, sizeof key, &bytes);
    CHECK(!code || code == RAFTLOG_NO_MEMORY || code == RAFTLOG_FAILED);
    CHECK(!code || has_text(log));
    bool has_failed = code == RAFTLOG_FAILED;
    code = raftlog_sync(log);
    CHECK(has_failed ? code == RAFTLOG_FAILED : !code || code == RAFTLOG_NO_MEMORY || code == RAFTLOG_FAILED || code == RAFTLOG_IO);
    CHECK(!code || has_text(log));
    code = raftlog_close(log);
    CHECK(!code || code == RAFTLOG_FAILED || code == RAFTLOG_IO);
    printf("%d MB: %d writes, then memory ran out, and the log has %s\n", megabytes, done, has_failed ? "failed" : "not failed");
    fflush(stdout);
}

static void has_all(int done) {
    raftlog_bytes bytes = {0};
    char value[VALUE];
    raftlog *log = open_with(folder, NULL);
    for (int number = 0; number < done; number++) {
        uint64_t key = key_of(number);
        fill(value, number);
        CHECK(!raftlog_get(log, 1, &key, sizeof key, &bytes) && bytes.len == VALUE && !memcmp(bytes.data, value, VALUE));
    }
    CHECK(raftlog_close(log) == 0);
    raftlog_bytes_free(&bytes);
}

/* True in a child, which ends by itself; the parent waits for it. */
static bool is_child(void) {
    int status;
    pid_t child = fork();
    CHECK(child >= 0);
    if (!child) return true;
    CHECK(waitpid(child, &status, 0) == child && status == 0);
    return false;
}

static void limited_to(int megabytes) {
    int done, ends[2];
    run("rm -rf '%s%s'", folder, "");
    CHECK(!pipe(ends));
    if (is_child()) {
        write_until_full(megabytes, ends[1]);
        _exit(0);
    }
    CHECK(read(ends[0], &done, sizeof done) == sizeof done && done > 0 && done < MOST);
    if (is_child()) {
        has_all(done);
        _exit(0);
    }
    close(ends[0]);
    close(ends[1]);
}

int main(int argc, char **argv) {
    static const int limits[LIMITS] = {60, 90, 150};
    CHECK(argc == 2);
    folder = argv[1];
    for (int i = 0; i < LIMITS; i++) limited_to(limits[i]);
    puts("ok");
    return 0;
}
