/* Two processes on one folder: `shared_folder FOLDER`. One has it at a time, the other is told so; what each was answered
 * stands in the end, also of one that was killed. It prints "ok", or what was wrong. */
#include "raftlog.h"

#include <signal.h>
#include <stdio.h>
#include <stdlib.h>
#include <string.h>
#include <sys/wait.h>
#include <unistd.h>

#define CHECK(what) do { if (!(what)) { printf("%s:%d: %s\n", __FILE__, __LINE__, #what); exit(1); } } while (0)

enum { PROCESSES = 2, TURNS = 40, PUTS = 5 };

/* Waits until the folder is free. */
static raftlog *open_at(const char *folder) {
    char text[300];
    raftlog *log;
    for (int tries = 0; tries < 60000; tries++) {
        int code = raftlog_open(folder, "target-file-size = \"4KB\"", &log, text, sizeof text);
        if (!code) return log;
        if (code != RAFTLOG_IN_USE) printf("%d %s\n", code, text);
        CHECK(code == RAFTLOG_IN_USE && !log && strstr(text, folder));
        usleep(1000);
    }
    CHECK(!"the folder is never free");
    return NULL;
}

/* Adds entries to the one group that all processes write, and a key of the process's own. */
static void take_turns(const char *folder, uint64_t process) {
    for (uint64_t turn = 0; turn < TURNS; turn++) {
        raftlog *log = open_at(folder);
        raftlog_batch *batch = raftlog_batch_new();
        uint64_t last = 0;
        int code = raftlog_last_index(log, 1, &last);
        CHECK(code == 0 || code == RAFTLOG_ABSENT);
        for (uint64_t i = 0; i < PUTS; i++) {
            uint64_t key = turn * PUTS + i;
            raftlog_entry entry = {last + 1 + i, (const uint8_t *)&process, sizeof process};
            CHECK(!raftlog_batch_entries(batch, 1, &entry, 1));
            CHECK(!raftlog_batch_put(batch, 2 + process, &key, sizeof key, &key, sizeof key));
            CHECK(!raftlog_write(log, batch, i == PUTS - 1));
        }
        raftlog_batch_free(batch);
        CHECK(!raftlog_close(log));
    }
}

/* How many entries and keys there are. */
static void all_stand(const char *folder, uint64_t entries) {
    raftlog *log = open_at(folder);
    raftlog_bytes bytes = {0};
    uint64_t last, of[PROCESSES] = {0};
    CHECK(!raftlog_last_index(log, 1, &last) && last == entries);
    for (uint64_t i = 1; i <= last; i++) {
        CHECK(!raftlog_get_entry(log, 1, i, &bytes) && bytes.len == 8);
        uint64_t process;
        memcpy(&process, bytes.data, 8);
        CHECK(process < PROCESSES);
        of[process]++;
    }
    for (uint64_t process = 0; process < PROCESSES; process++) {
        CHECK(of[process] == TURNS * PUTS);
        for (uint64_t key = 0; key < TURNS * PUTS; key++)
            CHECK(!raftlog_get(log, 2 + process, &key, sizeof key, &bytes) && !memcmp(bytes.data, &key, sizeof key));
    }
    raftlog_bytes_free(&bytes);
    CHECK(!raftlog_close(log));
}

/* A process that has the folder is killed: the other then gets it, with what was answered. */
static void killed(const char *folder) {
    int told[2];
    char byte;
    CHECK(!pipe(told));
    pid_t child = fork();
    CHECK(child >= 0);
    if (!child) {
        raftlog *log = open_at(folder);
        raftlog_batch *batch = raftlog_batch_new();
        CHECK(!raftlog_batch_put(batch, 9, "answered", 8, "v", 1) && !raftlog_write(log, batch, true));
        CHECK(write(told[1], "x", 1) == 1);
        for (;;) pause();
    }
    CHECK(read(told[0], &byte, 1) == 1);
    char text[300];
    raftlog *log;
    CHECK(raftlog_open(folder, NULL, &log, text, sizeof text) == RAFTLOG_IN_USE && strstr(text, folder));
    CHECK(!kill(child, SIGKILL) && waitpid(child, NULL, 0) == child);
    raftlog_bytes bytes = {0};
    log = open_at(folder);
    CHECK(!raftlog_get(log, 9, "answered", 8, &bytes) && bytes.len == 1);
    CHECK(!raftlog_close(log));
    raftlog_bytes_free(&bytes);
    close(told[0]);
    close(told[1]);
}

int main(int argc, char **argv) {
    CHECK(argc == 2);
    pid_t children[PROCESSES];
    for (uint64_t process = 0; process < PROCESSES; process++) {
        children[process] = fork();
        CHECK(children[process] >= 0);
        if (!children[process]) {
            take_turns(argv[1], process);
            _exit(0);
        }
    }
    for (int process = 0; process < PROCESSES; process++) {
        int status;
        CHECK(waitpid(children[process], &status, 0) == children[process] && status == 0);
    }
    all_stand(argv[1], PROCESSES * TURNS * PUTS);
    killed(argv[1]);
    puts("ok");
    return 0;
}
