/* A log file that is cut behind an open log, or behind an opening: `bus_test FOLDER`. What can't
 * be read again ends the program by default; once the program survives bus errors it is
 * corruption. */
#include "raftlog.h"

#include <fcntl.h>
#include <setjmp.h>
#include <signal.h>
#include <stdio.h>
#include <stdlib.h>
#include <string.h>
#include <sys/mman.h>
#include <sys/stat.h>
#include <sys/wait.h>
#include <unistd.h>

enum { ENTRIES = 4000, SIZE = 1000, CUT = (1 << 20) + 10, PATH_ROOM = 400 };

static void need(bool is_so, const char *what, int line) {
    if (is_so) return;
    printf("bus_test.c:%d: %s\n", line, what);
    fflush(stdout);
    _exit(1);
}

#define NEED(what) need(what, #what, __LINE__)

static char folder[PATH_ROOM / 2], path[PATH_ROOM];

static off_t size_of_file(void) {
    struct stat found;
    NEED(!stat(path, &found));
    return found.st_size;
}

static void cut_file(void) { NEED(!truncate(path, CUT)); }

/* At the end of the reading, before it is replayed, the file is cut. */
static void cut_when_read(void *with, uint64_t done, uint64_t all) {
    uint64_t *told = with;
    NEED(done <= all && all > 0 && done >= *told);
    *told = done;
    if (done == all) cut_file();
}

static void make_log(void) {
    char command[PATH_ROOM];
    snprintf(command, sizeof command, "rm -rf '%s'", folder);
    NEED(!system(command));
    raftlog *log;
    NEED(!raftlog_open(folder, NULL, &log, NULL, 0));
    raftlog_batch *batch = raftlog_batch_new();
    uint8_t bytes[SIZE] = {1};
    for (uint64_t i = 1; i <= ENTRIES; i++) {
        raftlog_entry entry = {i, bytes, SIZE};
        NEED(!raftlog_batch_entries(batch, 1, &entry, 1) && !raftlog_write(log, batch, false));
    }
    raftlog_batch_free(batch);
    NEED(!raftlog_close(log) && size_of_file() > 2 * CUT);
}

static raftlog *open_log(void) {
    raftlog *log;
    NEED(!raftlog_open(folder, NULL, &log, NULL, 0));
    return log;
}

/* How many entries are read; the others are corruption. */
static uint64_t read_all(raftlog *log) {
    raftlog_bytes bytes = {0};
    uint64_t done = 0;
    for (uint64_t i = 1; i <= ENTRIES; i++) {
        int code = raftlog_get_entry(log, 1, i, &bytes);
        NEED(code == RAFTLOG_OK ? bytes.len == SIZE : code == RAFTLOG_CORRUPTION);
        done += code == RAFTLOG_OK;
    }
    raftlog_bytes_free(&bytes);
    return done;
}

/* ---- what is tried, each in a process of its own */

static void read_by_default(void) {
    raftlog *log = open_log();
    cut_file();
    read_all(log);
}

static void open_by_default(void) {
    raftlog *log;
    uint64_t told = 0;
    raftlog_open_watched(folder, NULL, cut_when_read, &told, &log, NULL, 0);
}

static void read_and_survive(void) {
    NEED(!raftlog_survive_bus_errors() && !raftlog_survive_bus_errors());
    raftlog *log = open_log();
    NEED(read_all(log) == ENTRIES);
    cut_file();
    uint64_t done = read_all(log);
    NEED(done > CUT / SIZE / 2 && done < ENTRIES / 2 && read_all(log) == done);
    raftlog_batch *batch = raftlog_batch_new();
    NEED(!raftlog_batch_put(batch, 2, "key", 3, "value", 5) && !raftlog_write(log, batch, true));
    raftlog_batch_free(batch);
    NEED(!raftlog_close(log));
}

static void open_and_survive(void) {
    char text[PATH_ROOM];
    raftlog *log;
    uint64_t told = 0;
    NEED(!raftlog_survive_bus_errors());
    int code = raftlog_open_watched(folder, NULL, cut_when_read, &told, &log, text, sizeof text);
    NEED(code == RAFTLOG_IO && !log && *text && size_of_file() == CUT);
}

static sigjmp_buf back;

static void jump_back(int number) { siglongjmp(back, number); }

/* A bus error of the program's own goes to its own handler. */
static void hand_on(void) {
    NEED(signal(SIGBUS, jump_back) != SIG_ERR && !raftlog_survive_bus_errors());
    raftlog *log = open_log();
    cut_file();
    int fd = open(path, O_RDONLY);
    volatile uint8_t *own = mmap(NULL, 4 * CUT, PROT_READ, MAP_PRIVATE, fd, 0);
    NEED((const void *)own != MAP_FAILED);
    if (!sigsetjmp(back, 1)) {
        (void)own[2 * CUT];
        _exit(1);
    }
    NEED(read_all(log) < ENTRIES && !raftlog_close(log));
}

static const struct {
    const char *name;
    void (*run)(void);
    int signal; /* that ends it */
} tries[] = {
    {"reads end the program", read_by_default, SIGBUS},
    {"an opening ends the program", open_by_default, SIGBUS},
    {"reads survive", read_and_survive, 0},
    {"an opening fails", open_and_survive, 0},
    {"others' bus errors are handed on", hand_on, 0},
};

static bool has_ended_so(int status, int signal) {
    return signal ? WIFSIGNALED(status) && WTERMSIG(status) == signal : status == 0;
}

int main(int argc, char **argv) {
    if (argc != 2) return 2;
    snprintf(folder, sizeof folder, "%s", argv[1]);
    snprintf(path, sizeof path, "%s/0000000000000001.raftlog", folder);
    for (size_t i = 0; i < sizeof tries / sizeof *tries; i++) {
        int status = 0;
        make_log();
        pid_t child = fork();
        NEED(child >= 0);
        if (!child) {
            tries[i].run();
            _exit(0);
        }
        NEED(waitpid(child, &status, 0) == child);
        if (has_ended_so(status, tries[i].signal)) continue;
        printf("%s: status %d\n", tries[i].name, status);
        return 1;
    }
    printf("ok, %zu tries\n", sizeof tries / sizeof *tries);
    return 0;
}
