/* A log under limits and interruptions of its process: `limits FOLDER LIBRARY`, the shared library's path. It prints "ok", or
 * what was wrong. */
#include "keys.h"

#include <dlfcn.h>
#include <pthread.h>
#include <signal.h>
#include <stdatomic.h>
#include <sys/resource.h>
#include <unistd.h>

enum { WRITERS = 4, SIGNALS = 4000, KEYS = 60, DESCRIPTORS = 14, CYCLES = 20 };

/* ---- signals whose handler doesn't ask to go on with a call of the system */

static atomic_bool has_ended;
static atomic_int written;

static void ignore(int number) { (void)number; }

static void *write_until_end(void *with) {
    while (!atomic_load(&has_ended)) CHECK(put_key(with, 'k', atomic_fetch_add(&written, 1)) == 0);
    return NULL;
}

static void interrupted(const char *folder) {
    struct sigaction action = {.sa_handler = ignore};
    pthread_t writers[WRITERS];
    raftlog *log = open_with(folder, SMALL_FILES);
    CHECK(!sigaction(SIGUSR1, &action, NULL));
    for (int i = 0; i < WRITERS; i++) CHECK(!pthread_create(&writers[i], NULL, write_until_end, log));
    for (int i = 0; i < SIGNALS; i++) {
        CHECK(!pthread_kill(writers[i % WRITERS], SIGUSR1));
        if (i % 10 == 0) usleep(100);
    }
    atomic_store(&has_ended, true);
    for (int i = 0; i < WRITERS; i++) CHECK(!pthread_join(writers[i], NULL));
    CHECK(raftlog_close(log) == 0);
    CHECK(count_in(folder, SMALL_FILES, 'k', atomic_load(&written)) == atomic_load(&written));
}

/* ---- no descriptor is left for a next file: a write may fail, and what was done is there again */

static void without_descriptors(const char *folder) {
    struct rlimit was, few;
    char text[TEXT_ROOM] = "";
    int done = 0, count = 0, others[DESCRIPTORS];
    raftlog *log = open_with(folder, SMALL_FILES);
    CHECK(!getrlimit(RLIMIT_NOFILE, &was));
    few = (struct rlimit){DESCRIPTORS, was.rlim_max};
    CHECK(!setrlimit(RLIMIT_NOFILE, &few));
    while (count < DESCRIPTORS && (others[count] = dup(STDOUT_FILENO)) >= 0) count++;
    while (done < KEYS && put_key(log, 'k', done) == 0) done++;
    raftlog_message(log, text, sizeof text);
    CHECK(done == KEYS || strstr(text, "Too many open files"));
    while (count) close(others[--count]);
    CHECK(!setrlimit(RLIMIT_NOFILE, &was));
    int code = raftlog_close(log);
    CHECK(code == 0 || done < KEYS);
    CHECK(count_in(folder, SMALL_FILES, 'k', KEYS) >= done);
}

/* ---- the library is loaded and unloaded */

typedef int open_call(const char *, const char *, raftlog **, char *, size_t);

static int use(void *library, const char *folder) {
    open_call *open = (open_call *)dlsym(library, "raftlog_open");
    int (*write)(raftlog *, const void *, size_t, bool) =
        (int (*)(raftlog *, const void *, size_t, bool))dlsym(library, "raftlog_write_bytes");
    int (*end)(raftlog *) = (int (*)(raftlog *))dlsym(library, "raftlog_close");
    char text[TEXT_ROOM];
    raftlog *log;
    CHECK(open && write && end);
    CHECK(open(folder, SMALL_FILES, &log, text, sizeof text) == 0);
    int code = write(log, "no batch", 8, true);
    CHECK(end(log) == 0);
    return code;
}

static pthread_barrier_t used, unloaded;
static const char *place;

/* Keeps the text of a failure of the library, which is gone when the thread ends. */
static void *fail_and_stay(void *library) {
    CHECK(use(library, place) == RAFTLOG_INVALID);
    pthread_barrier_wait(&used);
    pthread_barrier_wait(&unloaded);
    return NULL;
}

static void loaded(const char *folder, const char *path) {
    pthread_t thread;
    place = folder;
    for (int i = 0; i < CYCLES; i++) {
        void *library = dlopen(path, RTLD_NOW | RTLD_LOCAL);
        if (!library) puts(dlerror());
        CHECK(library && use(library, folder) == RAFTLOG_INVALID && !dlclose(library));
    }
    CHECK(!pthread_barrier_init(&used, NULL, 2) && !pthread_barrier_init(&unloaded, NULL, 2));
    void *library = dlopen(path, RTLD_NOW | RTLD_LOCAL);
    CHECK(library && !pthread_create(&thread, NULL, fail_and_stay, library));
    pthread_barrier_wait(&used);
    CHECK(!dlclose(library));
    pthread_barrier_wait(&unloaded);
    CHECK(!pthread_join(thread, NULL));
}

int main(int argc, char **argv) {
    char folder[TEXT_ROOM];
    CHECK(argc == 3);
    run("rm -rf '%s' && mkdir -p '%s'", argv[1], argv[1]);
    snprintf(folder, sizeof folder, "%s/interrupted", argv[1]);
    interrupted(folder);
    snprintf(folder, sizeof folder, "%s/descriptors", argv[1]);
    without_descriptors(folder);
    snprintf(folder, sizeof folder, "%s/loaded", argv[1]);
    loaded(folder, argv[2]);
    puts("ok");
    return 0;
}
