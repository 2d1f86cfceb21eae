/* A log whose spill folder is on another file system: `two_disks FOLDER`, where FOLDER/spill is a mount, as tools/clients/two-disks
 * makes one. Files are renamed from there when they are dropped. A process that does so is killed at each of its file calls in
 * turn: the next opening finds all keys. */
#include "faults.h"
#include "keys.h"

#include <dirent.h>
#include <signal.h>
#include <sys/stat.h>
#include <sys/wait.h>
#include <unistd.h>

#define SPILL SMALL_FILES "spill-dir = \"spill\"\n"

enum { KEYS = 30 };

static const char *folder;

/* The names in the folder or below it that end so, but for folders. */
static int count_names(const char *below, const char *end) {
    char place[TEXT_ROOM];
    struct dirent *entry;
    int count = 0;
    snprintf(place, sizeof place, "%s/%s", folder, below);
    DIR *dir = opendir(place);
    CHECK(dir);
    while ((entry = readdir(dir))) {
        size_t len = strlen(entry->d_name), wanted = strlen(end);
        count += entry->d_type == DT_REG && len >= wanted && !strcmp(entry->d_name + len - wanted, end);
    }
    closedir(dir);
    return count;
}

/* A closed log with two of its files on the other disk. */
static void make(void) {
    char command[TEXT_ROOM];
    run("find '%s' -type f -delete", folder, "");
    raftlog *log = open_with(folder, SPILL);
    for (int i = 0; i < KEYS; i++) CHECK(put_key(log, 'k', i) == 0);
    CHECK(raftlog_close(log) == 0);
    snprintf(command, sizeof command, "cd '%s' && mv 0000000000000001.raftlog 0000000000000002.raftlog spill", folder);
    CHECK(system(command) == 0 && count_names("spill", ".raftlog") == 2);
}

/* Drops the files of the other disk, whose names are kept for files to come. */
static void drop(void) {
    raftlog *log = open_with(folder, SPILL);
    CHECK(count_keys(log, 'k', KEYS) == KEYS);
    CHECK(raftlog_must_rewrite_append_queue(log, NULL) == 0 && put_key(log, 'l', 0) == 0);
    CHECK(raftlog_close(log) == 0);
}

/* Whether the process was killed at the call of this number. */
static bool is_killed_at(int call) {
    int status;
    make();
    fflush(stdout);
    pid_t child = fork();
    CHECK(child >= 0);
    if (!child) {
        faults_kill = true;
        atomic_store(&faults_left, call);
        drop();
        CHECK(count_names("spill", "") == 0 && count_names(".", ".reserved") > 1);
        _exit(0);
    }
    CHECK(waitpid(child, &status, 0) == child);
    CHECK(WIFSIGNALED(status) ? WTERMSIG(status) == SIGKILL : status == 0);
    CHECK(count_in(folder, SPILL, 'k', KEYS) == KEYS);
    CHECK(count_names(".", ".moved") == 0 && count_names("spill", ".moved") == 0);
    return WIFSIGNALED(status);
}

int main(int argc, char **argv) {
    struct stat own, spill;
    char place[TEXT_ROOM];
    int calls = 1;
    CHECK(argc == 2);
    folder = argv[1];
    snprintf(place, sizeof place, "%s/spill", folder);
    CHECK(!stat(folder, &own) && !stat(place, &spill) && own.st_dev != spill.st_dev);
    while (is_killed_at(calls)) calls++;
    make();
    run("rm '%s/0000000000000003.raftlog'%s", folder, "");
    CHECK(count_in(folder, SPILL, 'k', KEYS) < KEYS);
    printf("ok, killed at %d file calls\n", calls - 1);
    return 0;
}
