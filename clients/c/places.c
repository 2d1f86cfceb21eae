/* What becomes of an open log whose folder is moved, replaced or removed, and of which folders and links it follows:
 * `places FOLDER`. Its rows are those of cwd.c, ren.c, gone.c and lockrm.c, which found synced writes in another log. */
#include "keys.h"

#include <fcntl.h>
#include <sys/file.h>
#include <sys/stat.h>
#include <unistd.h>

enum { KEYS = 20 };

/* Writes keys from a number on: how many were done before the first failure, whose code is the answer. */
static int put_from(raftlog *log, char name, int first, int *done) {
    int code = 0;
    for (*done = first; !code && *done < KEYS; *done += !code) code = put_key(log, name, *done);
    return code;
}

static void put_all(raftlog *log, char name, int first) {
    int done;
    CHECK(put_from(log, name, first, &done) == 0 && done == KEYS);
}

/* A relative path, and a working directory that changes to one where the path leads to another log. */
static void working_directory(void) {
    CHECK(!mkdir("one", 0777) && !mkdir("other", 0777) && !chdir("other"));
    raftlog *log = open_with("log", SMALL_FILES);
    CHECK(put_key(log, 'o', 0) == 0 && raftlog_close(log) == 0 && !chdir("../one"));
    log = open_with("log", SMALL_FILES);
    CHECK(put_key(log, 'k', 0) == 0 && !chdir("../other"));
    put_all(log, 'k', 1);
    CHECK(raftlog_close(log) == 0);
    CHECK(count_in("log", SMALL_FILES, 'o', KEYS) == 1 && count_in("log", SMALL_FILES, 'k', KEYS) == 0);
    CHECK(!chdir("..") && count_in("one/log", SMALL_FILES, 'k', KEYS) == KEYS);
}

/* As daemon() does it. */
static void root_directory(const char *here) {
    raftlog *log = open_with("daemon", SMALL_FILES);
    CHECK(!chdir("/"));
    put_all(log, 'k', 0);
    CHECK(raftlog_close(log) == 0 && !chdir(here));
    CHECK(count_in("daemon", SMALL_FILES, 'k', KEYS) == KEYS);
}

/* The folder is moved, and another log begins under its name. */
static void moved(void) {
    raftlog *log = open_with("name", SMALL_FILES), *next;
    CHECK(put_key(log, 'k', 0) == 0 && !rename("name", "moved"));
    next = open_with("name", SMALL_FILES);
    CHECK(put_key(next, 'n', 0) == 0);
    put_all(log, 'k', 1);
    put_all(next, 'n', 1);
    CHECK(raftlog_close(log) == 0 && raftlog_close(next) == 0);
    CHECK(count_in("moved", SMALL_FILES, 'k', KEYS) == KEYS && count_in("moved", SMALL_FILES, 'n', KEYS) == 0);
    CHECK(count_in("name", SMALL_FILES, 'n', KEYS) == KEYS && count_in("name", SMALL_FILES, 'k', KEYS) == 0);
}

/* The folder, or the log file alone, is removed: the next synced write fails, and says why. */
static void removed(const char *command, const char *why, const char *here) {
    raftlog *log = open_with("removed", NULL);
    CHECK(put_key(log, 'k', 0) == 0);
    run(command, "removed", "");
    CHECK(put_key(log, 'k', 1) == RAFTLOG_IO && says(log, why) && says(log, here));
    CHECK(put_key(log, 'k', 2) == RAFTLOG_FAILED && says(log, why));
    CHECK(raftlog_close(log) == RAFTLOG_FAILED);
    run("rm -rf %s", "removed", "");
}

/* LOCK is removed: nobody else can open the folder, and the log locks the next LOCK at its next file. */
static void lock_removed(void) {
    char text[TEXT_ROOM];
    raftlog *log = open_with("locked", SMALL_FILES), *other;
    CHECK(!unlink("locked/LOCK"));
    CHECK(raftlog_open("locked", NULL, &other, text, sizeof text) == RAFTLOG_IN_USE && !other);
    CHECK(access("locked/LOCK", F_OK));
    put_all(log, 'k', 0);
    int fd = open("locked/LOCK", O_RDWR);
    CHECK(fd >= 0 && flock(fd, LOCK_EX | LOCK_NB) && !close(fd));
    CHECK(raftlog_close(log) == 0 && count_in("locked", SMALL_FILES, 'k', KEYS) == KEYS);
}

/* LOCK is removed, and a program that knows of LOCK alone has the next one. */
static void lock_taken(void) {
    int done;
    raftlog *log = open_with("taken", SMALL_FILES);
    CHECK(put_key(log, 'k', 0) == 0 && !unlink("taken/LOCK"));
    int fd = open("taken/LOCK", O_RDWR | O_CREAT, 0666);
    CHECK(fd >= 0 && !flock(fd, LOCK_EX | LOCK_NB));
    CHECK(put_from(log, 'k', 1, &done) == RAFTLOG_IO && says(log, "another process has the folder"));
    CHECK(raftlog_close(log) == RAFTLOG_FAILED && !close(fd));
    int found = count_in("taken", SMALL_FILES, 'k', KEYS);
    CHECK(found >= done && found <= done + 1);
}

/* LOCK may be a link, and stays locked. */
static void lock_is_link(void) {
    CHECK(!mkdir("linked", 0777) && !symlink("../lock-of-linked", "linked/LOCK"));
    raftlog *log = open_with("linked", SMALL_FILES);
    put_all(log, 'k', 0);
    CHECK(raftlog_close(log) == 0);
}

/* A link that leads to the log's folder is followed once, at the opening. */
static void folder_is_link(void) {
    CHECK(!mkdir("target", 0777) && !mkdir("other-target", 0777) && !symlink("target", "link"));
    raftlog *log = open_with("link", SMALL_FILES);
    CHECK(!unlink("link") && !symlink("other-target", "link"));
    put_all(log, 'k', 0);
    CHECK(raftlog_close(log) == 0 && count_in("target", SMALL_FILES, 'k', KEYS) == KEYS);
    CHECK(count_in("other-target", SMALL_FILES, 'k', KEYS) == 0);
}

#define SPILL SMALL_FILES "spill-dir = \"spill\"\n"

/* A link in place of the spill folder is refused: the files behind it were passed over. */
static void spill_is_link(void) {
    char text[TEXT_ROOM];
    raftlog *log = open_with("spilled", SPILL);
    CHECK(put_key(log, 'k', 0) == 0 && raftlog_close(log) == 0);
    CHECK(!rename("spilled/spill", "elsewhere") && !symlink("../elsewhere", "spilled/spill"));
    CHECK(raftlog_open("spilled", SPILL, &log, text, sizeof text) == RAFTLOG_IO && strstr(text, "spill: it is a link"));
    CHECK(!strstr(text, "close it"));
    CHECK(!unlink("spilled/spill") && !rename("elsewhere", "spilled/spill"));
    CHECK(count_in("spilled", SPILL, 'k', 1) == 1);
}

/* A spill folder that is moved while the log is open is the log's until the close. */
static void spill_is_moved(void) {
    raftlog *log = open_with("spilled", SPILL);
    CHECK(!rename("spilled/spill", "elsewhere"));
    put_all(log, 'k', 1);
    CHECK(raftlog_close(log) == 0 && !rename("elsewhere", "spilled/spill"));
    CHECK(count_in("spilled", SPILL, 'k', KEYS) == KEYS);
}

/* A copy that a renaming between two file systems left is deleted; what only looks like one stays. */
static void left_copies(void) {
    raftlog *log = open_with("copies", SMALL_FILES);
    CHECK(raftlog_close(log) == 0);
    run("touch %s/0000000000000007.raftlog.moved", "copies", "");
    run("touch %s/7.raftlog.moved", "copies", "");
    log = open_with("copies", SMALL_FILES);
    CHECK(access("copies/0000000000000007.raftlog.moved", F_OK) && !access("copies/7.raftlog.moved", F_OK));
    CHECK(raftlog_close(log) == 0);
}

static void change_byte(const char *path, long at) {
    FILE *file = fopen(path, "r+b");
    CHECK(file && !fseek(file, at, SEEK_SET));
    int byte = fgetc(file);
    CHECK(!fseek(file, at, SEEK_SET) && fputc(byte ^ 1, file) != EOF && !fclose(file));
}

/* A log file is damaged: the text names it, and the byte at which its first broken record begins. */
static void damaged(const char *here) {
    static const struct { long at; const char *said; } rows[] = {
        {0, "corruption at byte 0: this is no log file's header"},
        {69, "corruption at byte 69: "},
        {69 + 16 + 40, "corruption at byte 69: a record's checksum is wrong"},
    };
    char text[TEXT_ROOM], place[TEXT_ROOM];
    raftlog *log = open_with("damaged", SMALL_FILES);
    put_all(log, 'k', 0);
    CHECK(raftlog_close(log) == 0);
    snprintf(place, sizeof place, "%s/damaged/0000000000000002.raftlog: ", here);
    for (size_t i = 0; i < sizeof rows / sizeof *rows; i++) {
        change_byte("damaged/0000000000000002.raftlog", rows[i].at);
        CHECK(raftlog_open("damaged", SMALL_FILES, &log, text, sizeof text) == RAFTLOG_CORRUPTION && !log);
        if (strncmp(text, place, strlen(place)) || !strstr(text, rows[i].said)) printf("%s\n", text);
        CHECK(!strncmp(text, place, strlen(place)) && strstr(text, rows[i].said));
        change_byte("damaged/0000000000000002.raftlog", rows[i].at);
    }
    CHECK(count_in("damaged", SMALL_FILES, 'k', KEYS) == KEYS);
}

/* The texts of openings give the path from the root, and the system's cause. */
static void texts(const char *here) {
    char text[TEXT_ROOM], place[TEXT_ROOM], unknown[TEXT_ROOM];
    raftlog *log = open_with("texts", NULL), *other;
    CHECK(raftlog_open("texts", NULL, &other, text, sizeof text) == RAFTLOG_IN_USE);
    snprintf(place, sizeof place, "%s/texts: this process has it open already", here);
    /* Not each system and file system tells who has a lock. */
    snprintf(unknown, sizeof unknown, "%s/texts: another process has it open", here);
    CHECK((!strcmp(text, place) || !strcmp(text, unknown)) && raftlog_close(log) == 0);
    CHECK(!symlink("nowhere", "texts/0000000000000009.raftlog"));
    CHECK(raftlog_open("texts", NULL, &other, text, sizeof text) == RAFTLOG_NOT_PLAIN);
    snprintf(place, sizeof place, "%s/texts/0000000000000009.raftlog: %s", here, raftlog_code_text(RAFTLOG_NOT_PLAIN));
    CHECK(!strcmp(text, place));
    CHECK(raftlog_open("/proc/none/x", NULL, &other, text, sizeof text) == RAFTLOG_FOLDER);
    CHECK(!strcmp(text, "/proc/none/x: No such file or directory"));
    run("touch %s", "plain", "");
    CHECK(raftlog_open("plain/x", NULL, &other, text, sizeof text) == RAFTLOG_FOLDER);
    snprintf(place, sizeof place, "%s/plain/x: Not a directory", here);
    CHECK(!strcmp(text, place));
    CHECK(raftlog_accept_missing("none", text, sizeof text) == RAFTLOG_FOLDER);
    snprintf(place, sizeof place, "%s/none: No such file or directory", here);
    CHECK(!strcmp(text, place));
}

int main(int argc, char **argv) {
    char here[TEXT_ROOM / 3];
    CHECK(argc == 2);
    run("rm -rf '%s' && mkdir -p '%s'", argv[1], argv[1]);
    CHECK(!chdir(argv[1]) && getcwd(here, sizeof here));
    working_directory();
    root_directory(here);
    moved();
    removed("rm -rf %s", "the folder was removed", here);
    removed("rm %s/0000000000000001.raftlog", "another program deleted it", here);
    lock_removed();
    lock_taken();
    lock_is_link();
    folder_is_link();
    spill_is_link();
    spill_is_moved();
    left_copies();
    damaged(here);
    texts(here);
    puts("ok");
    return 0;
}
