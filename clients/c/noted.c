/* The note of a log's file numbers: `noted FOLDER`. After no kill and no failed call an opening reports a file as missing.
 * Files that someone takes away are reported; lost.c tests that they are until that is accepted. */
#include "faults.h"
#include "noted.h"
#include "parts.h"

#include <errno.h>
#include <signal.h>
#include <sys/stat.h>
#include <sys/wait.h>

#define COMMENTED DELETING "  # spill-dir = \"other\"\n"
#define INDENTED DELETING "  spill-dir = \"spill\"\n"
#define IN_TABLE DELETING "[other]\nspill-dir = \"spill\"\n"
#define ESCAPED DELETING "\"spill\\u002ddir\" = \"spill\"\n"
#define MULTILINE DELETING "spill-dir = \"\"\"spill\"\"\"\n"
#define LITERAL DELETING "spill-dir = '''spill'''\n"

/* Forms that the library doesn't know, and whether they name the folder. */
static const struct { const char *text; bool is_second; } unknown[] = {
    {INDENTED, true}, {IN_TABLE, false}, {ESCAPED, true}, {MULTILINE, true}, {LITERAL, true}};

/* Paths of the second folder that no opening takes, and how it fails. */
static const struct { const char *path; int code; } refused[] = {
    {"./spill", RAFTLOG_IO}, {"spill/", RAFTLOG_IO}, {"spill//", RAFTLOG_IO}, {"x/../spill", RAFTLOG_IO}, {"..", RAFTLOG_IO},
    {"/spill", RAFTLOG_IO}, {"", RAFTLOG_INVALID}};

enum { PATIENCE = 20, NOBODY = 65534 };

/* Whether the process was killed at the file call of this number. */
static bool is_killed_at(int call, const char *settings) {
    int status;
    empty();
    fflush(stdout);
    pid_t child = fork();
    CHECK(child >= 0);
    if (!child) {
        faults_kill = true;
        atomic_store(&faults_left, call);
        work_with(settings, FEW);
        _exit(0);
    }
    CHECK(waitpid(child, &status, 0) == child);
    CHECK(WIFSIGNALED(status) ? WTERMSIG(status) == SIGKILL : status == 0);
    CHECK(lost_in(settings, NULL) == 0);
    return WIFSIGNALED(status);
}

static int kill_at_each(const char *settings) {
    int calls = 1;
    while (is_killed_at(calls, settings)) calls++;
    CHECK(lost_in(settings, NULL) == 0);
    return calls - 1;
}

/* The greatest number of a file. */
static uint64_t last_file(void) {
    uint64_t last = 0;
    for (uint64_t number = 1; number < 10 * MANY; number++)
        if (has_file(number)) last = number;
    return last;
}

/* One file is taken away: the first, one between, the last, or all. What is taken away after that was accepted is
 * reported too. */
static void lose(void) {
    raftlog_lost lost[ROOM];
    char text[TEXT_ROOM];
    uint64_t first, last;
    raftlog *log;
    for (int which = 0; which < 4; which++) {
        empty();
        work(DELETING);
        find(&first, &last);
        CHECK(last > first + 2);
        uint64_t from = which == 1 ? first + 1 : which == 2 ? last : first, to = which == 3 ? last : from;
        for (uint64_t number = from; number <= to; number++) take_away(number);
        CHECK(raftlog_open_whole(folder, DELETING, &log, text, sizeof text) == RAFTLOG_LOST && !log);
        CHECK(strstr(text, ".raftlog is missing"));
        CHECK(lost_in(DELETING, lost) == 1 && is_lost(lost, RAFTLOG_FILE_MISSING, from, to));
        CHECK(raftlog_accept_missing(folder, text, sizeof text) == 0);
        CHECK(raftlog_open_whole(folder, DELETING, &log, text, sizeof text) == 0);
        CHECK(raftlog_missing(log, NULL, 0, 0) == 0);
        CHECK(raftlog_accept_missing(folder, text, sizeof text) == RAFTLOG_IN_USE);
        CHECK(raftlog_close(log) == 0 && lost_in(DELETING, NULL) == 0 && is_noted());
        work(DELETING);
        last = last_file();
        take_away(last);
        CHECK(raftlog_open_whole(folder, DELETING, &log, text, sizeof text) == RAFTLOG_LOST && !log);
        CHECK(lost_in(DELETING, lost) == 1 && is_lost(lost, RAFTLOG_FILE_MISSING, last, last));
    }
}

static void spilled_name(char name[TEXT_ROOM], uint64_t number) {
    snprintf(name, TEXT_ROOM, "%s/spill/%016llu.raftlog", folder, (unsigned long long)number);
}

/* Moves a file to the second folder. */
static void spill_file(uint64_t number) {
    char name[TEXT_ROOM], other[TEXT_ROOM];
    snprintf(other, sizeof other, "%s/spill", folder);
    CHECK(!mkdir(other, 0777) || errno == EEXIST);
    name_of(name, number);
    spilled_name(other, number);
    CHECK(!rename(name, other));
}

static void take_away_spilled(uint64_t number) {
    char name[TEXT_ROOM];
    spilled_name(name, number);
    CHECK(!unlink(name));
}

/* A stray is accepted: the log is then what an opening reads. */
static void accept_stray(void) {
    raftlog_lost lost[ROOM];
    uint64_t first, last;
    char name[TEXT_ROOM], other[TEXT_ROOM], text[TEXT_ROOM];
    empty();
    work(SPILLED);
    find(&first, &last);
    name_of(name, last);
    name_of(other, last + 5);
    CHECK(!rename(name, other));
    CHECK(lost_in(SPILLED, lost) == 2 && is_lost(lost, RAFTLOG_FILE_STRAY, last + 5, last + 5));
    CHECK(is_lost(lost + 1, RAFTLOG_FILE_MISSING, last, last));
    CHECK(raftlog_accept_missing(folder, text, sizeof text) == 0 && is_noted() && lost_in(SPILLED, NULL) == 0);
    take_away(last + 5);
    CHECK(lost_in(SPILLED, lost) == 1 && is_lost(lost, RAFTLOG_FILE_MISSING, last + 5, last + 5));
}

/* A loss is accepted while a file is in the second folder: it is one of the log's. */
static void accept_beside_spilled(void) {
    raftlog_lost lost[ROOM];
    uint64_t first, last;
    char text[TEXT_ROOM];
    empty();
    work(SPILLED);
    find(&first, &last);
    take_away(first);
    spill_file(last - 1);
    CHECK(raftlog_accept_missing(folder, text, sizeof text) == 0 && lost_in(SPILLED, NULL) == 0);
    take_away_spilled(last - 1);
    CHECK(lost_in(SPILLED, lost) == 1 && is_lost(lost, RAFTLOG_FILE_MISSING, last - 1, last - 1));
}

static void put_note(const char *bytes, size_t len) {
    char name[TEXT_ROOM];
    snprintf(name, sizeof name, "%s/SPANS", folder);
    unlink(name);
    FILE *file = fopen(name, "w");
    CHECK(file && fwrite(bytes, 1, len, file) == len && !fclose(file));
}

/* A file may be missing, and there is no note: none is begun until the numbers have no gap. */
static void is_unknown(void) {
    uint64_t first, last;
    char name[TEXT_ROOM];
    empty();
    work(DELETING);
    find(&first, &last);
    take_away(first + 1);
    snprintf(name, sizeof name, "%s/SPANS", folder);
    CHECK(!unlink(name) && lost_in(DELETING, NULL) == 0 && access(name, F_OK));
    take_away(first);
    CHECK(lost_in(DELETING, NULL) == 0 && !access(name, F_OK));
}

/* A broken note, or another program's file: nothing is reported. Another program's file stays. */
static void is_broken(void) {
    static char zeros[1024];
    char name[TEXT_ROOM];
    struct stat is;
    uint64_t first, last;
    const struct { const char *bytes; size_t len; off_t after; } notes[] = {
        {"", 0, 1024}, {zeros, 512, 1024}, {zeros, 1024, 1024}, {"RAFT-LOG-SPANS-1", 16, 1024}, {"mine", 4, 4}};
    for (size_t i = 0; i < sizeof notes / sizeof *notes; i++) {
        empty();
        work(DELETING);
        find(&first, &last);
        take_away(first);
        put_note(notes[i].bytes, notes[i].len);
        CHECK(lost_in(DELETING, NULL) == 0);
        snprintf(name, sizeof name, "%s/SPANS", folder);
        CHECK(!stat(name, &is) && (i < 3 ? is.st_size >= 512 : is.st_size >= notes[i].after || i == 3));
    }
    empty();
    CHECK(!mkdir(name, 0777));
    work(DELETING);
    CHECK(!rmdir(name) && lost_in(DELETING, NULL) == 0);
}

/* Changes each slot of the note that has one: a mark that a purge was deleting files, or other bytes at its begin. */
static void change_note(bool is_dropping, int broken) {
    uint8_t bytes[1024];
    char name[TEXT_ROOM];
    snprintf(name, sizeof name, "%s/SPANS", folder);
    FILE *file = fopen(name, "r+");
    CHECK(file && fread(bytes, 1, sizeof bytes, file) == sizeof bytes);
    for (int place = 0; place < 2; place++) {
        uint8_t *slot = bytes + place * 512;
        slot[63] = is_dropping;
        uint32_t crc = parts_crc(slot, 508);
        for (int i = 0; i < 4; i++) slot[508 + i] = (uint8_t)(crc >> 8 * i);
        if (place == broken) memset(slot, 'x', 100);
    }
    rewind(file);
    CHECK(fwrite(bytes, 1, sizeof bytes, file) == sizeof bytes && !fclose(file));
}

/* If a purge was deleting files, the first ones may be gone. A file after those that exist may not. */
static void is_dropping(void) {
    raftlog_lost lost[ROOM];
    uint64_t first, last;
    for (int is_marked = 0; is_marked < 2; is_marked++) {
        empty();
        work(DELETING);
        find(&first, &last);
        CHECK(last > first + 3);
        take_away(first);
        take_away(first + 1);
        if (is_marked) take_away(last - 1);
        change_note(is_marked, -1);
        uint64_t from = is_marked ? last - 1 : first;
        CHECK(lost_in(DELETING, lost) == 1 && is_lost(lost, RAFTLOG_FILE_MISSING, from, is_marked ? from : from + 1));
    }
}

/* One slot of the note is broken: the other one counts. */
static void has_broken_slot(void) {
    raftlog_lost lost[ROOM];
    uint64_t first, last;
    for (int place = 0; place < 2; place++) {
        empty();
        work(DELETING);
        find(&first, &last);
        take_away(first);
        change_note(false, place);
        CHECK(lost_in(DELETING, lost) == 1 && is_lost(lost, RAFTLOG_FILE_MISSING, first, first));
    }
}

/* The status of a child that does this. */
static void in_child(void (*does)(uint64_t), uint64_t number) {
    int status;
    fflush(stdout);
    pid_t child = fork();
    CHECK(child >= 0);
    if (!child) {
        does(number);
        fflush(stdout);
        _exit(0);
    }
    CHECK(waitpid(child, &status, 0) == child && status == 0);
}

/* The process ends right after it deleted a file, as an order to delete does it. */
static void delete(uint64_t number) {
    char path[TEXT_ROOM];
    raftlog *log = open_with(folder, DELETING);
    snprintf(path, sizeof path, "%016llu.raftlog", (unsigned long long)number);
    CHECK(parts_leave_span(log, path) == 0);
    take_away(number);
}

/* The last file is deleted. A file that is missing then is reported. If there was one file alone, nothing is needed. */
static void delete_last(void) {
    raftlog_lost lost[ROOM];
    uint64_t first, last, after;
    empty();
    work(DELETING);
    find(&first, &last);
    in_child(delete, last);
    CHECK(lost_in(DELETING, NULL) == 0);
    find(&first, &after);
    CHECK(after > first + 1 && after <= last);
    take_away(first + 1);
    CHECK(lost_in(DELETING, lost) == 1 && is_lost(lost, RAFTLOG_FILE_MISSING, first + 1, first + 1));

    empty();
    CHECK(lost_in(DELETING, NULL) == 0 && has_file(1) && !has_file(2));
    in_child(delete, 1);
    CHECK(lost_in(DELETING, NULL) == 0 && has_file(1) && is_noted());
    take_away(1);
    CHECK(lost_in(DELETING, lost) == 1 && is_lost(lost, RAFTLOG_FILE_MISSING, 1, 1));
}

/* No failed call on the note fails an opening. */
static void note_fails(void) {
    raftlog *log;
    char text[TEXT_ROOM];
    int of_note = 0;
    empty();
    work(DELETING);
    for (int call = 1, left = 0; !left; call++) {
        faults_of_note = false;
        atomic_store(&faults_left, call);
        int code = raftlog_open(folder, DELETING, &log, text, sizeof text);
        left = atomic_load(&faults_left);
        atomic_store(&faults_left, 0);
        CHECK(!faults_of_note || code == 0);
        of_note += faults_of_note;
        if (!code) CHECK(raftlog_close(log) == 0);
        CHECK(lost_in(DELETING, NULL) == 0);
    }
    faults_of_note = false;
    CHECK(of_note > 0);
}

static void is_refused_to_nobody(uint64_t unused) {
    raftlog *log;
    char text[TEXT_ROOM];
    (void)unused;
    CHECK(!setgid(NOBODY) && !setuid(NOBODY));
    CHECK(raftlog_open(folder, DELETING, &log, text, sizeof text) == RAFTLOG_FOLDER && !log);
    CHECK(strstr(text, "SPANS: Permission denied"));
}

static void is_open_to_nobody(uint64_t missing) {
    raftlog_lost lost[ROOM];
    CHECK(!setgid(NOBODY) && !setuid(NOBODY));
    CHECK(lost_in(DELETING, lost) == 1 && is_lost(lost, RAFTLOG_FILE_MISSING, missing, missing));
}

/* The note is another user's: an opening fails and keeps it, since it may report a loss. */
static void of_another(void) {
    const char *own = folder;
    char place[] = "/dev/shm/noted-XXXXXX";
    uint64_t first, last;
    if (geteuid()) {
        puts("not root: a note of another user is left out");
        return;
    }
    CHECK(mkdtemp(place));
    folder = place;
    for (int may_read = 0; may_read < 2; may_read++) {
        char note[TEXT_ROOM];
        work(DELETING);
        find(&first, &last);
        take_away(first);
        snprintf(note, sizeof note, "%s/SPANS", folder);
        run("chown -R 65534:65534 '%s' && chown 0:0 '%s'", folder, note);
        CHECK(!chmod(note, may_read ? 0444 : 0600));
        in_child(is_refused_to_nobody, 0);
        CHECK(!chown(note, NOBODY, NOBODY) && !chmod(note, 0600));
        in_child(is_open_to_nobody, first);
        empty();
    }
    run("rm -rf '%s'", folder, folder);
    folder = own;
}

static atomic_int accepted;

static void *accept_cancelled(void *with) {
    char text[TEXT_ROOM];
    pthread_cancel(pthread_self());
    atomic_store(&accepted, raftlog_accept_missing(with, text, sizeof text));
    pthread_testcancel();
    return NULL;
}

/* A thread that is cancelled accepts a loss, or fails to do so; the next opening doesn't wait. */
static void cancelled(void) {
    uint64_t first, last;
    char text[TEXT_ROOM] = "";
    void *ended;
    pthread_t thread;
    CHECK(raftlog_accept_missing("", text, sizeof text) == RAFTLOG_INVALID && *text);
    for (int is_open = 0; is_open < 2; is_open++) {
        empty();
        work(DELETING);
        find(&first, &last);
        take_away(first);
        raftlog *log = is_open ? open_with(folder, DELETING) : NULL;
        alarm(PATIENCE);
        atomic_store(&accepted, -1);
        CHECK(!pthread_create(&thread, NULL, accept_cancelled, (void *)folder));
        CHECK(!pthread_join(thread, &ended) && ended == PTHREAD_CANCELED);
        CHECK(atomic_load(&accepted) == (is_open ? RAFTLOG_IN_USE : RAFTLOG_OK) && is_noted());
        if (log) CHECK(raftlog_close(log) == 0);
        CHECK(lost_in(DELETING, NULL) == (size_t)is_open);
        alarm(0);
    }
}

/* The settings without the second folder: its files aren't the log's. With a comment they are as without it. With a form
 * that isn't known nothing is reported, and the note stays until a name changes. */
static void settings(void) {
    raftlog_lost lost[ROOM];
    uint64_t first, last;
    empty();
    work(SPILLED);
    find(&first, &last);
    spill_file(last);
    CHECK(lost_in(DELETING, lost) == 1 && is_lost(lost, RAFTLOG_FILE_MISSING, last, last));

    empty();
    work(DELETING);
    find(&first, &last);
    take_away(first);
    CHECK(lost_in(COMMENTED, lost) == 1 && is_lost(lost, RAFTLOG_FILE_MISSING, first, first));
    for (size_t i = 0; i < sizeof unknown / sizeof *unknown; i++) {
        CHECK(lost_in(unknown[i].text, NULL) == 0 && is_noted());
        CHECK(lost_in(DELETING, lost) == 1 && is_lost(lost, RAFTLOG_FILE_MISSING, first, first));
    }
    raftlog *log = open_with(folder, INDENTED);
    for (int i = 0; i < MANY; i++) CHECK(put_key(log, 'm', i) == 0);
    CHECK(!is_noted() && raftlog_must_rewrite_append_queue(log, NULL) == 0 && !is_noted());
    CHECK(raftlog_close(log) == 0 && lost_in(DELETING, NULL) == 0 && is_noted());
}

/* A file is moved to the second folder, which settings in a form that isn't known name, or none. Nothing is reported. */
static void moved_to_unknown(void) {
    uint64_t first, last;
    char text[TEXT_ROOM];
    for (size_t i = 0; i < sizeof unknown / sizeof *unknown; i++) {
        empty();
        raftlog *log = open_with(folder, unknown[i].text);
        for (int key = 0; key < MANY; key++) CHECK(put_key(log, 'm', key) == 0);
        CHECK(raftlog_close(log) == 0);
        find(&first, &last);
        spill_file(last - 1);
        CHECK(raftlog_open_whole(folder, unknown[i].text, &log, text, sizeof text) == 0);
        CHECK((count_keys(log, 'm', MANY) == MANY) == unknown[i].is_second && raftlog_close(log) == 0);
    }
}

/* The settings name the second folder by a path that is refused: both openings fail alike, and call no file missing. */
static void named_by_refused(void) {
    uint64_t first, last;
    char text[TEXT_ROOM], settings[TEXT_ROOM];
    empty();
    work(SPILLED);
    find(&first, &last);
    spill_file(last - 1);
    for (size_t i = 0; i < sizeof refused / sizeof *refused; i++) {
        raftlog *log = NULL;
        snprintf(settings, sizeof settings, DELETING "spill-dir = \"%s\"\n", refused[i].path);
        CHECK(raftlog_open(folder, settings, &log, text, sizeof text) == refused[i].code && !log);
        CHECK(raftlog_open_whole(folder, settings, &log, text, sizeof text) == refused[i].code && !log && is_noted());
    }
    CHECK(lost_in(SPILLED, NULL) == 0 && is_noted());
}

/* Files in the second folder are the log's. */
static void spill(void) {
    raftlog_lost lost[ROOM];
    uint64_t first, last;
    empty();
    work(SPILLED);
    find(&first, &last);
    spill_file(last - 1);
    CHECK(lost_in(SPILLED, NULL) == 0);
    take_away_spilled(last - 1);
    CHECK(lost_in(SPILLED, lost) == 1 && is_lost(lost, RAFTLOG_FILE_MISSING, last - 1, last - 1));
}

/* Syncs of a rotation and of a purge. */
static void count(void) {
    empty();
    raftlog *log = open_with(folder, DELETING);
    int before = atomic_load(&faults_syncs);
    for (int i = 0; i < 200; i++) CHECK(put_key(log, 'k', i) == 0);
    raftlog_counts counts;
    CHECK(!raftlog_stats(log, &counts, sizeof counts));
    int written = atomic_load(&faults_syncs) - before;
    CHECK(raftlog_must_rewrite_append_queue(log, NULL) == 0);
    raftlog_counts then;
    CHECK(!raftlog_stats(log, &then, sizeof then));
    printf("%d syncs of 200 puts with %llu next files; the purge: %d syncs, %llu deleted\n", written,
           (unsigned long long)counts.next_files, atomic_load(&faults_syncs) - before - written,
           (unsigned long long)then.deleted_files);
    CHECK(raftlog_close(log) == 0);
}

int main(int argc, char **argv) {
    CHECK(argc == 2);
    folder = argv[1];
    int kills = kill_at_each(RECYCLING) + kill_at_each(DELETING) + kill_at_each(SPILLED);
    lose();
    accept_stray();
    accept_beside_spilled();
    is_unknown();
    is_broken();
    is_dropping();
    has_broken_slot();
    spill();
    delete_last();
    note_fails();
    of_another();
    cancelled();
    settings();
    moved_to_unknown();
    named_by_refused();
    count();
    empty();
    printf("ok, killed at %d file calls\n", kills);
    return 0;
}
