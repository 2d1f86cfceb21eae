/* Losses that the note of a log's file numbers reports: `lost FOLDER`. Files that someone takes away, or puts there, are
 * reported by each later opening until that is accepted, also after notes that were refused, and if the note is stale. */
#include "faults.h"
#include "noted.h"
#include "parts.h"

#include <sys/wait.h>

/* What was missing at an earlier opening is reported by later ones, until it is accepted. */
static void is_remembered(void) {
    raftlog_lost lost[ROOM];
    char text[TEXT_ROOM];
    raftlog *log;
    for (int opening = 0; opening < 2; opening++) {
        CHECK(lost_in(DELETING, lost) >= 1 && lost->kind == RAFTLOG_LOST_BEFORE && !lost->is_rewrite);
        work(DELETING);
    }
    CHECK(raftlog_open_whole(folder, DELETING, &log, text, sizeof text) == RAFTLOG_LOST && !log);
    CHECK(strstr(text, "missing at an earlier opening"));
    CHECK(raftlog_accept_missing(folder, text, sizeof text) == 0 && lost_in(DELETING, NULL) == 0);
}

/* A file with a greater number is put there; and a purge drops what was missing. */
static void stray(void) {
    raftlog_lost lost[ROOM];
    uint64_t first, last;
    char name[TEXT_ROOM], other[TEXT_ROOM];
    empty();
    work(DELETING);
    find(&first, &last);
    name_of(name, first);
    name_of(other, last + 5);
    run("cp '%s' '%s'", name, other);
    CHECK(lost_in(DELETING, lost) == 1 && is_lost(lost, RAFTLOG_FILE_STRAY, last + 5, last + 5));
    CHECK(!unlink(other));
    take_away(first);
    raftlog *log = open_with(folder, DELETING);
    CHECK(raftlog_missing(log, lost, ROOM, sizeof *lost) == 1 && is_lost(lost, RAFTLOG_FILE_MISSING, first, first));
    CHECK(raftlog_must_rewrite_append_queue(log, NULL) == 0 && raftlog_close(log) == 0);
    is_remembered();
}

/* A missing file is put back: nothing is lost. A next file gets its number, also if all were gone: that isn't forgotten. */
static void put_back(void) {
    raftlog_lost lost[ROOM];
    uint64_t first, last;
    char name[TEXT_ROOM], kept[TEXT_ROOM];
    snprintf(kept, sizeof kept, "%s.kept", folder);
    for (int is_all = 0; is_all < 2; is_all++) {
        empty();
        work(DELETING);
        find(&first, &last);
        name_of(name, last);
        CHECK(!rename(name, kept));
        CHECK(lost_in(DELETING, lost) == 1 && is_lost(lost, RAFTLOG_FILE_MISSING, last, last));
        CHECK(!rename(kept, name));
        CHECK(lost_in(DELETING, NULL) == 0);
        for (uint64_t number = is_all ? first : last; number <= last; number++) take_away(number);
        raftlog *log = open_with(folder, DELETING);
        CHECK(raftlog_missing(log, lost, ROOM, sizeof *lost) == 1 && lost->kind == RAFTLOG_FILE_MISSING);
        for (int i = 0; i < MANY; i++) CHECK(put_key(log, 'k', i) == 0);
        CHECK(raftlog_close(log) == 0);
        is_remembered();
    }
}

/* Another program makes files and deletes others: the note is stale, and the opening writes one. */
static void is_stale(void) {
    raftlog_lost lost[ROOM];
    empty();
    work(DELETING);
    run("cp '%s/SPANS' '%s.spans'", folder, folder);
    work(DELETING);
    run("mv '%s.spans' '%s/SPANS'", folder, folder);
    CHECK(lost_in(DELETING, lost) >= 1 && lost[0].kind == RAFTLOG_NOTE_STALE);
    CHECK(lost_in(DELETING, NULL) == 0);

    /* A stale note remembers what was missing. */
    uint64_t first, last;
    empty();
    work(DELETING);
    find(&first, &last);
    take_away(first);
    raftlog *log = open_with(folder, DELETING);
    CHECK(raftlog_must_rewrite_append_queue(log, NULL) == 0 && raftlog_close(log) == 0);
    run("cp '%s/SPANS' '%s.spans'", folder, folder);
    work(DELETING);
    run("mv '%s.spans' '%s/SPANS'", folder, folder);
    CHECK(lost_in(DELETING, lost) >= 2 && lost[0].kind == RAFTLOG_LOST_BEFORE && lost[1].kind == RAFTLOG_NOTE_STALE);
    is_remembered();
}

/* This file call fails while a next file gets a missing one's number, if it comes: the loss is remembered, or no note is. */
static bool is_lost_at(int call) {
    raftlog_lost lost[ROOM];
    uint64_t first, last;
    int code = 0;
    empty();
    work_with(DELETING, FEW);
    find(&first, &last);
    take_away(last);
    raftlog *log = open_with(folder, DELETING);
    atomic_store(&faults_left, call);
    for (int i = 0; i < FEW && !code; i++) code = put_key(log, 'k', i);
    bool is_reached = !atomic_load(&faults_left);
    atomic_store(&faults_left, 0);
    raftlog_close(log);
    if (!is_noted()) return is_reached;
    CHECK(lost_in(DELETING, lost) && (lost->kind == RAFTLOG_LOST_BEFORE || (code && lost->kind == RAFTLOG_FILE_MISSING)));
    return is_reached;
}

/* So many notes are refused while a next file gets a missing one's number, or a purge passes it. The process ends after
 * the next sync, without a close. */
static void work_with_refused(int refused, bool is_purge, bool *is_reached) {
    raftlog_lost lost[ROOM];
    raftlog *log = open_with(folder, DELETING);
    CHECK(raftlog_missing(log, lost, ROOM, sizeof *lost) == 1 && lost->kind == RAFTLOG_FILE_MISSING);
    atomic_store(&faults_notes, refused);
    if (is_purge) CHECK(raftlog_must_rewrite_append_queue(log, NULL) == 0);
    for (int i = 0; i < FEW; i++) CHECK(put_key(log, 'k', i) == 0);
    *is_reached = !atomic_load(&faults_notes);
    atomic_store(&faults_notes, 0);
    CHECK(put_key(log, 'k', FEW) == 0);
}

static bool is_kept_after(int refused, bool is_purge) {
    raftlog_lost lost[ROOM];
    uint64_t first, last;
    int status;
    empty();
    work_with(DELETING, FEW);
    find(&first, &last);
    take_away(is_purge ? first : last);
    fflush(stdout);
    pid_t child = fork();
    CHECK(child >= 0);
    if (!child) {
        bool is_reached;
        work_with_refused(refused, is_purge, &is_reached);
        fflush(stdout);
        _exit(is_reached ? 0 : 2);
    }
    CHECK(waitpid(child, &status, 0) == child && WIFEXITED(status) && WEXITSTATUS(status) != 1);
    CHECK(is_noted() && lost_in(DELETING, lost) >= 1 && lost->kind == RAFTLOG_LOST_BEFORE);
    return !WEXITSTATUS(status);
}

/* A note is refused before a file is deleted, and then the process ends: the note before stays, which reports the loss. */
static void is_kept_without_a_note(void) {
    raftlog_lost lost[ROOM];
    uint64_t first, last;
    int status;
    empty();
    work(DELETING);
    find(&first, &last);
    CHECK(last > first + 1);
    take_away(last);
    fflush(stdout);
    pid_t child = fork();
    CHECK(child >= 0);
    if (!child) {
        char path[TEXT_ROOM];
        raftlog *log = open_with(folder, DELETING);
        atomic_store(&faults_notes, 1);
        snprintf(path, sizeof path, "%016llu.raftlog", (unsigned long long)first);
        CHECK(parts_leave_span(log, path) == 0 && !atomic_load(&faults_notes));
        take_away(first);
        fflush(stdout);
        _exit(0);
    }
    CHECK(waitpid(child, &status, 0) == child && status == 0);
    CHECK(is_noted() && lost_in(DELETING, lost) == 2 && is_lost(lost, RAFTLOG_FILE_MISSING, first, first));
    CHECK(is_lost(lost + 1, RAFTLOG_FILE_MISSING, last, last));
}

/* The oldest file of a queue is taken away, and a purge passes it: the loss is marked. */
static void mark(const char *end) {
    char command[TEXT_ROOM];
    snprintf(command, sizeof command, "rm \"$(ls '%s'/*.%s | head -n 1)\"", folder, end);
    CHECK(system(command) == 0);
    raftlog *log = open_with(folder, DELETING);
    CHECK(raftlog_missing(log, NULL, 0, 0) == 1);
    CHECK(raftlog_must_rewrite_append_queue(log, NULL) == 0 && raftlog_must_rewrite_rewrite_queue(log, NULL) == 0);
    CHECK(raftlog_close(log) == 0);
}

/* Another program makes the note of a marked loss stale, and leaves a gap of the numbers: the loss is remembered. */
static void is_marked_over_gap(const char *end) {
    raftlog_lost lost[ROOM];
    uint64_t first, last;
    empty();
    work(DELETING);
    mark(end);
    run("cp '%s/SPANS' '%s.spans'", folder, folder);
    work(DELETING);
    run("mv '%s.spans' '%s/SPANS'", folder, folder);
    find(&first, &last);
    CHECK(last > first + 2);
    take_away(last - 1);
    for (int opening = 0; opening < 3; opening++) {
        raftlog *log = open_with(folder, DELETING);
        size_t count = raftlog_missing(log, lost, ROOM, sizeof *lost), marks = 0;
        for (size_t i = 0; i < count; i++)
            marks += lost[i].kind == RAFTLOG_LOST_BEFORE && lost[i].is_rewrite == !strcmp(end, "rewrite");
        CHECK(marks == 1);
        for (int i = 0; i < FEW; i++) CHECK(put_key(log, 'k', i) == 0);
        CHECK(raftlog_close(log) == 0 && is_noted());
    }
    char text[TEXT_ROOM];
    CHECK(raftlog_accept_missing(folder, text, sizeof text) == 0 && lost_in(DELETING, NULL) == 0);
}

int main(int argc, char **argv) {
    CHECK(argc == 2);
    folder = argv[1];
    stray();
    put_back();
    is_stale();
    is_kept_without_a_note();
    is_marked_over_gap("raftlog");
    is_marked_over_gap("rewrite");
    int calls = 1, refused = 0;
    while (is_lost_at(calls)) calls++;
    for (int is_purge = 0; is_purge < 2; is_purge++)
        for (int notes = 1; is_kept_after(notes, is_purge); notes++) refused++;
    empty();
    printf("ok, %d file calls failed, and %d times notes were refused\n", calls - 1, refused);
    return 0;
}
