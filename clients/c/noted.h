/* What the tests of a log's note share: a folder, work that begins and deletes files, and what an opening reports. */
#ifndef NOTED_H
#define NOTED_H

#include "keys.h"

#include <unistd.h>

#define RECYCLING SMALL_FILES
#define DELETING SMALL_FILES "enable-log-recycle = false\n"
#define SPILLED SMALL_FILES "spill-dir = \"spill\"\n"

enum { MANY = 40, FEW = 12, ROOM = 8 };

static const char *folder;

static inline void empty(void) { run("rm -rf '%s' && mkdir '%s'", folder, folder); }

/* Rotations, purges of both queues and closes, in two openings, each of which writes so many keys. */
static inline void work_with(const char *settings, int keys) {
    for (int part = 0; part < 2; part++) {
        raftlog *log = open_with(folder, settings);
        for (int i = 0; i < keys / 2; i++) CHECK(put_key(log, 'k', part * keys / 2 + i) == 0);
        CHECK(raftlog_must_rewrite_append_queue(log, NULL) == 0);
        CHECK(raftlog_must_rewrite_rewrite_queue(log, NULL) == 0);
        for (int i = 0; i < keys / 2; i++) CHECK(put_key(log, 'l', i) == 0);
        CHECK(raftlog_close(log) == 0);
    }
}

static inline void work(const char *settings) { work_with(settings, MANY); }

static inline size_t lost_in(const char *settings, raftlog_lost *lost) {
    raftlog *log = open_with(folder, settings);
    size_t count = raftlog_missing(log, lost, ROOM, sizeof *lost);
    CHECK(raftlog_close(log) == 0);
    return count;
}

static inline void name_of(char name[TEXT_ROOM], uint64_t number) {
    snprintf(name, TEXT_ROOM, "%s/%016llu.raftlog", folder, (unsigned long long)number);
}

static inline bool has_file(uint64_t number) {
    char name[TEXT_ROOM];
    name_of(name, number);
    return !access(name, F_OK);
}

static inline void take_away(uint64_t number) {
    char name[TEXT_ROOM];
    name_of(name, number);
    CHECK(!unlink(name));
}

/* The numbers of the Append queue's files. */
static inline void find(uint64_t *first, uint64_t *last) {
    for (*first = 1; !has_file(*first);) ++*first;
    for (*last = *first; has_file(*last + 1);) ++*last;
}

static inline bool is_lost(const raftlog_lost *lost, int kind, uint64_t first, uint64_t last) {
    return lost->kind == kind && !lost->is_rewrite && lost->first == first && lost->last == last;
}

/* Whether the folder has a note. */
static inline bool is_noted(void) {
    char name[TEXT_ROOM];
    snprintf(name, sizeof name, "%s/SPANS", folder);
    return !access(name, F_OK);
}

#endif
