/* What tests of folders and processes share: keys of a name and a number, with values of 1000 bytes, in small files. */
#include "raftlog.h"

#include <stdio.h>
#include <stdlib.h>
#include <string.h>

#define CHECK(what) do { if (!(what)) { printf("%s:%d: %s\n", __FILE__, __LINE__, #what); exit(1); } } while (0)

#define SMALL_FILES "target-file-size = \"4KB\"\npurge-threshold = \"64KB\"\n"

enum { TEXT_ROOM = 600, VALUE = 1000 };

static inline raftlog *open_with(const char *folder, const char *settings) {
    char text[TEXT_ROOM];
    raftlog *log;
    int code = raftlog_open(folder, settings, &log, text, sizeof text);
    if (code) printf("%s: %d %s\n", folder, code, text);
    CHECK(code == 0 && log);
    return log;
}

static inline void fill(char *value, int number) {
    for (int i = 0; i < VALUE; i++) value[i] = (char)('a' + (number + i) % 26);
}

/* A write of one key, with a sync. */
static inline int put_key(raftlog *log, char name, int number) {
    char key[20], value[VALUE];
    raftlog_batch *batch = raftlog_batch_new();
    CHECK(batch);
    fill(value, number);
    int len = snprintf(key, sizeof key, "%c%d", name, number);
    CHECK(!raftlog_batch_put(batch, 1, key, (size_t)len, value, VALUE));
    int code = raftlog_write(log, batch, true);
    raftlog_batch_free(batch);
    return code;
}

/* How many keys of the numbers below a count are there, each with its own value. */
static inline int count_keys(raftlog *log, char name, int count) {
    char key[20], value[VALUE];
    raftlog_bytes found = {0};
    int right = 0;
    for (int number = 0; number < count; number++) {
        int len = snprintf(key, sizeof key, "%c%d", name, number);
        fill(value, number);
        if (raftlog_get(log, 1, key, (size_t)len, &found)) continue;
        CHECK(found.len == VALUE && !memcmp(found.data, value, VALUE));
        right++;
    }
    raftlog_bytes_free(&found);
    return right;
}

/* The same of the log in a folder, which nobody has open. */
static inline int count_in(const char *folder, const char *settings, char name, int count) {
    raftlog *log = open_with(folder, settings);
    int right = count_keys(log, name, count);
    CHECK(raftlog_close(log) == 0);
    return right;
}

/* Whether the last failure's text has this part. */
static inline bool says(raftlog *log, const char *part) {
    char text[TEXT_ROOM];
    raftlog_message(log, text, sizeof text);
    bool has = strstr(text, part);
    if (!has) printf("\"%s\" isn't in: %s\n", part, text);
    return has;
}

static inline void run(const char *format, const char *one, const char *other) {
    char command[TEXT_ROOM];
    snprintf(command, sizeof command, format, one, other);
    CHECK(system(command) == 0);
}
