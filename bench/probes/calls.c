/* calls FOLDER put|synced|get COUNT: so many calls of one kind through C, after 1,000 puts. bench/c-calls counts their instructions. */
#include <raftlog.h>
#include <stdint.h>
#include <stdio.h>
#include <stdlib.h>

enum { KEYS = 1000, VALUE = 100 };

static int put(raftlog *log, raftlog_batch *batch, uint64_t key, bool sync) {
    static uint8_t value[VALUE] = {1};
    raftlog_batch_put(batch, 1, &key, sizeof key, value, VALUE);
    return raftlog_write(log, batch, sync);
}

int main(int argc, char **argv) {
    char text[300];
    raftlog *log;
    raftlog_bytes bytes = {0};
    if (argc != 4 || raftlog_open(argv[1], NULL, &log, text, sizeof text)) return 2;
    raftlog_batch *batch = raftlog_batch_new();
    uint64_t count = strtoull(argv[3], NULL, 10);
    int code = 0;
    for (uint64_t i = 0; !code && i < KEYS; i++) code = put(log, batch, i, false);
    if (!code) code = raftlog_sync(log);
    for (uint64_t i = 0; !code && i < count; i++) {
        uint64_t key = i % KEYS;
        if (*argv[2] == 'g') code = raftlog_get(log, 1, &key, sizeof key, &bytes);
        else code = put(log, batch, key, *argv[2] == 's');
    }
    /* A close isn't counted. */
    _Exit(code);
}
