/* What `bench_threads` needs of a store, by many threads. */
#ifndef STORES_H
#define STORES_H

#include <stdbool.h>
#include <stddef.h>
#include <stdint.h>

struct store {
    const char *name;
    /* Opens it in a folder; NULL where it can't. */
    void *(*open)(const char *folder);
    /* Puts a value at a key of a thread's own, with a sync: 0 where that was done. */
    int (*put)(void *log, uint64_t thread, const uint8_t *key, const uint8_t *value);
    /* Finds the value at a key of thread 0: 0 where it is there. */
    int (*get)(void *log, const uint8_t *key);
    void (*close)(void *log);
};

enum { KEY = 16, VALUE = 100 };

/* No sync takes any time. */
extern bool is_unsynced;

/* The peers that this machine has, ended by one without a name. */
extern const struct store peers[];

#endif
