/* LevelDB, RocksDB and LMDB by their C interfaces, as far as the machine has them (PEERS, LevelDB
 * and the like are set by the Makefile). Of each the settings are the defaults, but that a write
 * is synced. */
#include "stores.h"

#include <stdio.h>
#include <stdlib.h>
#include <string.h>
#include <sys/stat.h>

/* LevelDB's C interface, and RocksDB's, whose names differ in the first word. */
#define LIKE_LEVELDB(DB)                                                                         \
    struct DB##_log {                                                                            \
        DB##_t *db;                                                                              \
        DB##_writeoptions_t *synced;                                                             \
        DB##_readoptions_t *read;                                                                \
    };                                                                                           \
    static void *DB##_open_at(const char *folder) {                                              \
        char *error = NULL;                                                                      \
        struct DB##_log *log = calloc(1, sizeof *log);                                           \
        DB##_options_t *options = DB##_options_create();                                         \
        DB##_options_set_create_if_missing(options, 1);                                          \
        if (log) log->db = DB##_open(options, folder, &error);                                   \
        DB##_options_destroy(options);                                                           \
        if (!log || error)                                                                       \
            return puts(error ? error : "no memory"), free(error), free(log), NULL;              \
        log->synced = DB##_writeoptions_create();                                                \
        DB##_writeoptions_set_sync(log->synced, 1);                                              \
        log->read = DB##_readoptions_create();                                                   \
        return log;                                                                              \
    }                                                                                            \
    static int DB##_put_one(void *with, uint64_t thread, const uint8_t *key,                     \
                            const uint8_t *value) {                                              \
        struct DB##_log *log = with;                                                             \
        char *error = NULL, whole[8 + KEY];                                                      \
        memcpy(whole, &thread, 8);                                                               \
        memcpy(whole + 8, key, KEY);                                                             \
        DB##_put(log->db, log->synced, whole, sizeof whole, (const char *)value, VALUE, &error); \
        free(error);                                                                             \
        return error != NULL;                                                                    \
    }                                                                                            \
    static int DB##_get_one(void *with, const uint8_t *key) {                                    \
        struct DB##_log *log = with;                                                             \
        char *error = NULL, whole[8 + KEY] = {0};                                                \
        size_t len = 0;                                                                          \
        memcpy(whole + 8, key, KEY);                                                             \
        char *value = DB##_get(log->db, log->read, whole, sizeof whole, &len, &error);           \
        free(value);                                                                             \
        free(error);                                                                             \
        return len != VALUE;                                                                     \
    }                                                                                            \
    static void DB##_close_it(void *with) {                                                      \
        struct DB##_log *log = with;                                                             \
        DB##_readoptions_destroy(log->read);                                                     \
        DB##_writeoptions_destroy(log->synced);                                                  \
        DB##_close(log->db);                                                                     \
        free(log);                                                                               \
    }

#ifdef HAS_LEVELDB
#include <leveldb/c.h>
LIKE_LEVELDB(leveldb)
#endif

#ifdef HAS_ROCKSDB
#include <rocksdb/c.h>
LIKE_LEVELDB(rocksdb)
#endif

#ifdef HAS_LMDB
#include <lmdb.h>

static MDB_dbi keys;

static void *lmdb_open_at(const char *folder) {
    MDB_env *env = NULL;
    MDB_txn *txn = NULL;
    mkdir(folder, 0777);
    if (mdb_env_create(&env) || mdb_env_set_mapsize(env, (size_t)4 << 30)
        || mdb_env_open(env, folder, is_unsynced ? MDB_NOSYNC : 0, 0666))
        return NULL;
    if (mdb_txn_begin(env, NULL, 0, &txn) || mdb_dbi_open(txn, NULL, MDB_CREATE, &keys)
        || mdb_txn_commit(txn))
        return NULL;
    return env;
}

static int lmdb_put_one(void *env, uint64_t thread, const uint8_t *key, const uint8_t *value) {
    uint8_t whole[8 + KEY];
    memcpy(whole, &thread, 8);
    memcpy(whole + 8, key, KEY);
    MDB_val at = {sizeof whole, whole}, put = {VALUE, (void *)value};
    MDB_txn *txn = NULL;
    return mdb_txn_begin(env, NULL, 0, &txn) || mdb_put(txn, keys, &at, &put, 0)
           || mdb_txn_commit(txn);
}

static int lmdb_get_one(void *env, const uint8_t *key) {
    uint8_t whole[8 + KEY] = {0};
    memcpy(whole + 8, key, KEY);
    MDB_val at = {sizeof whole, whole}, found = {0};
    MDB_txn *txn = NULL;
    if (mdb_txn_begin(env, NULL, MDB_RDONLY, &txn)) return 1;
    int failed = mdb_get(txn, keys, &at, &found);
    mdb_txn_abort(txn);
    return failed || found.mv_size != VALUE;
}

static void lmdb_close_it(void *env) { mdb_env_close(env); }
#endif

const struct store peers[] = {
#ifdef HAS_LEVELDB
    {"LevelDB", leveldb_open_at, leveldb_put_one, leveldb_get_one, leveldb_close_it},
#endif
#ifdef HAS_ROCKSDB
    {"RocksDB", rocksdb_open_at, rocksdb_put_one, rocksdb_get_one, rocksdb_close_it},
#endif
#ifdef HAS_LMDB
    {"LMDB", lmdb_open_at, lmdb_put_one, lmdb_get_one, lmdb_close_it},
#endif
    {0}};
