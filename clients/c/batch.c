/* Batches as bytes, and the parts of answers. */
#include "parts.h"

#include <stdlib.h>

/* Its first eight bytes are the number of its items. */
struct raftlog_batch {
    uint8_t *data;
    size_t len, room;
    uint64_t count;
};

static bool take_number(const raftlog_bytes *bytes, size_t *at, uint64_t *number) {
    if (!bytes || *at > bytes->len || bytes->len - *at < 8) return false;
    *number = parts_number(bytes->data + *at);
    *at += 8;
    return true;
}

static bool take_part(const raftlog_bytes *bytes, size_t *at, raftlog_slice *part) {
    uint64_t len;
    if (!take_number(bytes, at, &len) || bytes->len - *at < len) return false;
    part->data = bytes->data + *at;
    part->len = len;
    *at += len;
    return true;
}

bool raftlog_next_entry(const raftlog_bytes *entries, size_t *at, raftlog_entry *entry) {
    raftlog_slice part;
    if (!take_part(entries, at, &part) || part.len < 8) return false;
    entry->index = parts_number(part.data);
    entry->data = part.data + 8;
    entry->len = part.len - 8;
    return true;
}

bool raftlog_next_pair(const raftlog_bytes *pairs, size_t *at, raftlog_slice *key, raftlog_slice *value) {
    return take_part(pairs, at, key) && take_part(pairs, at, value);
}

bool raftlog_next_group(const raftlog_bytes *groups, size_t *at, uint64_t *group) {
    return take_number(groups, at, group);
}

raftlog_batch *raftlog_batch_new(void) { return calloc(1, sizeof(raftlog_batch)); }

void raftlog_batch_free(raftlog_batch *batch) {
    if (batch) free(batch->data);
    free(batch);
}

void raftlog_batch_clear(raftlog_batch *batch) {
    if (batch) batch->len = 0, batch->count = 0;
}

bool raftlog_batch_is_empty(const raftlog_batch *batch) { return !batch || batch->count == 0; }

static bool grow(raftlog_batch *batch, size_t wanted) {
    if (wanted > SIZE_MAX / 2) return false;
    size_t room = batch->room * 2;
    if (room < wanted) room = wanted;
    if (room < 256) room = 256;
    uint8_t *data = realloc(batch->data, room);
    if (!data) return false;
    batch->data = data;
    batch->room = room;
    return true;
}

/* Makes room for an item, and before the first one for the number of them: where the item begins, or NULL. */
static inline uint8_t *reserve(raftlog_batch *batch, size_t more) {
    size_t at = batch->len ? batch->len : 8;
    bool has_room = batch->room > at && batch->room - at >= more;
    if (!has_room && (more > SIZE_MAX / 4 || !grow(batch, at + more))) return NULL;
    return batch->data + at;
}

/* These put something at a place of a batch, and answer the place behind it. */
static uint8_t *put_number(uint8_t *at, uint64_t number) {
    uint64_t bytes = htobe64(number);
    memcpy(at, &bytes, 8);
    return at + 8;
}

static uint8_t *put_bytes(uint8_t *at, const void *bytes, size_t len) {
    if (len) memcpy(at, bytes, len);
    return at + len;
}

static uint8_t *put_part(uint8_t *at, const void *part, size_t len) {
    return put_bytes(put_number(at, len), part, len);
}

static uint8_t *put_head(uint8_t *at, uint8_t kind, uint64_t group) {
    *at = kind;
    return put_number(at + 1, group);
}

/* Takes the item that ends at a place into the batch. */
static int add(raftlog_batch *batch, const uint8_t *end) {
    batch->len = (size_t)(end - batch->data);
    batch->count++;
    return RAFTLOG_OK;
}

int raftlog_batch_put(raftlog_batch *batch, uint64_t group, const void *key, size_t key_len, const void *value,
                      size_t value_len) {
    if (!batch || (!key && key_len) || (!value && value_len)) return RAFTLOG_INVALID;
    if (key_len > SIZE_MAX / 16 || value_len > SIZE_MAX / 16) return RAFTLOG_RANGE;
    uint8_t *at = reserve(batch, 25 + key_len + value_len);
    if (!at) return RAFTLOG_NO_MEMORY;
    at = put_part(put_head(at, 1, group), key, key_len);
    return add(batch, put_part(at, value, value_len));
}

int raftlog_batch_delete(raftlog_batch *batch, uint64_t group, const void *key, size_t key_len) {
    if (!batch || (!key && key_len)) return RAFTLOG_INVALID;
    if (key_len > SIZE_MAX / 16) return RAFTLOG_RANGE;
    uint8_t *at = reserve(batch, 17 + key_len);
    if (!at) return RAFTLOG_NO_MEMORY;
    return add(batch, put_part(put_head(at, 2, group), key, key_len));
}

int raftlog_batch_entries(raftlog_batch *batch, uint64_t group, const raftlog_entry *entries, size_t count) {
    size_t size = 17;
    if (!batch || (!entries && count)) return RAFTLOG_INVALID;
    if (!count) return RAFTLOG_OK;
    for (size_t i = 0; i < count; i++) {
        if (!entries[i].data && entries[i].len) return RAFTLOG_INVALID;
        if (entries[i].len > SIZE_MAX / 16 || size > SIZE_MAX / 16) return RAFTLOG_RANGE;
        size += 16 + entries[i].len;
    }
    uint8_t *at = reserve(batch, size);
    if (!at) return RAFTLOG_NO_MEMORY;
    at = put_number(put_head(at, 3, group), count);
    for (size_t i = 0; i < count; i++) {
        at = put_number(put_number(at, 8 + entries[i].len), entries[i].index);
        at = put_bytes(at, entries[i].data, entries[i].len);
    }
    return add(batch, at);
}

int raftlog_batch_clean(raftlog_batch *batch, uint64_t group) {
    if (!batch) return RAFTLOG_INVALID;
    uint8_t *at = reserve(batch, 9);
    return at ? add(batch, put_head(at, 4, group)) : RAFTLOG_NO_MEMORY;
}

int raftlog_batch_compact(raftlog_batch *batch, uint64_t group, uint64_t index) {
    if (!batch) return RAFTLOG_INVALID;
    uint8_t *at = reserve(batch, 17);
    return at ? add(batch, put_number(put_head(at, 5, group), index)) : RAFTLOG_NO_MEMORY;
}

/* All its bytes, which begin with the number of its items. */
static raftlog_slice whole(raftlog_batch *batch) {
    static const uint8_t empty[8];
    uint64_t count = htobe64(batch->count);
    if (batch->len) memcpy(batch->data, &count, 8);
    return batch->len ? (raftlog_slice){batch->data, batch->len} : (raftlog_slice){empty, sizeof empty};
}

static int written(raftlog_batch *batch, int code) {
    if (code == RAFTLOG_OK) raftlog_batch_clear(batch);
    return code;
}

int raftlog_write(raftlog *log, raftlog_batch *batch, bool sync) {
    if (!batch) return RAFTLOG_INVALID;
    raftlog_slice bytes = whole(batch);
    return written(batch, raftlog_write_bytes(log, bytes.data, bytes.len, sync));
}

int raftlog_write_once(raftlog *log, raftlog_batch *batch, const uint64_t *groups, const uint64_t *numbers, size_t count,
                       bool sync) {
    if (!batch) return RAFTLOG_INVALID;
    raftlog_slice bytes = whole(batch);
    return written(batch, raftlog_write_once_bytes(log, bytes.data, bytes.len, groups, numbers, count, sync));
}
