/* Rounds: changes that wait are carried out together, by the first of the threads that wait, which
 * leads. A change is put in the queue by one exchange, and links to the one before it; a leader
 * links them the other way round, as far as they have come. */
#include "parts.h"

#include <errno.h>
#include <limits.h>
#include <linux/futex.h>
#include <stdlib.h>
#include <sys/syscall.h>
#include <unistd.h>

/* Bytes that a purge of the Append queue moves before it lets reads in; less in tests. */
#ifndef ROUNDS_MOVED
#define ROUNDS_MOVED RAFTLOG_MOVED_BYTES
#endif

/* Room for the orders of a change besides the bytes of its batch: a record's ends, and those of a next file. */
enum { ORDERS_BESIDE = 1 << 15 };

enum { WAITS, LEADS, IS_ANSWERED };

/* Whoever comes behind this finds a closed log. */
static struct parts_change closed;
static const char closed_text[] = "the log is closed";

/* The caller of a change that was answered may be gone, and a log that no read is in any more
 * freed. So a wake-up may go to an address that is another's by then, who looks again, as each one
 * who waits at an address has to; it reads nothing there. */
static void wake(void *at, int count) { syscall(SYS_futex, at, FUTEX_WAKE_PRIVATE, count, NULL); }

static void sleep_while(void *at, int value) {
    syscall(SYS_futex, at, FUTEX_WAIT_PRIVATE, value, NULL);
}

/* The half of a number that changes with each one, for those who wait for the next. */
static void *low_half(_Atomic uint64_t *number) {
    return (uint32_t *)number + (htobe64(1) == 1);
}

static void tell(struct parts_change *change, int state) {
    atomic_store_explicit(&change->state, state, memory_order_release);
    wake(&change->state, 1);
}

static int await(struct parts_change *change) {
    int state;
    while ((state = atomic_load_explicit(&change->state, memory_order_acquire)) == WAITS)
        sleep_while(&change->state, WAITS);
    return state;
}

/* ---- the groups that a change changes */

static void touch(raftlog *log, uint64_t group) { *parts_touched(log, group) = log->handed; }

/* Passes over as many parts with their lengths before them. */
static bool pass_parts(const uint8_t **at, size_t *left, uint64_t count) {
    for (; count; count--) {
        if (*left < 8) return false;
        uint64_t len = parts_number(*at);
        if (*left - 8 < len) return false;
        *at += 8 + len;
        *left -= 8 + len;
    }
    return true;
}

/* The groups of a batch, whose bytes may be anything: what is no batch is refused. */
static void touch_batch(raftlog *log, const uint8_t *at, size_t left) {
    if (left < 8) return;
    uint64_t count = parts_number(at);
    for (at += 8, left -= 8; count && left >= 9; count--) {
        uint8_t kind = *at;
        touch(log, parts_number(at + 1));
        if (count == 1) return;
        at += 9, left -= 9;
        uint64_t parts = kind == 1 ? 2 : kind == 2 ? 1 : 0;
        if (kind == 3 || kind == 5) {
            if (left < 8) return;
            if (kind == 3) parts = parts_number(at);
            at += 8, left -= 8;
        }
        if (!pass_parts(&at, &left, parts)) return;
    }
}

static void touch_all(raftlog *log, const struct parts_change *change) {
    if (change->kind == PARTS_COMPACT_TO) touch(log, change->group);
    if (!parts_is_batch(change)) return;
    touch_batch(log, change->bytes, change->len);
    const struct parts_numbers *once = change->once;
    for (size_t i = 0; once && i < once->count; i++) touch(log, once->groups[i]);
}

/* ---- who is of a round */

struct round {
    struct parts_change *first, *last;
    size_t changes, bytes; /* of batches */
    size_t batches;        /* that are done */
    size_t synced;         /* changes that asked for a sync and are done */
};

static struct parts_change *after(const struct round *round, const struct parts_change *change) {
    return change == round->last ? NULL : change->newer;
}

/* Links those from the newest one back to one that stands. */
static void link_newer(struct parts_change *newest, const struct parts_change *back_to) {
    for (; newest != back_to && newest->older->newer != newest; newest = newest->older)
        newest->older->newer = newest;
}

static bool is_alone(const struct parts_change *change) {
    return change->kind >= PARTS_REWRITE_APPEND;
}

static size_t size_of(const struct parts_change *change) {
    return parts_is_batch(change) ? change->len : 0;
}

/* Takes as many of those that wait behind the round as it has room for: whether there was one. */
static bool take_more(raftlog *log, struct round *round) {
    struct parts_change *newest = atomic_load(&log->newest), *last = round->last;
    link_newer(newest, last);
    while (round->last != newest && !is_alone(round->first) && !is_alone(round->last->newer)
           && round->changes < RAFTLOG_ROUND_CHANGES
           && round->bytes + size_of(round->last->newer) <= RAFTLOG_ROUND_BYTES) {
        round->last = round->last->newer;
        round->bytes += size_of(round->last);
        round->changes++;
    }
    return round->last != last;
}

/* ---- a round */

static void write_once(raft_c_handle *handle, const struct parts_change *change, bool sync) {
    static const uint64_t no_number[1];
    const struct parts_numbers *once = change->once;
    const uint64_t *groups = once->count ? once->groups : no_number;
    const uint64_t *numbers = once->count ? once->numbers : no_number;
    raft_c_write_once(handle, change->bytes, change->len, groups, once->count, numbers, once->count,
                      sync);
}

static void call(raft_c_handle *handle, const struct parts_change *change, bool sync) {
    switch (change->kind) {
    case PARTS_WRITE: raft_c_write(handle, change->bytes, change->len, sync); break;
    case PARTS_WRITE_ONCE: write_once(handle, change, sync); break;
    case PARTS_SYNC: raft_c_sync(handle); break;
    case PARTS_COMPACT_TO: raft_c_compact_to(handle, change->group, change->index); break;
    case PARTS_REWRITE_APPEND: raft_c_must_rewrite_append_queue(handle); break;
    case PARTS_REWRITE_GROUPS:
        raft_c_must_rewrite_append_groups(handle, change->watermark, change->from, change->budget);
        break;
    case PARTS_REWRITE_REWRITE: raft_c_must_rewrite_rewrite_queue(handle); break;
    case PARTS_RENEW_GROUPS:
        raft_c_must_rewrite_rewrite_groups(handle, change->from, change->budget);
        break;
    case PARTS_PURGE_STALE: raft_c_must_purge_all_stale(handle); break;
    /* No file is kept for anybody. */
    case PARTS_PURGE_EXPIRED: raft_c_purge_expired_files(handle, UINT64_MAX); break;
    case PARTS_CLOSE: raft_c_close(handle); break;
    }
}

/* A purge reads the entries of one group after the other, which stand far apart: what the system
 * would read around each of them is many times as much. Answers how reads were expected before. */
static bool begin_purge(raftlog *log) {
    bool was_random = log->heap.at_random;
    heap_expect_reads(&log->heap, true);
    log->obeys_ahead = true;
    return was_random;
}

static void end_purge(raftlog *log, bool was_random) {
    log->obeys_ahead = false;
    heap_expect_reads(&log->heap, was_random);
}

static const char *why(const struct parts_change *change) {
    return change->text ? change->text : raftlog_code_text(change->code);
}

/* Hands a change to the proved part, and takes its answer, which the next call writes over: what
 * the log has done, if the round's orders are carried out. */
static void hand_over(raftlog *log, struct parts_change *change, bool sync) {
    pthread_mutex_lock(&log->lock);
    log->handed = atomic_load_explicit(&log->done, memory_order_relaxed) + 1;
    /* In memory no read waits for a disk. */
    if (log->folder) touch_all(log, change);
    parts_enter(log);
    bool is_purge = parts_is_purge(change), was_random = is_purge && begin_purge(log);
    call(&log->handle, change, sync);
    if (is_purge) end_purge(log, was_random);
    change->code = raft_c_settle(&log->handle, true);
    parts_leave();
    if (change->code) {
        change->text = parts_answered_text(log);
        /* An order that can't be given fails the round. Who reads then finds why, under the lock. */
        if (change->code == RAFTLOG_IO) parts_break(log, why(change));
    } else if (change->kind == PARTS_PURGE_EXPIRED) {
        uint64_t len = raft_c_answer(&log->handle, change->answer->data, change->answer->room);
        if (!parts_take_answer(log, change->answer, len)) change->code = RAFTLOG_NO_MEMORY;
    } else if (change->kind >= PARTS_COMPACT_TO) {
        raft_c_numbers(&log->handle, &change->found, &change->found_too);
    }
    pthread_mutex_unlock(&log->lock);
}

/* Makes the reserve, and room for the change's orders and its round's sync, before anything is done, or refuses the change. A
 * purge gives its orders in parts, and makes its own room. */
static inline bool has_room_for(raftlog *log, struct parts_change *change) {
    if (change->kind == PARTS_CLOSE) return true;
    bool gives_parts = !log->folder || parts_is_purge(change);
    bool has_room = heap_make_reserve(&log->heap)
                    && (gives_parts || parts_make_order_room(log, size_of(change) + ORDERS_BESIDE));
    if (!has_room) change->code = RAFTLOG_NO_MEMORY;
    return has_room;
}

static void fail(struct parts_change *change, int code, const char *text) {
    free(change->text);
    change->code = code;
    change->text = text ? strdup(text) : NULL;
}

/* What the round changed in memory is given up with the log, and so are its refusals, which spoke
 * of it: nobody was answered. */
static void give_up(raftlog *log, struct round *round) {
    round->batches = round->synced = 0;
    pthread_mutex_lock(&log->lock);
    raft_c_settle(&log->handle, false);
    pthread_mutex_unlock(&log->lock);
    atomic_store(&log->lost, log->handed);
    for (struct parts_change *at = round->first; at; at = after(round, at))
        fail(at, RAFTLOG_IO, log->broken);
}

/* One sync for all of the round: false where it is refused, which fails the log. */
static bool sync_round(raftlog *log) {
    struct parts_change sync = {.kind = PARTS_SYNC, .sync = true};
    hand_over(log, &sync, true);
    if (sync.code) parts_break(log, why(&sync));
    free(sync.text);
    return !sync.code;
}

static inline void note_done(struct round *round, const struct parts_change *change) {
    round->batches += parts_is_batch(change) && !change->code;
    round->synced += change->sync && !change->code;
}

/* A round of several: all of them have their answers then. Those that were answered last come back
 * while it is handed over: its sync is for them too. */
static void carry_out_many(raftlog *log, struct round *round) {
    for (struct parts_change *at = round->first;; at = at->newer) {
        /* A sync is the round's own. */
        if (has_room_for(log, at) && at->kind != PARTS_SYNC) hand_over(log, at, false);
        note_done(round, at);
        if (at == round->last && !(round->synced && take_more(log, round))) break;
    }
    bool is_synced = !round->synced || sync_round(log);
    if (!is_synced || parts_obey(log)) give_up(log, round);
}

/* Hands a change over that is a round of its own, and carries its orders out: false where one fails,
 * which fails the log. */
static bool carry_out_one(raftlog *log, struct parts_change *change) {
    if (!has_room_for(log, change)) return true;
    hand_over(log, change, change->sync);
    if (parts_obey(log)) return false;
    if (parts_is_purge(change)) heap_catch_up(&log->heap, &log->behind);
    return true;
}

static void count_purge(struct parts_counts *counts, uint64_t ns) {
    parts_add(&counts->purges, 1);
    parts_add(&counts->purge_ns, ns);
    parts_raise(&counts->longest_purge_ns, ns);
}

/* What a purge of the Append queue moves is moved in short calls before it, so that reads come between
 * them: the purge itself finds little. It ends where one is refused. */
static bool move_ahead(raftlog *log, struct parts_change *purge) {
    struct parts_change some = {.found = 0, .found_too = UINT64_MAX};
    bool is_done;
    do {
        uint64_t from = some.found, watermark = some.found_too;
        some = (struct parts_change){.kind = PARTS_REWRITE_GROUPS,
                                     .watermark = watermark,
                                     .from = from,
                                     .budget = ROUNDS_MOVED};
        is_done = carry_out_one(log, &some);
    } while (is_done && !some.code && some.found);
    purge->code = some.code;
    purge->text = some.text;
    return is_done;
}

static bool carry_out_purge(raftlog *log, struct parts_change *purge) {
    uint64_t began = parts_now_ns();
    bool is_done = purge->kind != PARTS_REWRITE_APPEND || move_ahead(log, purge);
    if (is_done && !purge->code) is_done = carry_out_one(log, purge);
    count_purge(&log->counts, parts_now_ns() - began);
    return is_done;
}

static inline void carry_out(raftlog *log, struct round *round) {
    struct parts_change *first = round->first;
    if (*log->broken) {
        for (struct parts_change *at = first; at; at = after(round, at))
            fail(at, RAFTLOG_FAILED, log->broken);
    } else if (!first->older || is_alone(first)) {
        bool is_done = parts_is_purge(first) ? carry_out_purge(log, first) : carry_out_one(log, first);
        note_done(round, first);
        if (!is_done) give_up(log, round);
    } else {
        carry_out_many(log, round);
    }
}

static inline void count(raftlog *log, const struct round *round) {
    struct parts_counts *counts = &log->counts;
    parts_add(&counts->changes, round->changes);
    if (round->batches) parts_add(&counts->batches, round->batches);
    if (round->synced) parts_add(&counts->synced_changes, round->synced);
    uint64_t largest = atomic_load_explicit(&counts->largest_round, memory_order_relaxed);
    if (largest < round->changes) parts_add(&counts->largest_round, round->changes - largest);
}

/* ---- the queue */

/* The change before this one, NULL where nobody leads, or that of a closed log. */
static struct parts_change *put_in_queue(raftlog *log, struct parts_change *mine) {
    struct parts_change *newest = atomic_load_explicit(&log->newest, memory_order_relaxed);
    do {
        if (newest == &closed) return &closed;
        mine->older = newest;
    } while (!atomic_compare_exchange_weak(&log->newest, &newest, mine));
    return mine->older;
}

/* Those of all logs that wait until a round is over. */
static atomic_int waiting_reads;

/* Wakes the reads that wait for a round of this number, after it was counted and the lead was given
 * up, which on x86-64 is a fence between the two. The log may be freed by now, if no read waits. */
static void wake_reads(_Atomic uint64_t *done) {
#ifndef __x86_64__
    atomic_thread_fence(memory_order_seq_cst);
#endif
    if (atomic_load(&waiting_reads)) wake(low_half(done), INT_MAX);
}

/* The change that leads next, or NULL where none waits. The leader looks at the log no more. */
static struct parts_change *next_leader(raftlog *log, struct parts_change *last) {
    struct parts_change *newest = last;
    if (atomic_compare_exchange_strong(&log->newest, &newest, NULL)) return NULL;
    link_newer(newest, last);
    return last->newer;
}

static void answer(const struct round *round) {
    struct parts_change *next;
    for (struct parts_change *at = after(round, round->first); at; at = next) {
        next = after(round, at);
        tell(at, IS_ANSWERED);
    }
}

/* Leads a round, whose first change is this thread's own. Who is answered may come back before the
 * next leader wakes, and be of its round: so that one is told last. */
static void lead(raftlog *log, struct parts_change *mine) {
    struct round round = {mine, mine, 1, size_of(mine), 0, 0};
    /* If nobody led when it came, it is the only one. */
    if (mine->older) take_more(log, &round);
    carry_out(log, &round);
    count(log, &round);
    parts_add(&log->done, 1);
    struct parts_change *next = next_leader(log, round.last);
    wake_reads(&log->done);
    answer(&round);
    if (next) tell(next, LEADS);
}

/* Waits for the lead: false where another leader answered. */
static inline bool comes_to_lead(raftlog *log, struct parts_change *mine) {
    struct parts_change *older = put_in_queue(log, mine);
    if (older == &closed) return fail(mine, RAFTLOG_FAILED, closed_text), false;
    return !older || await(mine) == LEADS;
}

/* A thread that is cancelled ends here, before its change is in the queue, or after its call: nobody else could go on with
 * a round whose leader has ended. */
int parts_take_turn(raftlog *log, struct parts_change *mine) {
    if (parts_is_forked(log)) return fail(mine, RAFTLOG_FAILED, parts_forked_text), mine->code;
    int was;
    pthread_testcancel();
    pthread_setcancelstate(PTHREAD_CANCEL_DISABLE, &was);
    if (comes_to_lead(log, mine)) lead(log, mine);
    pthread_setcancelstate(was, NULL);
    return mine->code;
}

/* ---- reads, and the close */

void parts_end_read(raftlog *log) {
    if (atomic_fetch_sub(&log->reading, 1) == PARTS_CLOSING + 1) wake(&log->reading, 1);
}

int parts_fail_closed(raftlog *log) {
    return parts_fail(log, RAFTLOG_FAILED, strdup(parts_is_forked(log) ? parts_forked_text : closed_text));
}

bool parts_begin_read(raftlog *log) {
    if (parts_is_forked(log)) return false;
    if (!(atomic_fetch_add(&log->reading, 1) & PARTS_CLOSING)) return true;
    parts_end_read(log);
    return false;
}

bool parts_wait_for(raftlog *log, uint64_t round) {
    uint64_t done = atomic_load(&log->done);
    if (done < round) {
        atomic_fetch_add(&waiting_reads, 1);
        while ((done = atomic_load(&log->done)) < round)
            sleep_while(low_half(&log->done), (int)(uint32_t)done);
        atomic_fetch_sub(&waiting_reads, 1);
    }
    return round < atomic_load(&log->lost);
}

bool parts_close(raftlog *log, int *code) {
    struct parts_change mine = {.kind = PARTS_CLOSE};
    int was;
    pthread_setcancelstate(PTHREAD_CANCEL_DISABLE, &was);
    atomic_fetch_or(&log->reading, PARTS_CLOSING);
    bool leads = comes_to_lead(log, &mine);
    if (leads) {
        int reading;
        while ((reading = atomic_load(&log->reading)) != PARTS_CLOSING)
            sleep_while(&log->reading, reading);
        carry_out(log, &(struct round){.first = &mine, .last = &mine});
        struct parts_change *late = atomic_exchange(&log->newest, &closed), *older;
        for (; late != &mine; late = older) {
            older = late->older;
            fail(late, RAFTLOG_FAILED, closed_text);
            tell(late, IS_ANSWERED);
        }
    }
    pthread_setcancelstate(was, NULL);
    free(mine.text);
    *code = mine.code;
    return leads;
}
