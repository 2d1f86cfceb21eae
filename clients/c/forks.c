/* The logs that are open, and what becomes of them in a child that is forked: a child has its parent's memory and
 * descriptors, but none of its threads. */
#include "blocks.h"
#include "parts.h"

#include <unistd.h>

const char parts_forked_text[] = "the log was opened by another process, from which this one was forked";

atomic_uint parts_forks;

static pthread_mutex_t lock = PTHREAD_MUTEX_INITIALIZER;
static raftlog *first_open;
static pthread_once_t has_begun = PTHREAD_ONCE_INIT;

void parts_pause_forks(void) { pthread_mutex_lock(&lock); }

void parts_resume_forks(void) { pthread_mutex_unlock(&lock); }

/* So the list and the heap's blocks are whole in a child. */
static void before_fork(void) {
    parts_pause_forks();
    pthread_mutex_lock(&heap_blocks.lock);
}

static void after_fork(void) {
    pthread_mutex_unlock(&heap_blocks.lock);
    parts_resume_forks();
}

/* Closes the child's copies of the two locked descriptors, which keeps the parent's lock, and gives it up with the parent. */
static void in_child(void) {
    raftlog *next;
    atomic_fetch_add(&parts_forks, 1);
    for (raftlog *log = first_open; log; log = next) {
        if (log->held >= 0) close(log->held);
        if (log->root >= 0) close(log->root);
        log->held = log->root = -1;
        next = log->next_open;
        log->next_open = NULL;
        log->at_open = NULL;
    }
    first_open = NULL;
    after_fork();
}

static void begin(void) { pthread_atfork(before_fork, after_fork, in_child); }

void parts_add_open(raftlog *log) {
    pthread_once(&has_begun, begin);
    parts_pause_forks();
    log->next_open = first_open;
    log->at_open = &first_open;
    if (first_open) first_open->at_open = &log->next_open;
    first_open = log;
    parts_resume_forks();
}

void parts_remove_open(raftlog *log) {
    parts_pause_forks();
    if (log->at_open) *log->at_open = log->next_open;
    if (log->next_open) log->next_open->at_open = log->at_open;
    log->at_open = NULL;
    log->next_open = NULL;
    parts_resume_forks();
}
