/* What becomes of a page of a log that the system can't read again from its file. */
#include "parts.h"

#include <errno.h>
#include <signal.h>

static struct sigaction before;

/* Hands the signal to whoever handled it before; nobody: it comes again, as its end. */
static void hand_on(int number, siginfo_t *info, void *context) {
    bool is_nobodys = before.sa_handler == SIG_DFL || before.sa_handler == SIG_IGN;
    if (before.sa_flags & SA_SIGINFO) before.sa_sigaction(number, info, context);
    else if (is_nobodys) signal(number, SIG_DFL);
    else before.sa_handler(number);
}

static void on_bus_error(int number, siginfo_t *info, void *context) {
    int error = errno;
    if (!heap_lose_page(info->si_addr)) hand_on(number, info, context);
    errno = error;
}

int raftlog_survive_bus_errors(void) {
    static pthread_mutex_t lock = PTHREAD_MUTEX_INITIALIZER;
    static bool is_done;
    struct sigaction action = {.sa_sigaction = on_bus_error, .sa_flags = SA_SIGINFO | SA_ONSTACK};
    pthread_mutex_lock(&lock);
    if (!is_done) is_done = !sigaction(SIGBUS, NULL, &before) && !sigaction(SIGBUS, &action, NULL);
    int code = is_done ? RAFTLOG_OK : RAFTLOG_INVALID;
    pthread_mutex_unlock(&lock);
    return code;
}

int raftlog_expect_reads(raftlog *log, bool at_random) {
    if (!log) return RAFTLOG_INVALID;
    if (!parts_begin_read(log)) return parts_fail_closed(log);
    heap_expect_reads(&log->heap, at_random);
    parts_end_read(log);
    return RAFTLOG_OK;
}
