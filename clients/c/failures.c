/* What a code says, and the last failure of each thread. */
#include "parts.h"

#include <stdlib.h>

const char *raftlog_version(void) { return RAFTLOG_VERSION; }

const char *raftlog_code_text(int code) {
    switch (code) {
    case RAFTLOG_OK: return "done";
    case RAFTLOG_INVALID: return "invalid argument";
    case RAFTLOG_CORRUPTION: return "corruption";
    case RAFTLOG_IO: return "a file call failed";
    case RAFTLOG_TRY_AGAIN: return "no space, try again";
    case RAFTLOG_GAP: return "gap between entries";
    case RAFTLOG_RANGE: return "number out of range";
    case RAFTLOG_COMPACTED: return "entry compacted";
    case RAFTLOG_NO_ENTRY: return "entry not found";
    case RAFTLOG_WRONG_INDEX: return "wrong entry index";
    case RAFTLOG_NOT_AN_ENTRY: return "no entry";
    case RAFTLOG_FAILED: return "the log failed";
    case RAFTLOG_NO_MEMORY: return "out of memory";
    case RAFTLOG_LZ4: return "lz4 block";
    case RAFTLOG_STALE_NUMBER: return "stale number";
    case RAFTLOG_ABSENT: return "absent";
    case RAFTLOG_IN_USE: return "the folder is open already";
    case RAFTLOG_NOT_PLAIN: return "neither a folder nor a file of one name";
    case RAFTLOG_LOST: return "a log file is missing or doesn't follow on the others";
    case RAFTLOG_FOLDER: return "the folder can't be opened";
    default: return "failure";
    }
}

void parts_put_text(const char *from, char *text, size_t room) {
    if (room == 0) return;
    size_t len = strlen(from);
    if (len >= room) len = room - 1;
    memcpy(text, from, len);
    text[len] = 0;
}

/* Of the log there is only its address: it may be closed since. */
static _Thread_local struct {
    const raftlog *log;
    int code;
} last;

/* The text of each thread's last failure, which is freed when the thread ends. */
static pthread_key_t texts;
static pthread_once_t has_begun = PTHREAD_ONCE_INIT;
static bool has_texts;

static void begin_texts(void) { has_texts = !pthread_key_create(&texts, free); }

int parts_fail(const raftlog *log, int code, char *text) {
    pthread_once(&has_begun, begin_texts);
    if (has_texts) {
        free(pthread_getspecific(texts));
        /* Where there is no memory for a thread's first text, the code's stands for it. */
        if (pthread_setspecific(texts, text)) free(text);
    } else {
        free(text);
    }
    last.log = log;
    last.code = code;
    return code;
}

size_t raftlog_message(raftlog *log, char *text, size_t room) {
    const char *said = NULL;
    bool is_known = log && last.log == log;
    if (is_known && has_texts) said = pthread_getspecific(texts);
    if (!said) said = log ? raftlog_code_text(is_known ? last.code : RAFTLOG_OK) : "";
    if (text) parts_put_text(said, text, room);
    return strlen(said);
}
