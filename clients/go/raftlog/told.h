// What each call from Go returns besides its code.
#ifndef TOLD_H
#define TOLD_H

#include <raftlog.h>
#include <stdlib.h>

// A failure's text belongs to a thread, and a goroutine may leave its thread after a call. So each call gets the text
// at once, which the caller frees.
static inline int told(raftlog *log, int code, char **text) {
    if (code == RAFTLOG_OK || code == RAFTLOG_ABSENT) return code;
    size_t room = raftlog_message(log, NULL, 0) + 1;
    if ((*text = malloc(room))) raftlog_message(log, *text, room);
    return code;
}

#endif
