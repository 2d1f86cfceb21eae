/* Which second folder a log's settings name: it is read from their text, of which only the plain form is known. */
#include "parts.h"

/* The first `spill-dir` from a place of the settings on that isn't in a line of a comment; NULL if there is none. */
static const char *find_key(const char *settings, const char *from) {
    const char *key = from;
    while ((key = strstr(key, "spill-dir"))) {
        const char *line = key;
        while (line > settings && line[-1] != '\n') line--;
        if (line[strspn(line, " \t")] != '#') return key;
        key += strlen("spill-dir");
    }
    return NULL;
}

/* Whether a line begins a table: a key in it is none of the log's settings. */
static bool has_table(const char *settings) {
    for (const char *line = settings; line; line = strchr(line, '\n')) {
        line += strspn(line, " \t\r\n");
        if (*line == '[') return true;
    }
    return false;
}

static bool ends_line(const char *rest) {
    rest += strspn(rest, " \t\r");
    return !*rest || *rest == '\n' || *rest == '#';
}

/* The key may be spelled by an escape, and a text of several lines may have its name. */
static bool is_plain(const char *settings) {
    return !strchr(settings, '\\') && !strstr(settings, "\"\"\"") && !strstr(settings, "'''") && !has_table(settings);
}

/* Whether an opening takes this path: no part of it is empty, `.` or `..`. */
static bool is_path(const char *at, size_t len) {
    for (size_t from = 0, to; from <= len; from = to + 1) {
        for (to = from; to < len && at[to] != '/';) to++;
        if (to - from < 3 && !memcmp(at + from, "..", to - from)) return false;
    }
    return true;
}

bool parts_find_spill(const char *settings, char *spill, size_t room) {
    const char *key = find_key(settings, settings);
    *spill = 0;
    if (!key) return !strchr(settings, '\\');
    const char *at = key + strlen("spill-dir");
    at += strspn(at, " \t");
    if (*at++ != '=' || !is_plain(settings)) return false;
    at += strspn(at, " \t");
    const char *end = *at == '"' || *at == '\'' ? strchr(at + 1, *at) : NULL;
    size_t len = end ? (size_t)(end - at - 1) : room;
    if (len >= room || memchr(at, '\n', len + 1) || !ends_line(end + 1) || !is_path(at + 1, len)) return false;
    bool is_only = (key == settings || key[-1] == '\n') && !find_key(settings, end);
    memcpy(spill, at + 1, is_only ? len : 0);
    spill[is_only ? len : 0] = 0;
    return is_only;
}
