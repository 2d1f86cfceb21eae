/* A log larger than memory: `large FOLDER WORD..`, each word with what follows it. Pages that have
 * a file behind them are taken back TAKE_BACK times a second, if that is set. The words are
 * - write COUNT SYNC_EACH: batches of four entries, in turn to 100 groups; SYNC_EACH 0: no sync;
 * - turns COUNT FILE LIMIT: as many batches ten times, in turn with LIMIT in FILE, which bounds the
 *   memory, and with -1 there; a sync each 4 MB;
 * - expect random|order: how entries will be read;
 * - read COUNT: entries in no order, cold, in turn with two bare preads of as many bytes;
 * - all SECONDS: the entries of one group after the other, for so long at most;
 * - purge KEEP: all but so many entries of each group go.
 * What is read is compared. SIZE: bytes of an entry, 1000 where it isn't set; SETTINGS: the log's. */
#include "heap.h"
#include "raftlog.h"

#include <dirent.h>
#include <fcntl.h>
#include <stdio.h>
#include <stdlib.h>
#include <string.h>
#include <sys/resource.h>
#include <time.h>
#include <unistd.h>

enum { GROUPS = 100, PER_BATCH = 4, MOST_SIZE = 1 << 16, FILES = 1024 };

static double begun;
static size_t size = 1000;

/* What an entries block takes in a file. */
static size_t block_size(void) { return PER_BATCH * (size + 8) + 4; }

static double now(void) {
    struct timespec time;
    clock_gettime(CLOCK_MONOTONIC, &time);
    return (double)time.tv_sec + (double)time.tv_nsec * 1e-9;
}

/* The number behind a word at the beginning of a line of the system's. */
static long number_of(const char *path, const char *word) {
    char line[200];
    long number = 0;
    FILE *file = fopen(path, "r");
    while (file && fgets(line, sizeof line, file)) {
        char *value = strpbrk(line, "0123456789");
        if (value && !strncmp(line, word, strlen(word))) number = atol(value);
    }
    if (file) fclose(file);
    return number;
}

/* How long it took since the last one, in all and each, and the memory that is held now. */
static void tell(const char *what, double count) {
    double took = now() - begun;
    const char *status = "/proc/self/status";
    printf("%s: %.1f s, %.1f us each; most %ld MB, own %ld MB, files' %ld MB\n", what, took,
           took * 1e6 / count, number_of(status, "VmHWM") / 1024,
           number_of(status, "RssAnon") / 1024, number_of(status, "RssFile") / 1024);
    fflush(stdout);
    begun = now();
}

static void need(int code, const char *what) {
    if (!code) return;
    printf("%s: %s\n", what, raftlog_code_text(code));
    exit(1);
}

static void *take_back(void *with) {
    struct timespec pause = {.tv_nsec = 1000000000 / *(long *)with};
    for (;;) {
        nanosleep(&pause, NULL);
        heap_page_out();
    }
    return NULL;
}

static uint64_t random_below(uint64_t bound) {
    static uint64_t state = 1;
    state = state * 6364136223846793005ull + 1442695040888963407ull;
    return (state >> 20) % bound;
}

/* ---- what is written */

static uint8_t some[2 * MOST_SIZE];

static void fill_some(void) {
    for (size_t i = 0; i < sizeof some; i++) some[i] = (uint8_t)random_below(256);
}

static const uint8_t *rest_of(uint64_t group, uint64_t index) {
    return some + (group * 1009 + index * 31) % MOST_SIZE;
}

/* The value of an entry: its group, its index, and bytes that depend on both. */
static void make_value(uint8_t *value, uint64_t group, uint64_t index) {
    memcpy(value, &group, 8);
    memcpy(value + 8, &index, 8);
    memcpy(value + 16, rest_of(group, index), size - 16);
}

static void compare(uint64_t group, const raftlog_entry *entry) {
    static uint8_t value[MOST_SIZE];
    make_value(value, group, entry->index);
    if (entry->len == size && !memcmp(entry->data, value, size)) return;
    printf("WRONG: entry %lu of group %lu\n", (unsigned long)entry->index, (unsigned long)group);
    exit(1);
}

/* ---- the log files themselves */

static int log_files[FILES], log_file_count;
static off_t log_file_sizes[FILES];

static void open_files(const char *folder) {
    while (log_file_count) close(log_files[--log_file_count]);
    DIR *dir = opendir(folder);
    for (struct dirent *entry; dir && (entry = readdir(dir)) && log_file_count < FILES;) {
        char path[1000];
        snprintf(path, sizeof path, "%s/%s", folder, entry->d_name);
        bool is_log = strstr(entry->d_name, ".raftlog") || strstr(entry->d_name, ".rewrite");
        int fd = is_log ? open(path, O_RDONLY) : -1;
        off_t end = fd < 0 ? 0 : lseek(fd, 0, SEEK_END);
        if (end < 2 * (off_t)block_size()) continue;
        log_files[log_file_count] = fd;
        log_file_sizes[log_file_count++] = end;
    }
    if (dir) closedir(dir);
}

/* Nothing of the log files is in memory then. */
static void make_cold(void) {
    heap_page_out();
    for (int i = 0; i < log_file_count; i++)
        posix_fadvise(log_files[i], 0, 0, POSIX_FADV_DONTNEED);
}

/* ---- what is measured */

/* The longest write, in seconds. */
static double write_some(raftlog *log, uint64_t count, uint64_t sync_each) {
    static uint8_t values[PER_BATCH][MOST_SIZE];
    double longest = 0;
    raftlog_batch *batch = raftlog_batch_new();
    for (uint64_t i = 0; i < count; i++) {
        uint64_t group = 1 + i % GROUPS, last = 0;
        raftlog_entry entries[PER_BATCH];
        if (raftlog_last_index(log, group, &last)) last = 0;
        for (uint64_t k = 0; k < PER_BATCH; k++) {
            make_value(values[k], group, last + 1 + k);
            entries[k] = (raftlog_entry){last + 1 + k, values[k], size};
        }
        need(raftlog_batch_entries(batch, group, entries, PER_BATCH), "batch");
        double from = now();
        need(raftlog_write(log, batch, sync_each && i % sync_each == 0), "write");
        if (longest < now() - from) longest = now() - from;
    }
    raftlog_batch_free(batch);
    return longest;
}

static void write_batches(raftlog *log, uint64_t count, uint64_t sync_each) {
    printf("the longest write: %.1f ms\n", write_some(log, count, sync_each) * 1e3);
    tell("written, each entry", (double)count * PER_BATCH);
}

/* A bound below what is held is refused until enough of it was taken back. */
static void bound_memory(const char *path, const char *bytes) {
    bool is_done = false;
    for (int left = 300; !is_done && left; left--) {
        FILE *file = fopen(path, "w");
        is_done = file && fputs(bytes, file) >= 0;
        is_done = file && !fclose(file) && is_done;
        if (!is_done) usleep(100000);
    }
    need(is_done ? RAFTLOG_OK : RAFTLOG_IO, path);
}

static void write_in_turn(raftlog *log, uint64_t count, const char *file, const char *limit) {
    for (int turn = 0; turn < 10; turn++) {
        bound_memory(file, turn % 2 ? "-1" : limit);
        begun = now();
        write_some(log, count, (4 << 20) / block_size());
        tell(turn % 2 ? "without it" : "under the limit", (double)count * PER_BATCH);
    }
    bound_memory(file, limit);
}

static double read_one(raftlog *log, raftlog_bytes *bytes) {
    uint64_t group = 1 + random_below(GROUPS), first, last;
    need(raftlog_first_index(log, group, &first), "first_index");
    need(raftlog_last_index(log, group, &last), "last_index");
    uint64_t index = first + random_below(last - first + 1);
    double from = now();
    need(raftlog_get_entry(log, group, index, bytes), "get_entry");
    double took = now() - from;
    compare(group, &(raftlog_entry){index, bytes->data, bytes->len});
    return took;
}

static double read_bare(void) {
    static uint8_t bytes[PER_BATCH * (MOST_SIZE + 8) + 4];
    size_t len = block_size();
    int i = (int)random_below((uint64_t)log_file_count);
    off_t at = (off_t)random_below((uint64_t)log_file_sizes[i] - len);
    double from = now();
    if (pread(log_files[i], bytes, len, at) != (ssize_t)len) need(RAFTLOG_IO, "pread");
    return now() - from;
}

/* The reads that take turns: of the log, and bare ones twice, whose difference is chance. */
enum { OURS, BARE, AGAIN, READS };

/* What reads took, what came from the disk for them, and how often they waited. */
struct reads {
    double *took, all;
    long disk, waits;
};

static void read_as(struct reads *reads, raftlog *log, raftlog_bytes *bytes, uint64_t i) {
    struct rusage was, is;
    getrusage(RUSAGE_THREAD, &was);
    reads->all += reads->took[i] = log ? read_one(log, bytes) : read_bare();
    getrusage(RUSAGE_THREAD, &is);
    reads->disk += is.ru_inblock - was.ru_inblock;
    reads->waits += is.ru_nvcsw - was.ru_nvcsw;
}

static int by_size(const void *one, const void *other) {
    double x = *(const double *)one, y = *(const double *)other;
    return x < y ? -1 : x > y;
}

/* The mean of all but the slowest hundredth is told too, since a few may take most of the time. */
static void tell_reads(const char *what, struct reads *reads, uint64_t count) {
    qsort(reads->took, count, sizeof *reads->took, by_size);
    double most = 0, each = (double)count;
    uint64_t kept = count - count / 100;
    for (uint64_t i = 0; i < kept; i++) most += reads->took[i];
    printf("%s: mean %.1f us, without the slowest hundredth %.1f, middle %.1f, ninth tenth %.1f; "
           "%.1f KB and %.2f waits each\n",
           what, reads->all / each * 1e6, most / (double)kept * 1e6,
           reads->took[count / 2] * 1e6, reads->took[count * 9 / 10] * 1e6,
           (double)reads->disk / 2 / each, (double)reads->waits / each);
    free(reads->took);
}

/* Which of them is first changes in turn. */
static void read_at_random(raftlog *log, uint64_t count) {
    static const char *what[READS] = {"a cold entry", "a bare pread of a block", "and again"};
    raftlog_bytes bytes = {0};
    struct reads reads[READS] = {0};
    for (int kind = 0; kind < READS; kind++)
        reads[kind].took = calloc(count, sizeof *reads[kind].took);
    for (uint64_t i = 0; i < count; i++) {
        if (i % 32 == 0) make_cold();
        for (uint64_t turn = 0; turn < READS; turn++) {
            uint64_t kind = (i + turn) % READS;
            read_as(&reads[kind], kind == OURS ? log : NULL, &bytes, i);
        }
    }
    printf("means: %.2f times a bare pread, which takes %.2f times the other\n",
           2 * reads[OURS].all / (reads[BARE].all + reads[AGAIN].all),
           reads[BARE].all / reads[AGAIN].all);
    for (int kind = 0; kind < READS; kind++) tell_reads(what[kind], &reads[kind], count);
    raftlog_bytes_free(&bytes);
    tell("read at random", (double)count * READS);
}

/* Answers how many it read. */
static uint64_t read_group(raftlog *log, uint64_t group, double until, raftlog_bytes *bytes) {
    uint64_t first, last, count = 0;
    need(raftlog_first_index(log, group, &first), "first_index");
    need(raftlog_last_index(log, group, &last), "last_index");
    for (uint64_t at = first; at <= last && now() < until; at += 100) {
        uint64_t end = at + 100 < last + 1 ? at + 100 : last + 1;
        need(raftlog_fetch_entries(log, group, at, end, 0, bytes), "fetch");
        raftlog_entry entry;
        for (size_t next = 0; raftlog_next_entry(bytes, &next, &entry); count++)
            compare(group, &entry);
    }
    return count;
}

static void read_in_order(raftlog *log, double seconds) {
    raftlog_bytes bytes = {0};
    uint64_t count = 0;
    for (uint64_t group = 1; group <= GROUPS; group++)
        count += read_group(log, group, begun + seconds, &bytes);
    raftlog_bytes_free(&bytes);
    printf("entries that are right: %lu\n", (unsigned long)count);
    tell("fetched in order, each entry", (double)count);
}

static void purge(raftlog *log, uint64_t keep) {
    uint64_t last, count;
    for (uint64_t group = 1; group <= GROUPS; group++) {
        need(raftlog_last_index(log, group, &last), "last_index");
        need(raftlog_compact_to(log, group, last > keep ? last - keep : 1, NULL), "compact_to");
    }
    tell("compacted, each group", GROUPS);
    need(raftlog_must_rewrite_append_queue(log, &count), "rewrite");
    printf("files dropped: %lu\n", (unsigned long)count);
    tell("rewritten", 1);
}

static uint64_t number(const char *text) { return strtoull(text, NULL, 10); }

/* Does what a word says, and answers how many words that took: 0 where it is none. */
static int do_word(raftlog *log, const char *folder, int left, char **words) {
    uint64_t count = left > 1 ? number(words[1]) : 0;
    if (left > 1 && !strcmp(*words, "purge")) return purge(log, count), 2;
    if (left > 2 && !strcmp(*words, "write"))
        return write_batches(log, count, number(words[2])), 3;
    if (left > 1 && !strcmp(*words, "expect"))
        return need(raftlog_expect_reads(log, !strcmp(words[1], "random")), "expect"), 2;
    if (left > 1 && !strcmp(*words, "read"))
        return open_files(folder), read_at_random(log, count), 2;
    if (left > 1 && !strcmp(*words, "all")) return read_in_order(log, (double)count), 2;
    if (left > 3 && !strcmp(*words, "turns"))
        return write_in_turn(log, count, words[2], words[3]), 4;
    return 0;
}

int main(int argc, char **argv) {
    if (argc < 2) return 2;
    char text[300];
    raftlog *log;
    pthread_t thread;
    const char *times = getenv("TAKE_BACK");
    long each = times ? atol(times) : 0;
    if (getenv("SIZE")) size = number(getenv("SIZE"));
    if (size < 16 || size > MOST_SIZE) return 2;
    fill_some();
    if (each > 0 && pthread_create(&thread, NULL, take_back, &each)) return 1;
    begun = now();
    int code = raftlog_open(argv[1], getenv("SETTINGS"), &log, text, sizeof text);
    if (code) return printf("%s\n", text), 1;
    tell("opened", 1);
    for (int at = 2, took; at < argc; at += took)
        if (!(took = do_word(log, argv[1], argc - at, argv + at))) return 2;
    need(raftlog_close(log), "close");
    tell("closed", 1);
    printf("written to the disk: %ld MB\n", number_of("/proc/self/io", "write_bytes") >> 20);
    return 0;
}
