// Replaces a file COUNT times as a careful program does, below the folder that it is given: a new file
// is written and synced, renamed over the current one through the folder `next`, and the one that was
// kept before is deleted. It prints `synced I` once the Ith change stays.
#include <fcntl.h>
#include <stdio.h>
#include <stdlib.h>
#include <string.h>
#include <sys/stat.h>
#include <unistd.h>

enum { COUNT = 8 };

static void check(int is_well, const char *what) {
    if (!is_well) {
        perror(what);
        exit(1);
    }
}

static void sync_folder(const char *path) {
    int fd = open(path, O_RDONLY);
    check(fd >= 0 && fsync(fd) == 0 && close(fd) == 0, path);
}

static void put(int fd, const char *text, off_t at) {
    check(pwrite(fd, text, strlen(text), at) == (ssize_t)strlen(text) && fdatasync(fd) == 0, "pwrite");
}

int main(int count, char **words) {
    check(count == 2 && chdir(words[1]) == 0 && mkdir("next", 0755) == 0, "folder");
    sync_folder(".");
    for (int i = 0; i < COUNT; i++) {
        char text[32], kept[32], older[32];
        sprintf(text, "number %d\n", i);
        sprintf(kept, "kept-%d", i);
        sprintf(older, "kept-%d", i - 1);
        int fd = open("next/file", O_RDWR | O_CREAT, 0644);
        check(fd >= 0, "open");
        put(fd, text, 0);
        sync_folder("next");
        check(rename("next/file", "current") == 0, "rename");
        sync_folder(".");
        sync_folder("next");
        put(fd, "written after the renaming\n", 4096);
        int keeping = open(kept, O_RDWR | O_CREAT, 0644);
        check(keeping >= 0, "open");
        put(keeping, text, 0);
        sync_folder(".");
        check(i == 0 || unlink(older) == 0, "unlink");
        sync_folder(".");
        check(close(fd) == 0 && close(keeping) == 0, "close");
        int length = sprintf(text, "synced %d\n", i);
        check(write(1, text, length) == length, "write");
    }
    return 0;
}
