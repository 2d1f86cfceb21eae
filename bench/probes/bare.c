/* Opens, reads and syncs each file of a folder: bare FOLDER. */
#include <dirent.h>
#include <fcntl.h>
#include <stdio.h>
#include <stdlib.h>
#include <string.h>
#include <time.h>
#include <unistd.h>
int main(int argc, char **argv) {
    struct timespec a, b;
    char path[600];
    static char buf[1 << 18];
    long files = 0, bytes = 0;
    clock_gettime(CLOCK_MONOTONIC, &a);
    DIR *d = opendir(argv[1]);
    for (struct dirent *e; (e = readdir(d));) {
        if (!strstr(e->d_name, ".raftlog")) continue;
        snprintf(path, sizeof path, "%s/%s", argv[1], e->d_name);
        int fd = open(path, O_RDWR);
        for (ssize_t n; (n = read(fd, buf, sizeof buf)) > 0;) bytes += n;
        fdatasync(fd);
        close(fd);
        files++;
    }
    clock_gettime(CLOCK_MONOTONIC, &b);
    double us = (b.tv_sec - a.tv_sec) * 1e6 + (b.tv_nsec - a.tv_nsec) / 1e3;
    printf("%ld files, %ld bytes, %.0f us, %.1f us a file\n", files, bytes, us, us / files);
    return argc - argc;
}
