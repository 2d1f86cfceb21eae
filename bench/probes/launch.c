/* launch OUT PROGRAM WORD..: runs it and writes to OUT its status, seconds of the user and of the system, the most kB that
 * it had, and its minor faults. (A program started by Python is told Python's own memory as its most.) */
#include <stdio.h>
#include <stdlib.h>
#include <sys/resource.h>
#include <sys/wait.h>
#include <unistd.h>
int main(int argc, char **argv) {
    if (argc < 3) return 2;
    pid_t pid = fork();
    if (!pid) {
        execv(argv[2], argv + 2);
        _exit(127);
    }
    int status;
    struct rusage u;
    wait4(pid, &status, 0, &u);
    FILE *out = fopen(argv[1], "w");
    fprintf(out, "%d %ld.%06ld %ld.%06ld %ld %ld\n", status, (long)u.ru_utime.tv_sec, (long)u.ru_utime.tv_usec,
            (long)u.ru_stime.tv_sec, (long)u.ru_stime.tv_usec, u.ru_maxrss, u.ru_minflt);
    return fclose(out) ? 1 : status ? 1 : 0;
}
