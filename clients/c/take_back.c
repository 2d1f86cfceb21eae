/* Linked into a program of the tests: all pages that have a file behind them are taken back all
 * the time. HEAP_TOLD is a file to which a program that had such pages adds a line at its end. */
#include "heap.h"

#include <stdio.h>
#include <stdlib.h>
#include <time.h>

static size_t most;

static void *take_back(void *with) {
    struct timespec pause = {.tv_nsec = 500000};
    for (;;) {
        size_t blocks, bytes, backed;
        heap_page_out();
        heap_stat(&blocks, &bytes, &backed);
        if (most < backed) most = backed;
        nanosleep(&pause, NULL);
    }
    return with;
}

__attribute__((constructor)) static void begin(void) {
    pthread_t thread;
    if (pthread_create(&thread, NULL, take_back, NULL)) abort();
}

__attribute__((destructor)) static void tell(void) {
    const char *path = getenv("HEAP_TOLD");
    FILE *file = path && most ? fopen(path, "a") : NULL;
    if (!file) return;
    fprintf(file, "%zu KB had a file behind them\n", most >> 10);
    fclose(file);
}
