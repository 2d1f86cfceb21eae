/* How fast the machine is now: a chain of arithmetic, dependent reads of 64 MB, and first touches of 64 MB; ns each. */
#include <stdint.h>
#include <stdio.h>
#include <stdlib.h>
#include <sys/mman.h>
#include <time.h>
static double now(void) {
    struct timespec t;
    clock_gettime(CLOCK_MONOTONIC, &t);
    return t.tv_sec * 1e9 + t.tv_nsec;
}
int main(void) {
    enum { N = 50000000, M = 1 << 23, R = 400000, P = 16384 };
    uint64_t x = 1;
    double t = now();
    for (int i = 0; i < N; i++) x = x * 6364136223846793005u + 1442695040888963407u;
    double chain = (now() - t) / N;
    uint64_t *m = mmap(0, M * 8ul, PROT_READ | PROT_WRITE, MAP_PRIVATE | MAP_ANONYMOUS | MAP_POPULATE, -1, 0);
    for (uint64_t i = 0; i < M; i += 8) m[i] = i;
    t = now();
    for (int i = 0; i < R; i++) x = (x * 6364136223846793005u + 1442695040888963407u) ^ m[(x >> 30) % M];
    double reads = (now() - t) / R;
    char *p = mmap(0, P * 4096ul, PROT_READ | PROT_WRITE, MAP_PRIVATE | MAP_ANONYMOUS, -1, 0);
    t = now();
    for (int i = 0; i < P; i++) p[i * 4096] = (char)x;
    double touch = (now() - t) / P;
    printf("beat: %.4f %.2f %.1f\n", chain, reads, touch);
    return 0;
}
