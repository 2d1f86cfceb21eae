/* gen FOLDER COUNT SIZE [FILE SIZE]: a log of so many puts under new keys of 16 bytes in 100 groups, in files of 128 MB or
 * of this size, by docs/FORMAT.md. */
#include <stdint.h>
#include <stdio.h>
#include <stdlib.h>
#include <string.h>
#include <sys/stat.h>

static uint32_t table[256];
static uint32_t crc32(const uint8_t *b, size_t n) {
    uint32_t c = ~0u;
    for (size_t i = 0; i < n; i++) c = table[(c ^ b[i]) & 255] ^ c >> 8;
    return ~c;
}
static uint8_t *var(uint8_t *at, uint64_t n) {
    for (; n >= 128; n >>= 7) *at++ = (n & 127) | 128;
    *at++ = n;
    return at;
}
static void big(uint8_t *at, uint64_t n) {
    for (int i = 7; i >= 0; i--, n >>= 8) at[i] = n;
}
int main(int argc, char **argv) {
    if (argc < 4) return 2;
    uint64_t count = strtoull(argv[2], 0, 10), size = strtoull(argv[3], 0, 10);
    uint64_t full = argc > 4 ? strtoull(argv[4], 0, 10) : 128ull << 20, number = 0, length = 0;
    for (uint32_t i = 0; i < 256; i++) {
        uint32_t c = i;
        for (int k = 0; k < 8; k++) c = c & 1 ? c >> 1 ^ 0xEDB88320u : c >> 1;
        table[i] = c;
    }
    mkdir(argv[1], 0777);
    uint8_t *value = malloc(size + 40), *record = malloc(size + 200);
    memset(value, '.', size);
    FILE *out = NULL;
    for (uint64_t i = 0; i < count; i++) {
        if (!out || length >= full) {
            char path[600];
            uint8_t head[16] = {0};
            if (out) fclose(out);
            snprintf(path, sizeof path, "%s/%016llu.raftlog", argv[1], (unsigned long long)++number);
            out = fopen(path, "w");
            if (!out) return perror(path), 1;
            big(head, 2);
            const char *magic = "RAFT-LOG-FILE-HEADER-9986AB3E47F320B394C8E84916EB0ED5";
            length = fwrite(magic, 1, strlen(magic), out) + fwrite(head, 1, 16, out);
        }
        char text[40], key[17];
        memcpy(value, text, snprintf(text, sizeof text, "%llu", (unsigned long long)i));
        snprintf(key, sizeof key, "%016llu", (unsigned long long)i);
        uint8_t *body = record + 16, *at = body;
        *at++ = 1, at = var(at, i % 100), *at++ = 3, *at++ = 1, at = var(at, 16);
        memcpy(at, key, 16), at = var(at + 16, size);
        memcpy(at, value, size), at += size;
        uint32_t crc = crc32(body, at - body) ^ (uint32_t)number;
        big(record, (uint64_t)(16 + (at - body) + 4) << 8), big(record + 8, 16);
        for (int k = 0; k < 4; k++) *at++ = crc >> (8 * k);
        length += fwrite(record, 1, at - record, out);
    }
    return fclose(out);
}
