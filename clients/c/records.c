/* Records of log files, as the texts of an opening need them. The proved part decides what is read: nothing here does.
 * docs/FORMAT.md has the form of files and records. */
#include "parts.h"

enum { HEAD = PARTS_RECORD_HEADER, CHECKSUM = 4 };

/* By half bytes: a constant table, which threads share. */
uint32_t parts_crc(const uint8_t *at, size_t len) {
    static const uint32_t table[16] = {0x00000000, 0x1DB71064, 0x3B6E20C8, 0x26D930AC, 0x76DC4190, 0x6B6B51F4,
                                       0x4DB26158, 0x5005713C, 0xEDB88320, 0xF00F9344, 0xD6D6A3E8, 0xCB61B38C,
                                       0x9B64C2B0, 0x86D3D2D4, 0xA00AE278, 0xBDBDF21C};
    uint32_t crc = 0xFFFFFFFFu;
    for (size_t i = 0; i < len; i++) {
        crc = table[(crc ^ at[i]) & 15] ^ crc >> 4;
        crc = table[(crc ^ at[i] >> 4) & 15] ^ crc >> 4;
    }
    return ~crc;
}

/* The signature under which the last four bytes are the checksum of those before. */
static uint32_t signature_of(const uint8_t *at, size_t len) {
    uint32_t kept;
    memcpy(&kept, at + len - CHECKSUM, CHECKSUM);
    return parts_crc(at, len - CHECKSUM) ^ le32toh(kept);
}

bool parts_read_header(const uint8_t *at, size_t left, struct parts_record *record) {
    if (left < HEAD) return false;
    uint64_t head = parts_number(at), footer = parts_number(at + 8), all = head >> 8;
    if ((head & 255) > 1 || footer < HEAD || all < footer || all - footer <= CHECKSUM) return false;
    *record = (struct parts_record){.footer = footer, .len = all};
    return true;
}

uint32_t parts_signature(const uint8_t *at, const struct parts_record *record) {
    return signature_of(at + record->footer, record->len - record->footer);
}

bool parts_has_sound_block(const uint8_t *at, const struct parts_record *record) {
    size_t len = record->footer - HEAD;
    return !len || (len >= CHECKSUM && !signature_of(at + HEAD, len));
}
