// The four structures in bytes: their sizes, where their fields stand, numbers, and the checksum. For plain.c, which says
// what NAME and STRIDE are.
#include "asl.h"

#include <stdint.h>

#ifndef NAME
#define NAME(x) asl_raw_##x
#endif
#ifndef STRIDE
#define STRIDE 8
#endif

// The sizes of the four structures, and where their fields stand in them.
enum { HEADER = 112, RECORD = 48, EXTENT = 16, FOOTER = 24 };
enum {
    H_MAGIC = 0,
    H_VERSION = 8,
    H_SHARD = 10,
    H_HEADER_SIZE = 12,
    H_SNAPSHOT_MIN = 16,
    H_SNAPSHOT_MAX = 24,
    H_RECORD_COUNT = 32,
    H_RECORDS_OFFSET = 40,
    H_BLOOM_OFFSET = 48,
    H_BLOOM_SIZE = 56,
    H_DIGESTS_OFFSET = 64,
    H_DIGESTS_SIZE = 72,
    H_EXTENTS_OFFSET = 80,
    H_EXTENT_COUNT = 88,
    H_DOMAIN = 96,
    H_VISIBILITY = 100,
    H_FEDERATION = 101,
    H_RESERVED = 102,
    H_FLAGS = 104
};
enum {
    R_HASH_ID = 0,
    R_DIGEST_LENGTH = 4,
    R_RESERVED = 6,
    R_DIGEST_OFFSET = 8,
    R_EXTENTS_OFFSET = 16,
    R_EXTENT_COUNT = 24,
    R_TOTAL = 28,
    R_DOMAIN = 32,
    R_VISIBILITY = 36,
    R_IMPORTED = 37,
    R_RESERVED_LAST = 38,
    R_SOURCE = 40,
    R_FLAGS = 44
};
enum { X_BLOCK = 0, X_OFFSET = 8, X_LENGTH = 12 };
enum { F_CRC64 = 0, F_SEAL_SNAPSHOT = 8, F_SEAL_TIME = 16 };
enum { GONE = 1 }; // the one flag of a record

static const uint8_t MAGIC[8] = {'A', 'S', 'L', 'I', 'D', 'X', '0', '3'};
static const uint64_t U32_MOST = 0xFFFFFFFF;
static const uint64_t EXTENT_END_MOST = 0x100000000;

// Numbers in bytes --------------------------------------------------------------------------------------------------

static uint16_t get16(const uint8_t *at) { return (uint16_t)(at[0] | at[1] << 8); }
static uint32_t get32(const uint8_t *at) { return get16(at) | (uint32_t)get16(at + 2) << 16; }
static uint64_t get64(const uint8_t *at) { return get32(at) | (uint64_t)get32(at + 4) << 32; }

static void put16(uint8_t *at, uint16_t number) {
    at[0] = (uint8_t)number;
    at[1] = (uint8_t)(number >> 8);
}

static void put32(uint8_t *at, uint32_t number) {
    put16(at, (uint16_t)number);
    put16(at + 2, (uint16_t)(number >> 16));
}

static void put64(uint8_t *at, uint64_t number) {
    put32(at, (uint32_t)number);
    put32(at + 4, (uint32_t)(number >> 32));
}

// The checksum: eight bytes at a step, by eight tables, or one -------------------------------------------------------

static uint64_t after[8][256]; // after[k][b] is the register b after k + 1 bytes of zeros

__attribute__((constructor)) static void fill_tables(void) {
    for (int b = 0; b < 256; b++) {
        uint64_t c = (uint64_t)b;
        for (int bit = 0; bit < 8; bit++) c = c & 1 ? c >> 1 ^ 0xC96C5795D7870F42 : c >> 1;
        after[0][b] = c;
    }
    for (int k = 1; k < 8; k++)
        for (int b = 0; b < 256; b++) after[k][b] = after[k - 1][b] >> 8 ^ after[0][after[k - 1][b] & 255];
}

// The checksum of some bytes followed by these, where `before` is that of the former. The stride is 8 or 1.
static uint64_t crc64_on(int stride, uint64_t before, const uint8_t *bytes, size_t size) {
    uint64_t c = ~before;
    for (; stride == 8 && size >= 8; size -= 8, bytes += 8) {
        c ^= get64(bytes);
        c = after[7][c & 255] ^ after[6][c >> 8 & 255] ^ after[5][c >> 16 & 255] ^ after[4][c >> 24 & 255] ^
            after[3][c >> 32 & 255] ^ after[2][c >> 40 & 255] ^ after[1][c >> 48 & 255] ^ after[0][c >> 56];
    }
    for (; size > 0; size--, bytes++) c = c >> 8 ^ after[0][(c ^ *bytes) & 255];
    return ~c;
}

uint64_t NAME(crc64)(const uint8_t *bytes, size_t size);

uint64_t NAME(crc64)(const uint8_t *bytes, size_t size) { return crc64_on(STRIDE, 0, bytes, size); }
