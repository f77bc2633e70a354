// Reads inputs from standard input and writes a line for each: the place of its bytes, which is their address modulo 8,
// and the checksum by each way there is. An input is four numbers of eight bytes, its length, the place that its bytes
// are to have and two cuts in ascending order, and then its bytes.
//
// The ways, in this order: the whole by either engine, the plain one first; then the input run in one part, in two (cut
// at the first cut) and in three, in each of these by every choice of an engine for each part. Of the choices bit p is
// set where the fast engine runs part p. Last the library's own calls, for which the engines were compiled once more: the
// whole, and in two parts, of which the second goes by the other engine; the plain one first.
#include <inttypes.h>
#include <stddef.h>
#include <stdint.h>
#include <stdio.h>
#include <stdlib.h>
#include <string.h>

uint64_t crc64_plain(const uint8_t *s, size_t n);
uint64_t crc64_plain_on(uint64_t before, const uint8_t *s, size_t n);
uint64_t crc64_fast(const uint8_t *s, size_t n);
uint64_t crc64_fast_on(uint64_t before, const uint8_t *s, size_t n);
uint64_t crc64_finish(uint64_t last);
uint64_t asl_raw_checksum_by(uint64_t engine, const uint8_t *s, size_t n);
uint64_t asl_raw_checksum_on_by(uint64_t engine, uint64_t before, const uint8_t *s, size_t n);

enum { PARTS_MOST = 3 };

static uint64_t (*const ON[])(uint64_t, const uint8_t *, size_t) = {crc64_plain_on, crc64_fast_on};

static uint64_t in_parts(const uint8_t *s, const size_t *ends, int parts, unsigned choice) {
    uint64_t c = UINT64_MAX; // the register before the first byte
    size_t begin = 0;
    for (int p = 0; p < parts; p++) {
        c = ON[choice >> p & 1](c, s + begin, ends[p] - begin);
        begin = ends[p];
    }
    return crc64_finish(c);
}

// In the library 1 asks for the plain engine and 0 for the fast one.
static void show_library(const uint8_t *s, size_t n, size_t cut) {
    for (int fast = 0; fast <= 1; fast++) printf(" %016" PRIx64, asl_raw_checksum_by(!fast, s, n));
    for (int fast = 0; fast <= 1; fast++)
        printf(" %016" PRIx64, asl_raw_checksum_on_by(fast, asl_raw_checksum_by(!fast, s, cut), s + cut, n - cut));
}

static void show(const uint8_t *s, size_t n, const size_t *cuts) {
    printf("%u %016" PRIx64 " %016" PRIx64, (unsigned)((uintptr_t)s % 8), crc64_plain(s, n), crc64_fast(s, n));
    for (int parts = 1; parts <= PARTS_MOST; parts++) {
        size_t ends[PARTS_MOST];
        for (int p = 0; p < parts - 1; p++) ends[p] = cuts[p];
        ends[parts - 1] = n;
        for (unsigned choice = 0; choice < 1u << parts; choice++)
            printf(" %016" PRIx64, in_parts(s, ends, parts, choice));
    }
    show_library(s, n, cuts[0]);
    printf("\n");
}

int main(void) {
    uint64_t head[4];
    while (fread(head, sizeof head, 1, stdin) == 1) {
        size_t n = head[0], place = head[1], cuts[PARTS_MOST - 1] = {head[2], head[3]};
        if (place > 7 || cuts[0] > cuts[1] || cuts[1] > n) return 1;
        uint8_t *room = aligned_alloc(8, n / 8 * 8 + 24);
        if (!room) return 1;
        memset(room, 0xA5, n / 8 * 8 + 24); // what stands around the input is known, and not 0
        if (fread(room + place, 1, n, stdin) != n) return 1;
        show(room + place, n, cuts);
        free(room);
    }
    return ferror(stdin) || fflush(stdout);
}
