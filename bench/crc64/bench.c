/*
 * Times CRC-64s on the same bytes, in turns, so that all see the machine in the same state: bench BYTES..
 *
 * For each number of bytes it prints a line to each way: the number, the way, and the nanoseconds of a call in the
 * fastest of the turns. All ways have to give one checksum.
 */
#include <lzma.h>
#include <stdint.h>
#include <stdio.h>
#include <stdlib.h>
#include <time.h>

typedef uint64_t checksum(const uint8_t *s, size_t n);

checksum crc64_fast, crc64_plain;            /* the library's engines */
checksum eight_gcc_crc64, eight_clang_crc64; /* bench/plain/bytes.h */
checksum loop_gcc, loop_clang;               /* loop.c */

static uint64_t liblzma(const uint8_t *s, size_t n) { return lzma_crc64(s, n, 0); }

static const struct {
    const char *name;
    checksum *sum;
} WAYS[] = {
    {"fast", crc64_fast},           {"plain", crc64_plain},
    {"eight-gcc", eight_gcc_crc64}, {"eight-clang", eight_clang_crc64},
    {"loop-gcc", loop_gcc},         {"loop-clang", loop_clang},
    {"liblzma", liblzma},
};
enum { WAY_COUNT = sizeof WAYS / sizeof *WAYS };

enum { TURNS_LEAST = 15, TURNS_MOST = 2000 };
static const double TURNS_SECONDS = 0.7;   /* how long the turns over one length may take in all, if they are enough */
static const double SAMPLE_SECONDS = 5e-5; /* how long a sample takes at least, so that the clock's steps do not show */

static volatile uint64_t kept; /* so that no call is left out */

static double now(void) {
    struct timespec t;
    clock_gettime(CLOCK_MONOTONIC, &t);
    return (double)t.tv_sec + 1e-9 * (double)t.tv_nsec;
}

/* The seconds of one call, over so many of them. */
static double sample(checksum *sum, const uint8_t *s, size_t n, unsigned calls) {
    double began = now();
    for (unsigned i = 0; i < calls; i++) kept = sum(s, n);
    return (now() - began) / calls;
}

static unsigned calls_of(checksum *sum, const uint8_t *s, size_t n) {
    unsigned calls = 1;
    while (sample(sum, s, n, calls) * calls < SAMPLE_SECONDS) calls *= 2;
    return calls;
}

static void measure(const uint8_t *s, size_t n) {
    double best[WAY_COUNT];
    unsigned calls[WAY_COUNT];
    for (int w = 0; w < WAY_COUNT; w++) {
        calls[w] = calls_of(WAYS[w].sum, s, n);
        best[w] = sample(WAYS[w].sum, s, n, calls[w]);
    }
    double began = now();
    for (int turn = 0; turn < TURNS_LEAST || (turn < TURNS_MOST && now() - began < TURNS_SECONDS); turn++)
        for (int w = 0; w < WAY_COUNT; w++) {
            double took = sample(WAYS[w].sum, s, n, calls[w]);
            if (took < best[w]) best[w] = took;
        }
    for (int w = 0; w < WAY_COUNT; w++) printf("%zu %s %.3f\n", n, WAYS[w].name, 1e9 * best[w]);
    fflush(stdout);
}

int main(int argc, char **argv) {
    for (int i = 1; i < argc; i++) {
        size_t n = strtoul(argv[i], NULL, 10);
        uint8_t *s = malloc(n + 1);
        if (!s) return 2;
        uint32_t x = 64;
        for (size_t k = 0; k < n; k++) s[k] = (uint8_t)((x = x * 1664525 + 1013904223) >> 24);
        for (int w = 1; w < WAY_COUNT; w++)
            if (WAYS[w].sum(s, n) != WAYS[0].sum(s, n))
                return fprintf(stderr, "bench: %s gives another checksum of %zu bytes\n", WAYS[w].name, n), 1;
        measure(s, n);
        free(s);
    }
    return 0;
}
