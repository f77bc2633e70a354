// apart SEGMENT..: tells the engines apart. They answer the same, but the fast one puts its tables on the stack: so
// each call by it, and each without an engine, has to write so much more of a painted stack than the same call by the
// plain one. Each SEGMENT has to be long enough for the tables to pay. This is said of the library alone:
// bench/plain/plain.c keeps its tables elsewhere. Its last line is `N passed, M failed`.
#include <stdio.h>
#include <string.h>

#include "asl.h"
#include "by.h"
#include "stack.h"

// What the tables write at least: 2,048 numbers, less a quarter. Some of their bytes are the paint's own, some stand
// where the call writes anyway, and some are too near to be counted.
enum { TABLES = 2048 * 8 / 4 * 3 };

static const uint64_t pairs[] = {1, 32, 7, 4};
static uint8_t many[4096], segment[4096], out[8192];
static size_t segment_size;

// The calls ---------------------------------------------------------------------------------------------------------

#define TABLE_AND_SEGMENT (const uint8_t *)pairs, sizeof pairs, segment, segment_size

static uint64_t check(const uint64_t *engine) { return BY(engine, asl_raw_check, TABLE_AND_SEGMENT).bits; }

static uint64_t look_up(const uint64_t *engine) {
    static const uint8_t digest[] = {0x0a, 0x0b, 0x0c, 0x0d};
    return BY(engine, asl_raw_look_up, TABLE_AND_SEGMENT, 7, digest, sizeof digest, out, sizeof out).bits;
}

static uint64_t step(const uint64_t *engine) {
    return BY(engine, asl_raw_step, TABLE_AND_SEGMENT, 0, out, sizeof out).bits;
}

static uint64_t tidy_length(const uint64_t *engine) { return BY(engine, asl_raw_tidy_length, TABLE_AND_SEGMENT).bits; }

static uint64_t tidy(const uint64_t *engine) {
    return BY(engine, asl_raw_tidy, TABLE_AND_SEGMENT, out, sizeof out).bits;
}

// No entries, but a bloom that makes the result long.
static uint64_t write_bloom(const uint64_t *engine) {
    return BY(engine, asl_raw_write, (const uint8_t *)pairs, sizeof pairs, 0, 0, 0, 0, 0, 0, many, sizeof many, NULL, 0,
              NULL, 0, NULL, 0, out, sizeof out).bits;
}

static uint64_t checksum(const uint64_t *engine) { return BY(engine, asl_raw_checksum, many, sizeof many); }

static uint64_t checksum_on(const uint64_t *engine) { return BY(engine, asl_raw_checksum_on, 1, many, sizeof many); }

typedef uint64_t made(const uint64_t *engine);

static const struct {
    const char *name;
    made *make;
} calls[] = {
    {"check", check}, {"look_up", look_up},   {"step", step},         {"tidy_length", tidy_length},
    {"tidy", tidy},   {"write", write_bloom}, {"checksum", checksum}, {"checksum_on", checksum_on},
};

// What they write ---------------------------------------------------------------------------------------------------

// How many bytes of the stack a call writes, of as many as it may take, but for those nearest to this function, whose
// own bytes are there. It is made once before: what the dynamic linker does at a first call is not counted.
static size_t written_by(made *make, const uint64_t *engine) {
    enum { NEAR = 1024, PROMISED = 1 << 20 };
    uint8_t here = 0, *lowest = stack + ((uintptr_t)&here - (uintptr_t)stack - NEAR - PROMISED);
    size_t written = 0;
    (void)make(engine);
    memset(lowest, PAINT, PROMISED);
    (void)make(engine);
    for (size_t i = 0; i < PROMISED; i++) written += lowest[i] != PAINT;
    return written;
}

static int passed, failed;

static void expect(int holds, const char *call, const char *what, size_t fast, size_t plain) {
    holds ? passed++ : failed++;
    if (!holds) printf("%s %s: %zu bytes of stack are written, and %zu by the plain engine\n", call, what, fast, plain);
}

static void *all_calls(void *given) {
    static const uint64_t fast = ASL_ENGINE_FAST, plain = ASL_ENGINE_PLAIN, other = UINT64_MAX;
    for (size_t i = 0; i < sizeof calls / sizeof *calls; i++) {
        const char *name = calls[i].name;
        size_t by_fast = written_by(calls[i].make, &fast), by_plain = written_by(calls[i].make, &plain);
        size_t by_other = written_by(calls[i].make, &other), by_none = written_by(calls[i].make, NULL);
        expect(by_plain < TABLES, name, "by the plain engine", by_plain, by_plain);
        expect(by_fast >= by_plain + TABLES, name, "by the fast engine", by_fast, by_plain);
        expect(by_other >= by_plain + TABLES, name, "by engine 2^64 - 1", by_other, by_plain);
        expect(by_none >= by_plain + TABLES, name, "without an engine", by_none, by_plain);
    }
    return given;
}

int main(int argc, char **argv) {
    for (int i = 1; i < argc; i++) {
        FILE *file = fopen(argv[i], "rb");
        segment_size = file ? fread(segment, 1, sizeof segment, file) : 0;
        if (!file || fclose(file) != 0 || segment_size == sizeof segment || !on_stack(all_calls, NULL)) return 2;
    }
    printf("%d passed, %d failed\n", passed, failed);
    return failed > 0 || passed == 0;
}
