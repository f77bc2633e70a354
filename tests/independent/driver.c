// A driver over the raw calls of asl.h: reads cases from standard input and writes the answers (protocol.md). Each call
// is made without an engine and then by both, over the same bytes. Whatever it links in place of libasl.a is compared:
// the library, or bench/plain/plain.c. Numbers go as they lie in memory, so the machine has to be little-endian, as all
// are on which the library runs.
#include <stdio.h>
#include <string.h>

#include "asl.h"
#include "by.h"
#include "lend.h"

enum { CHECK = 1, LOOK_UP, TIDY, WRITE, TIDY_LENGTH, STEP, KINDS };
enum { MOST_NUMBERS = 6, MOST_SLICES = 6 };

// How many numbers and how many slices a case of each kind has.
static const struct shape {
    size_t numbers, slices;
} shapes[KINDS] = {
    [CHECK] = {0, 2}, [LOOK_UP] = {1, 4}, [TIDY] = {0, 3}, [WRITE] = {6, 6}, [TIDY_LENGTH] = {0, 2}, [STEP] = {1, 3},
};

struct slice {
    void *at;
    size_t size;
};

static void read_exactly(void *to, size_t size) {
    if (fread(to, 1, size, stdin) != size) exit(1);
}

static uint64_t read_number(void) {
    uint64_t number;
    read_exactly(&number, sizeof number);
    return number;
}

// The slices of a case: as they are lent; and copies, as they came and as the first call left them.
enum { LENT, CAME, LEFT, STATES };

// Memory for a slice, in a stretch of its own.
static struct slice slice_for(int state, size_t which, size_t size) {
    static struct stretch stretches[STATES][MOST_SLICES];
    return (struct slice){lend(&stretches[state][which], size), size};
}

static struct slice read_slice(size_t which) {
    struct slice s = slice_for(LENT, which, read_number());
    read_exactly(s.at, s.size);
    return s;
}

static void copy(int state, struct slice *to, const struct slice *from, size_t count) {
    for (size_t i = 0; i < count; i++) {
        to[i] = slice_for(state, i, from[i].size);
        memcpy(to[i].at, from[i].at, from[i].size);
    }
}

static int are_same(const struct slice *some, const struct slice *others, size_t count) {
    for (size_t i = 0; i < count; i++)
        if (memcmp(some[i].at, others[i].at, some[i].size) != 0) return 0;
    return 1;
}

static void say(const void *bytes, size_t size) {
    if (size > 0 && fwrite(bytes, 1, size, stdout) != size) exit(1);
}

static void say_number(uint64_t number) { say(&number, sizeof number); }

static asl_answer write_segment(const uint64_t *engine, const uint64_t *n, const struct slice *s) {
    return BY(engine, asl_raw_write, s[0].at, s[0].size, (uint16_t)n[0], n[1], n[2], (uint32_t)n[3], n[4], n[5],
              s[1].at, s[1].size, s[2].at, s[2].size / 8, s[3].at, s[3].size, s[4].at, s[4].size / 8, s[5].at,
              s[5].size);
}

static asl_answer call(int kind, const uint64_t *engine, const uint64_t *n, const struct slice *s) {
    struct slice t = s[0], g = s[1];
    switch (kind) {
    case CHECK: return BY(engine, asl_raw_check, t.at, t.size, g.at, g.size);
    case LOOK_UP:
        return BY(engine, asl_raw_look_up, t.at, t.size, g.at, g.size, n[0], s[2].at, s[2].size, s[3].at, s[3].size);
    case TIDY: return BY(engine, asl_raw_tidy, t.at, t.size, g.at, g.size, s[2].at, s[2].size);
    case WRITE: return write_segment(engine, n, s);
    case TIDY_LENGTH: return BY(engine, asl_raw_tidy_length, t.at, t.size, g.at, g.size);
    case STEP: return BY(engine, asl_raw_step, t.at, t.size, g.at, g.size, n[0], s[2].at, s[2].size);
    default: exit(1);
    }
}

// What was answered, and by whom: 0 for all; else 1 + the number of an engine that answers otherwise than the call
// without one, or leaves other bytes.
struct told {
    uint64_t by;
    asl_answer answer;
};

// The slices stay as the call left them whose answer is told.
static struct told call_in_every_way(int kind, const uint64_t *numbers, struct slice *slices) {
    static const uint64_t engines[] = {ASL_ENGINE_FAST, ASL_ENGINE_PLAIN};
    size_t count = shapes[kind].slices;
    struct slice came[MOST_SLICES], left[MOST_SLICES];
    copy(CAME, came, slices, count);
    asl_answer first = call(kind, NULL, numbers, slices);
    copy(LEFT, left, slices, count);
    for (size_t i = 0; i < sizeof engines / sizeof *engines; i++) {
        copy(LENT, slices, came, count);
        asl_answer a = call(kind, &engines[i], numbers, slices);
        if (a.bits != first.bits || !are_same(slices, left, count)) return (struct told){1 + engines[i], a};
    }
    return (struct told){0, first};
}

static void answer_case(int kind) {
    if (kind < CHECK || kind >= KINDS) exit(1);
    struct shape shape = shapes[kind];
    uint64_t numbers[MOST_NUMBERS];
    struct slice slices[MOST_SLICES];
    read_exactly(numbers, sizeof *numbers * shape.numbers);
    for (size_t i = 0; i < shape.slices; i++) slices[i] = read_slice(i);
    struct told told = call_in_every_way(kind, numbers, slices);
    say_number(told.by);
    say_number(told.answer.bits);
    say_number(shape.slices);
    for (size_t i = 0; i < shape.slices; i++) {
        say_number(slices[i].size);
        say(slices[i].at, slices[i].size);
    }
    if (fflush(stdout)) exit(1);
}

int main(void) {
    for (int kind = getchar(); kind != EOF; kind = getchar()) answer_case(kind);
    return ferror(stdin) != 0;
}
