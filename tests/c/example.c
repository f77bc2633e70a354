/* Checks a segment, looks a key up in it, walks it and tidies it; then writes a segment, and shows a refusal. */
#include <inttypes.h>
#include <stdio.h>
#include <stdlib.h>
#include <string.h>

#include "asl.h"

/* The store's table: hash 1 has digests of 32 bytes, hash 7 of 4. */
static const asl_pair pairs[] = {{1, 32}, {7, 4}};
enum { PAIRS = 2 };

static uint8_t segment[65536];

/* Whether the call was refused. If it was, it says how. */
static bool refused(const char *call, asl_answer a) {
    if (asl_ok(a)) return false;
    printf("%s: refused %u (%s) at %" PRIu64 "\n", call, asl_number(a), asl_refusal_name(asl_number(a)), asl_place(a));
    return true;
}

static uint8_t *room(size_t size) {
    uint8_t *at = (uint8_t *)malloc(size);
    if (!at) abort();
    return at;
}

static void show_extents(uint64_t start, uint64_t count) {
    for (uint64_t i = 0; i < count; i++) {
        asl_extent x = asl_extent_at(segment, start, i);
        printf("  extent %" PRIu64 ": block %" PRIu64 ", offset %" PRIu64 ", length %" PRIu64 "\n", i, x.block,
               x.offset, x.length);
    }
}

static bool look_up(size_t size) {
    static const uint8_t digest[] = {0x0a, 0x0b, 0x0c, 0x0d};
    asl_found found;
    asl_answer a = asl_look_up(pairs, PAIRS, segment, size, 7, digest, sizeof digest, &found);
    if (refused("look up", a)) return false;
    switch (asl_state(a)) {
    case ASL_STATE_ABSENT: printf("look up: absent\n"); break;
    case ASL_STATE_GONE: printf("look up: gone\n"); break;
    case ASL_STATE_PRESENT:
        printf("look up: present, %" PRIu64 " bytes in all\n", found.total);
        show_extents(found.extents_start, found.extent_count);
    }
    return true;
}

static bool walk(size_t size) {
    asl_record r;
    uint64_t number = 0;
    asl_answer a = asl_step(pairs, PAIRS, segment, size, number, &r);
    while (asl_stepped(a)) {
        printf("record %" PRIu64 ": hash %" PRIu64 ", digest ", number, r.hash_id);
        for (uint64_t i = 0; i < r.digest_length; i++) printf("%02x", segment[r.digest_offset + i]);
        printf(", %s, %" PRIu64 " extents\n", r.flags == ASL_FLAG_GONE ? "gone" : "live", r.extent_count);
        a = asl_step(pairs, PAIRS, segment, size, ++number, &r);
    }
    return !refused("step", a);
}

static bool tidy(size_t size) {
    asl_answer a = asl_tidy_length(pairs, PAIRS, segment, size);
    if (refused("tidy length", a)) return false;
    uint8_t *tidied = room(asl_length(a));
    a = asl_tidy(pairs, PAIRS, segment, size, tidied, asl_length(a));
    bool done = !refused("tidy", a);
    if (done) {
        bool same = asl_length(a) == size && memcmp(segment, tidied, size) == 0;
        printf("tidy: %zu bytes, the segment was %s\n", asl_length(a), same ? "tidy" : "not tidy");
    }
    free(tidied);
    return done;
}

/* A segment of two keys, one with two extents and one gone; and the same without its last byte. */
static bool write_and_check(void) {
    static const asl_heading heading = {1, 10, 20, 5, 21, 1700000000}; /* shard 1, snapshots 10 to 20, domain 5, seal */
    static const uint8_t digests[] = {1, 2, 3, 4, 1, 2, 3, 5};
    static const asl_extent extents[] = {{9, 64, 3}, {9, 128, 5}};
    static const asl_entry entries[] = {
        /* hash id, digest start and length, visibility, imported, source, gone, first extent, extent count */
        {7, 0, 4, 1, 0, 0, 0, 0, 2},
        {7, 4, 4, 0, 0, 0, 1, 0, 0},
    };
    size_t length = asl_write_length(0, entries, 2);
    uint8_t *out = room(length);
    asl_answer a =
        asl_write(pairs, PAIRS, heading, NULL, 0, entries, 2, digests, sizeof digests, extents, 2, out, length);
    bool done = !refused("write", a);
    if (done) {
        printf("write: %zu bytes\n", asl_length(a));
        done = !refused("check of what was written", asl_check(pairs, PAIRS, out, length)) &&
               refused("check of all but its last byte", asl_check(pairs, PAIRS, out, length - 1));
    }
    free(out);
    return done;
}

int main(int argc, char **argv) {
    FILE *file = argc == 2 ? fopen(argv[1], "rb") : NULL;
    if (!file) return fprintf(stderr, "usage: example SEGMENT\n"), 2;
    size_t size = fread(segment, 1, sizeof segment, file);
    fclose(file);
    if (refused("check", asl_check(pairs, PAIRS, segment, size))) return 1;
    printf("check: accepted, %zu bytes\n", size);
    return look_up(size) && walk(size) && tidy(size) && write_and_check() ? 0 : 1;
}
