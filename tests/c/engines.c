// Shows that the inline functions of asl.h hand the engine on as it is, all 64 bits of it, and those that take none the
// fast one's number. No answer of the library can show this, since it is the same by every engine; so here stand raw
// calls in its place that keep the number. They refuse, so that nothing else is looked at.
#include <inttypes.h>
#include <stdio.h>

#include "asl.h"
#include "by.h"

static const asl_answer REFUSED = {ASL_REFUSED_SIZE};
static uint64_t handed_on;

static asl_answer keep(uint64_t engine) {
    handed_on = engine;
    return REFUSED;
}

asl_answer asl_raw_check_by(uint64_t engine, const uint8_t *table, size_t table_size, const uint8_t *segment,
                            size_t segment_size) {
    return keep(engine);
}

asl_answer asl_raw_look_up_by(uint64_t engine, const uint8_t *table, size_t table_size, const uint8_t *segment,
                              size_t segment_size, uint64_t hash_id, const uint8_t *digest, size_t digest_size,
                              uint8_t *found, size_t found_size) {
    return keep(engine);
}

asl_answer asl_raw_step_by(uint64_t engine, const uint8_t *table, size_t table_size, const uint8_t *segment,
                           size_t segment_size, uint64_t record, uint8_t *fields, size_t fields_size) {
    return keep(engine);
}

asl_answer asl_raw_tidy_length_by(uint64_t engine, const uint8_t *table, size_t table_size, const uint8_t *segment,
                                  size_t segment_size) {
    return keep(engine);
}

asl_answer asl_raw_tidy_by(uint64_t engine, const uint8_t *table, size_t table_size, const uint8_t *segment,
                           size_t segment_size, uint8_t *out, size_t out_size) {
    return keep(engine);
}

asl_answer asl_raw_write_by(uint64_t engine, const uint8_t *table, size_t table_size, uint16_t shard,
                            uint64_t snapshot_min, uint64_t snapshot_max, uint32_t domain, uint64_t seal_snapshot,
                            uint64_t seal_time, const uint8_t *bloom, size_t bloom_size, const uint64_t *entries,
                            size_t entries_count, const uint8_t *digests, size_t digests_size,
                            const uint64_t *extents, size_t extents_count, uint8_t *out, size_t out_size) {
    return keep(engine);
}

uint64_t asl_raw_checksum_by(uint64_t engine, const uint8_t *bytes, size_t size) { return keep(engine).bits; }

uint64_t asl_raw_checksum_on_by(uint64_t engine, uint64_t before, const uint8_t *bytes, size_t size) {
    return keep(engine).bits;
}

// Whether the call came to its raw call, and with that engine.
static int hands_on(const char *call, uint64_t bits, uint64_t engine) {
    int right = bits == REFUSED.bits && handed_on == engine;
    if (!right) printf("%s hands on %" PRIu64 " for %" PRIu64 "\n", call, handed_on, engine);
    handed_on = ~engine;
    return right;
}

// Every call by that engine, or without one.
static int all_hand_on(const uint64_t *engine) {
    static const asl_heading heading = {0, 0, 0, 0, 0, 0};
    uint64_t number = engine ? *engine : ASL_ENGINE_FAST;
    int right = 1;
    handed_on = ~number;
    right &= hands_on("check", BY(engine, asl_check, NULL, 0, NULL, 0).bits, number);
    right &= hands_on("look up", BY(engine, asl_look_up, NULL, 0, NULL, 0, 0, NULL, 0, NULL).bits, number);
    right &= hands_on("step", BY(engine, asl_step, NULL, 0, NULL, 0, 0, NULL).bits, number);
    right &= hands_on("tidy length", BY(engine, asl_tidy_length, NULL, 0, NULL, 0).bits, number);
    right &= hands_on("tidy", BY(engine, asl_tidy, NULL, 0, NULL, 0, NULL, 0).bits, number);
    asl_answer written = BY(engine, asl_write, NULL, 0, heading, NULL, 0, NULL, 0, NULL, 0, NULL, 0, NULL, 0);
    right &= hands_on("write", written.bits, number);
    right &= hands_on("checksum", BY(engine, asl_checksum, NULL, 0), number);
    right &= hands_on("checksum on", BY(engine, asl_checksum_on, 0, NULL, 0), number);
    return right;
}

int main(void) {
    static const uint64_t engines[] = {ASL_ENGINE_FAST, ASL_ENGINE_PLAIN, 2, (uint64_t)1 << 32, UINT64_MAX};
    int right = all_hand_on(NULL);
    for (size_t i = 0; i < sizeof engines / sizeof *engines; i++) right &= all_hand_on(&engines[i]);
    return !right;
}
