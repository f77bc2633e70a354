/*
 * The services of the library beside the same services in plain C (bench/plain), on the same segments, in one run. The
 * library is there twice: as a caller gets it who does not choose, so by the fast engine, and by the plain engine. So
 * is the C program: its checksum takes eight bytes at a step, or one.
 *
 * For each size and order it prints one line to a service: name, records, order, bytes of the segment, then for each of
 * the four, in the order of the enum below, the median, the fastest and the slowest time of a call in nanoseconds. They
 * take turns, so that all see the machine in the same state, and every buffer was touched before. Two more lines to a
 * segment give the four checksums alone, and liblzma's CRC-64 and a plain pass over the same bytes.
 */
#include "asl.h"

#include <lzma.h>
#include <stdio.h>
#include <stdlib.h>
#include <string.h>
#include <time.h>

/* The functions of one of the four. */
struct services {
    __typeof__(asl_raw_check) *check;
    __typeof__(asl_raw_look_up) *look_up;
    __typeof__(asl_raw_step) *step;
    __typeof__(asl_raw_tidy_length) *tidy_length;
    __typeof__(asl_raw_tidy) *tidy;
    __typeof__(asl_raw_write) *write;
    uint64_t (*checksum)(const uint8_t *, size_t);
};

#define DECLARED(name)                                         \
    extern __typeof__(asl_raw_check) name##_check;             \
    extern __typeof__(asl_raw_look_up) name##_look_up;         \
    extern __typeof__(asl_raw_step) name##_step;               \
    extern __typeof__(asl_raw_tidy_length) name##_tidy_length; \
    extern __typeof__(asl_raw_tidy) name##_tidy;               \
    extern __typeof__(asl_raw_write) name##_write;             \
    uint64_t name##_crc64(const uint8_t *, size_t);
DECLARED(by_one)
DECLARED(by_eight)

/* The library's calls by its plain engine. */
static asl_answer plain_check(const uint8_t *table, size_t table_size, const uint8_t *segment, size_t segment_size) {
    return asl_raw_check_by(ASL_ENGINE_PLAIN, table, table_size, segment, segment_size);
}

static asl_answer plain_look_up(const uint8_t *table, size_t table_size, const uint8_t *segment, size_t segment_size,
                                uint64_t hash_id, const uint8_t *digest, size_t digest_size, uint8_t *found,
                                size_t found_size) {
    return asl_raw_look_up_by(ASL_ENGINE_PLAIN, table, table_size, segment, segment_size, hash_id, digest, digest_size,
                              found, found_size);
}

static asl_answer plain_step(const uint8_t *table, size_t table_size, const uint8_t *segment, size_t segment_size,
                             uint64_t record, uint8_t *fields, size_t fields_size) {
    return asl_raw_step_by(ASL_ENGINE_PLAIN, table, table_size, segment, segment_size, record, fields, fields_size);
}

static asl_answer plain_tidy_length(const uint8_t *table, size_t table_size, const uint8_t *segment,
                                    size_t segment_size) {
    return asl_raw_tidy_length_by(ASL_ENGINE_PLAIN, table, table_size, segment, segment_size);
}

static asl_answer plain_tidy(const uint8_t *table, size_t table_size, const uint8_t *segment, size_t segment_size,
                             uint8_t *out, size_t out_size) {
    return asl_raw_tidy_by(ASL_ENGINE_PLAIN, table, table_size, segment, segment_size, out, out_size);
}

static asl_answer plain_write(const uint8_t *table, size_t table_size, uint16_t shard, uint64_t snapshot_min,
                              uint64_t snapshot_max, uint32_t domain, uint64_t seal_snapshot, uint64_t seal_time,
                              const uint8_t *bloom, size_t bloom_size, const uint64_t *entries, size_t entries_count,
                              const uint8_t *digests, size_t digests_size, const uint64_t *extents,
                              size_t extents_count, uint8_t *out, size_t out_size) {
    return asl_raw_write_by(ASL_ENGINE_PLAIN, table, table_size, shard, snapshot_min, snapshot_max, domain,
                            seal_snapshot, seal_time, bloom, bloom_size, entries, entries_count, digests, digests_size,
                            extents, extents_count, out, out_size);
}

static uint64_t plain_checksum(const uint8_t *bytes, size_t size) {
    return asl_raw_checksum_by(ASL_ENGINE_PLAIN, bytes, size);
}

enum { LIBRARY, BY_PLAIN, BY_ONE, BY_EIGHT, SIDES };
#define SERVICES_OF(name, checksum) \
    {name##_check, name##_look_up, name##_step, name##_tidy_length, name##_tidy, name##_write, checksum}
static const struct services SERVICES[SIDES] = {
    SERVICES_OF(asl_raw, asl_raw_checksum),
    SERVICES_OF(plain, plain_checksum),
    SERVICES_OF(by_one, by_one_crc64),
    SERVICES_OF(by_eight, by_eight_crc64),
};

enum { DIGEST = 32, EXTENTS_MOST = 8, ROUNDS_MOST = 400 };
static const asl_pair PAIRS[] = {{1, DIGEST}};
static const uint8_t *const TABLE = (const uint8_t *)PAIRS;
static const double ROUND_SECONDS = 1.2; /* how long the rounds of one line may take in all */

/* What write is lent, and the segment under test. */
struct job {
    size_t records, extent_count, digests_size, size, room;
    asl_entry *entries;
    asl_extent *extents;
    uint8_t *digests, *segment, *out;
};

static uint64_t state = 20261115;

static uint64_t random_number(void) { /* xorshift64: the same numbers on every machine */
    state ^= state << 13;
    state ^= state >> 7;
    state ^= state << 17;
    return state;
}

static void *need(size_t size) {
    void *p = malloc(size ? size : 1);
    if (!p) exit(2);
    memset(p, 0, size);
    return p;
}

static void must(int good, const char *what) {
    if (good) return;
    fprintf(stderr, "bench: %s\n", what);
    exit(1);
}

/* The raw call: the lists are counted in numbers. */
static asl_answer write_with(int side, struct job *j) {
    size_t entries_count = j->records * (sizeof *j->entries / 8);
    size_t extents_count = j->extent_count * (sizeof *j->extents / 8);
    return SERVICES[side].write(TABLE, sizeof PAIRS, 1, 2, 3, 4, 5, 6, NULL, 0, (const uint64_t *)j->entries,
                                entries_count, j->digests, j->digests_size, (const uint64_t *)j->extents,
                                extents_count, j->out, j->room);
}

/* All four write the segment as it stands in the job. */
static void must_write(struct job *j, const char *otherwise) {
    for (int side = 0; side < SIDES; side++) {
        memset(j->out, 0, j->room);
        asl_answer a = write_with(side, j);
        must(asl_ok(a) && asl_length(a) == j->size && !memcmp(j->segment, j->out, j->size), otherwise);
    }
}

static void put_entry(struct job *j, size_t k, size_t first, size_t count) {
    j->entries[k] = (asl_entry){
        .hash_id = 1,
        .digest_start = DIGEST * k,
        .digest_length = DIGEST,
        .first_extent = first,
        .extent_count = count,
    };
}

/* Entries with random digests and 1 to 8 extents each, and the tidy segment of them. */
static void make(struct job *j, size_t records) {
    j->records = records;
    j->entries = need(records * sizeof *j->entries);
    j->digests_size = DIGEST * records;
    j->digests = need(j->digests_size);
    j->extents = need(EXTENTS_MOST * records * sizeof *j->extents);
    for (size_t i = 0; i < j->digests_size; i++) j->digests[i] = (uint8_t)random_number();
    size_t extents = 0;
    for (size_t k = 0; k < records; k++) {
        size_t count = 1 + random_number() % EXTENTS_MOST;
        put_entry(j, k, extents, count);
        for (size_t i = 0; i < count; i++, extents++) {
            asl_extent *x = &j->extents[extents];
            x->block = random_number();
            x->offset = random_number() % 1000000;
            x->length = random_number() % 1000000;
        }
    }
    j->extent_count = extents;
    j->room = asl_write_length(0, j->entries, records) + 8;
    j->out = need(j->room);
    asl_answer a = write_with(BY_EIGHT, j);
    must(asl_ok(a), "the C program does not write");
    j->size = asl_length(a);
    j->segment = need(j->size);
    memcpy(j->segment, j->out, j->size);
    must_write(j, "not all write the same segment");
}

static void put_checksum(struct job *j) {
    uint64_t sum = by_eight_crc64(j->segment, j->size - ASL_FOOTER_SIZE);
    for (int i = 0; i < 8; i++) j->segment[j->size - ASL_FOOTER_SIZE + i] = (uint8_t)(sum >> (8 * i));
}

/* The records of the segment in a random order; the entries stand in one already. */
static void shuffle(struct job *j) {
    uint8_t *records = j->segment + ASL_HEADER_SIZE, spare[ASL_RECORD_SIZE];
    for (size_t k = j->records; k > 1; k--) {
        size_t other = random_number() % k;
        memcpy(spare, records + ASL_RECORD_SIZE * (k - 1), ASL_RECORD_SIZE);
        memcpy(records + ASL_RECORD_SIZE * (k - 1), records + ASL_RECORD_SIZE * other, ASL_RECORD_SIZE);
        memcpy(records + ASL_RECORD_SIZE * other, spare, ASL_RECORD_SIZE);
    }
    put_checksum(j);
}

/* The entries in tidy order: sorted by their digests' bytes. */
static const uint8_t *sorted_digests;

static int by_digest(const void *a, const void *b) {
    return memcmp(sorted_digests + ((const asl_entry *)a)->digest_start,
                  sorted_digests + ((const asl_entry *)b)->digest_start, DIGEST);
}

/* The request that the tidy segment is read back as: digests and extents stand in the order of the entries too. */
static void ask_for_segment(struct job *j) {
    sorted_digests = j->digests;
    qsort(j->entries, j->records, sizeof *j->entries, by_digest);
    size_t extents = 0;
    for (size_t k = 0; k < j->records; k++) {
        size_t count = j->entries[k].extent_count;
        put_entry(j, k, extents, count);
        extents += count;
    }
    size_t digests = ASL_HEADER_SIZE + ASL_RECORD_SIZE * j->records;
    memcpy(j->digests, j->segment + digests, j->digests_size);
    for (size_t i = 0; i < extents; i++) j->extents[i] = asl_extent_at(j->segment, digests + j->digests_size, i);
    must_write(j, "the segment is not written back as it is");
}

static volatile uint64_t kept; /* so that no call is left out */

/* Keeps the answer of a call, which has to have this value. */
static void keep(asl_answer a, uint64_t value, const char *otherwise) {
    kept = a.bits;
    must(asl_ok(a) && asl_value(a) == value, otherwise);
}

static void call_check(int side, struct job *j) {
    keep(SERVICES[side].check(TABLE, sizeof PAIRS, j->segment, j->size), 0, "check refuses");
}

/* A key that a record in the middle has. */
static void call_look_up(int side, struct job *j) {
    static const uint8_t absent[DIGEST];
    uint8_t found[ASL_FOUND_SIZE];
    const uint8_t *digest = j->records ? j->digests + DIGEST * (j->records / 2) : absent;
    keep(SERVICES[side].look_up(TABLE, sizeof PAIRS, j->segment, j->size, 1, digest, DIGEST, found, sizeof found),
         j->records ? ASL_STATE_PRESENT : ASL_STATE_ABSENT, "look up does not find");
}

/* The record in the middle. */
static void call_step(int side, struct job *j) {
    uint8_t fields[ASL_FIELDS_SIZE];
    keep(SERVICES[side].step(TABLE, sizeof PAIRS, j->segment, j->size, j->records / 2, fields, sizeof fields),
         j->records ? ASL_STEP_RECORD : ASL_STEP_DONE, "step does not step");
}

static void call_tidy_length(int side, struct job *j) {
    keep(SERVICES[side].tidy_length(TABLE, sizeof PAIRS, j->segment, j->size), j->size, "tidy length refuses");
}

static void call_tidy(int side, struct job *j) {
    keep(SERVICES[side].tidy(TABLE, sizeof PAIRS, j->segment, j->size, j->out, j->room), j->size, "tidy refuses");
}

static void call_write(int side, struct job *j) { keep(write_with(side, j), j->size, "write refuses"); }

static void call_checksum(int side, struct job *j) {
    kept = SERVICES[side].checksum(j->segment, j->size - ASL_FOOTER_SIZE);
}

/* Other passes over the same bytes: liblzma's checksum, and a sum of the bytes, eight at a time. */
static void call_memory(int side, struct job *j) {
    uint64_t sum = 0, word;
    if (side == LIBRARY) {
        kept = lzma_crc64(j->segment, j->size - ASL_FOOTER_SIZE, 0);
        return;
    }
    for (size_t i = 0; i + 8 <= j->size - ASL_FOOTER_SIZE; i += 8) {
        memcpy(&word, j->segment + i, 8);
        sum += word;
    }
    kept = sum;
}

static double seconds(void) {
    struct timespec t;
    clock_gettime(CLOCK_MONOTONIC, &t);
    return (double)t.tv_sec + 1e-9 * (double)t.tv_nsec;
}

static int ascending(const void *a, const void *b) {
    double x = *(const double *)a, y = *(const double *)b;
    return (x > y) - (x < y);
}

/* One sample is as many calls as take some 50 microseconds at least, so that the clock's own steps do not show. */
static double sample(void (*call)(int, struct job *), int side, struct job *j, unsigned calls) {
    double began = seconds();
    for (unsigned i = 0; i < calls; i++) call(side, j);
    return 1e9 * (seconds() - began) / calls;
}

static unsigned calls_of(void (*call)(int, struct job *), int side, struct job *j) {
    unsigned calls = 1;
    while (calls < 1u << 20 && sample(call, side, j, calls) * calls < 50000) calls *= 2;
    return calls;
}

static void measure(const char *service, const char *order, void (*call)(int, struct job *), struct job *j) {
    static double times[SIDES][ROUNDS_MOST];
    unsigned calls[SIDES];
    size_t rounds = 0;
    for (int side = 0; side < SIDES; side++) calls[side] = calls_of(call, side, j);
    for (double began = seconds(); rounds < 5 || (rounds < ROUNDS_MOST && seconds() - began < ROUND_SECONDS); rounds++)
        for (int side = 0; side < SIDES; side++) times[side][rounds] = sample(call, side, j, calls[side]);
    printf("%s %zu %s %zu", service, j->records, order, j->size);
    for (int side = 0; side < SIDES; side++) {
        qsort(times[side], rounds, sizeof(double), ascending);
        printf(" %.1f %.1f %.1f", times[side][rounds / 2], times[side][0], times[side][rounds - 1]);
    }
    printf("\n");
    fflush(stdout);
}

static void measure_all(struct job *j, const char *order) {
    measure("check", order, call_check, j);
    measure("look_up", order, call_look_up, j);
    measure("step", order, call_step, j);
    measure("tidy_length", order, call_tidy_length, j);
    measure("tidy", order, call_tidy, j);
    measure("write", order, call_write, j);
    measure("checksum", order, call_checksum, j);
    measure("lzma_and_pass", order, call_memory, j);
}

int main(int argc, char **argv) {
    for (int i = 1; i < argc; i++) {
        struct job j;
        make(&j, strtoul(argv[i], NULL, 10));
        shuffle(&j);
        measure_all(&j, "shuffled");
        call_tidy(LIBRARY, &j);
        memcpy(j.segment, j.out, j.size);
        ask_for_segment(&j);
        measure_all(&j, "tidy");
        free(j.entries), free(j.extents), free(j.digests), free(j.segment), free(j.out);
    }
    return 0;
}
