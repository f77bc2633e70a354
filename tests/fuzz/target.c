// A fuzz target: asks the library by each of its engines, and bench/plain/plain.c, one question, made of the input's
// bytes, and stops where any part of their answers differs, or the call cannot answer so. The checksum of the segment
// is asked for as well. plain.c is compiled with the fuzzer's counters, so its branches, one for each rule, lead to new
// inputs. Every buffer is lent at exactly its size (lend.h).
//
// The input: a byte whose low three bits are the service, as given.h counts them (0 check, 1 look up, 2 step, 3 tidy
// length, 4 tidy, 5 write, and from 0 again), and whose next bit makes the checksum right; a byte for the table; two
// bytes for the room. Look up goes on with a hash id, a length and that many digest bytes, step with the record's
// number, write with the sizes of its lists and their numbers, the others with nothing; what is left is the segment.
#include <stdio.h>
#include <string.h>

#include "asl.h"
#include "given.h"
#include "lend.h"

struct services {
    __typeof__(asl_raw_check_by) *check;
    __typeof__(asl_raw_look_up_by) *look_up;
    __typeof__(asl_raw_tidy_by) *tidy;
    __typeof__(asl_raw_write_by) *write;
    __typeof__(asl_raw_tidy_length_by) *tidy_length;
    __typeof__(asl_raw_step_by) *step;
};

extern __typeof__(asl_raw_check_by) plain_check_by;
extern __typeof__(asl_raw_look_up_by) plain_look_up_by;
extern __typeof__(asl_raw_tidy_by) plain_tidy_by;
extern __typeof__(asl_raw_write_by) plain_write_by;
extern __typeof__(asl_raw_tidy_length_by) plain_tidy_length_by;
extern __typeof__(asl_raw_step_by) plain_step_by;
uint64_t plain_crc64(const uint8_t *bytes, size_t size);

static const struct services library = {asl_raw_check_by, asl_raw_look_up_by,     asl_raw_tidy_by,
                                        asl_raw_write_by, asl_raw_tidy_length_by, asl_raw_step_by};
static const struct services plain = {plain_check_by, plain_look_up_by,     plain_tidy_by,
                                      plain_write_by, plain_tidy_length_by, plain_step_by};

enum { TABLE, SEGMENT, DIGEST, BLOOM, ENTRIES, DIGESTS, EXTENTS, OUT, SLICES };
enum { RIGHT_CHECKSUM = 8 };
// Look up leaves 64 bytes and step 104; what they are lent is shorter than this.
enum { LEAVES_LESS = 128 };

struct slice {
    void *at;
    size_t size;
};

struct question {
    int service;
    uint64_t hash_id, record;
    struct slice slices[SLICES];
};

struct answer {
    uint64_t bits;
    uint8_t out[65536];
};

// The input's bytes ---------------------------------------------------------------------------------------------------

static const uint8_t *rest;
static size_t rest_size;

static uint8_t take_byte(void) {
    if (rest_size == 0) return 0;
    rest_size--;
    return *rest++;
}

// A small number or one at an edge, from one byte.
static uint64_t take_number(void) {
    static const uint64_t edges[] = {
        255, 256, 1023, 1024, 1025, 65535, 65536, 65540, 0x7FFFFFFF, 0x80000000, 0xFFFFFFFE, 0xFFFFFFFF, 0x100000000,
        0x100000007, UINT64_MAX - 3, UINT64_MAX,
    };
    uint8_t byte = take_byte();
    return byte < 240 ? byte : edges[byte - 240];
}

// Building the question -----------------------------------------------------------------------------------------------

static struct slice lend_slice(int which, size_t size) {
    static struct stretch stretches[SLICES];
    return (struct slice){lend(&stretches[which], size), size};
}

static struct slice take_bytes(int which, size_t size) {
    struct slice s = lend_slice(which, size);
    for (size_t i = 0; i < size; i++) ((uint8_t *)s.at)[i] = take_byte();
    return s;
}

static struct slice take_numbers(int which, size_t count) {
    struct slice s = lend_slice(which, 8 * count);
    for (size_t i = 0; i < count; i++) ((uint64_t *)s.at)[i] = take_number();
    return s;
}

// Bit 7 of the choice: a table made of the bytes that follow. Else 1 -> 32, 7 -> 4, perhaps with a byte less or more.
static struct slice take_table(uint8_t choice) {
    static const uint64_t usual[] = {1, 32, 7, 4, 0};
    if (choice & 128) return take_numbers(TABLE, choice % 40);
    struct slice s = lend_slice(TABLE, choice == 1 ? 31 : choice == 2 ? 33 : 32);
    memcpy(s.at, usual, s.size);
    return s;
}

static void make_checksum_right(struct slice segment) {
    if (segment.size < ASL_LEAST) return;
    uint8_t *footer = (uint8_t *)segment.at + segment.size - ASL_FOOTER_SIZE;
    uint64_t crc = plain_crc64(segment.at, segment.size - ASL_FOOTER_SIZE);
    memcpy(footer, &crc, sizeof crc);
}

static struct question take_question(void) {
    struct question q = {0};
    uint8_t kind = take_byte(), table = take_byte();
    size_t room = take_byte();
    room = room << 8 | take_byte();
    q.service = kind % RIGHT_CHECKSUM % SERVICES;
    q.slices[TABLE] = take_table(table);
    q.slices[OUT] = lend_slice(OUT, q.service == LOOK_UP || q.service == STEP ? room % LEAVES_LESS : room);
    if (q.service == LOOK_UP) {
        q.hash_id = take_number();
        q.slices[DIGEST] = take_bytes(DIGEST, take_byte() % 40);
    }
    if (q.service == STEP) q.record = take_number();
    if (q.service == WRITE) {
        q.slices[BLOOM] = take_bytes(BLOOM, take_byte() % 17);
        q.slices[DIGESTS] = take_bytes(DIGESTS, take_byte() % 80);
        q.slices[EXTENTS] = take_numbers(EXTENTS, take_byte() % 40);
        q.slices[ENTRIES] = take_numbers(ENTRIES, take_byte());
        return q;
    }
    q.slices[SEGMENT] = take_bytes(SEGMENT, rest_size);
    if (kind & RIGHT_CHECKSUM) make_checksum_right(q.slices[SEGMENT]);
    return q;
}

// Asking --------------------------------------------------------------------------------------------------------------

static asl_answer call(const struct services *to, uint64_t engine, const struct question *q) {
    const struct slice *s = q->slices, t = s[TABLE], g = s[SEGMENT], out = s[OUT];
    switch (q->service) {
    case CHECK: return to->check(engine, t.at, t.size, g.at, g.size);
    case LOOK_UP:
        return to->look_up(engine, t.at, t.size, g.at, g.size, q->hash_id, s[DIGEST].at, s[DIGEST].size, out.at,
                           out.size);
    case TIDY: return to->tidy(engine, t.at, t.size, g.at, g.size, out.at, out.size);
    case WRITE:
        return to->write(engine, t.at, t.size, 2, 3, 4, 5, 6, 7, s[BLOOM].at, s[BLOOM].size, s[ENTRIES].at,
                         s[ENTRIES].size / 8, s[DIGESTS].at, s[DIGESTS].size, s[EXTENTS].at, s[EXTENTS].size / 8,
                         out.at, out.size);
    case TIDY_LENGTH: return to->tidy_length(engine, t.at, t.size, g.at, g.size);
    case STEP: return to->step(engine, t.at, t.size, g.at, g.size, q->record, out.at, out.size);
    default: abort();
    }
}

static void ask(const struct services *to, uint64_t engine, const struct question *q, struct answer *a) {
    struct slice out = q->slices[OUT];
    memset(a, 0x5A, sizeof *a);
    memset(out.at, 0x5A, out.size);
    a->bits = call(to, engine, q).bits;
    memcpy(a->out, out.at, out.size);
}

// What a call can answer ----------------------------------------------------------------------------------------------

// Whether a record of the segment begins at that byte.
static int begins_record(struct slice segment, uint64_t byte) {
    const uint8_t *header = segment.at;
    uint64_t count = asl_little_endian(header + 32, 8), records = asl_little_endian(header + 40, 8);
    return byte >= records && (byte - records) % ASL_RECORD_SIZE == 0 && (byte - records) / ASL_RECORD_SIZE < count;
}

// Whether the refusal can have that place: in write the number of an entry, elsewhere a byte of the segment.
static int can_stand_at(const struct question *q, unsigned number, uint64_t place) {
    int writes = q->service == WRITE;
    switch (number) {
    case ASL_REFUSED_RECORD:
    case ASL_REFUSED_DIGEST:
    case ASL_REFUSED_EXTENTS:
    case ASL_REFUSED_TOTAL:
    case ASL_REFUSED_DUPLICATE:
    case ASL_REFUSED_LIST:
        return writes ? place < q->slices[ENTRIES].size / sizeof(asl_entry) : begins_record(q->slices[SEGMENT], place);
    case ASL_REFUSED_LAYOUT_BLOOM: return place == (writes ? 0 : 48);
    case ASL_REFUSED_LAYOUT_RECORDS: return place == 32;
    case ASL_REFUSED_LAYOUT_DIGESTS: return place == 64;
    case ASL_REFUSED_LAYOUT_EXTENTS: return place == 80;
    case ASL_REFUSED_LAYOUT_LENGTH: return place == 88;
    default: return place == 0;
    }
}

static int can_answer(const struct question *q, asl_answer a) {
    unsigned number = asl_number(a);
    return asl_which(a) == 0 && can_give(q->service, number) && can_stand_at(q, number, asl_place(a));
}

// The library by an engine beside plain.c.
static void compare(uint64_t engine, const struct question *q, const struct answer *theirs) {
    static struct answer ours;
    ask(&library, engine, q, &ours);
    if (memcmp(&ours, theirs, sizeof ours) != 0) {
        fprintf(stderr, "%s: the library's answer by engine %d is %#llx, plain.c's %#llx, and the bytes are %s\n",
                service_names[q->service], (int)engine, (unsigned long long)ours.bits,
                (unsigned long long)theirs->bits,
                memcmp(ours.out, theirs->out, sizeof ours.out) == 0 ? "the same" : "others");
        abort();
    }
    struct slice segment = q->slices[SEGMENT];
    if (asl_raw_checksum_by(engine, segment.at, segment.size) != plain_crc64(segment.at, segment.size)) {
        fprintf(stderr, "checksum: engine %d gives another one than plain.c\n", (int)engine);
        abort();
    }
}

int LLVMFuzzerTestOneInput(const uint8_t *input, size_t size);

int LLVMFuzzerTestOneInput(const uint8_t *input, size_t size) {
    static struct answer answer;
    rest = input;
    rest_size = size;
    struct question q = take_question();
    ask(&plain, ASL_ENGINE_FAST, &q, &answer);
    compare(ASL_ENGINE_FAST, &q, &answer);
    compare(ASL_ENGINE_PLAIN, &q, &answer);
    if (!can_answer(&q, (asl_answer){answer.bits})) {
        fprintf(stderr, "%s: it has no answer %#llx\n", service_names[q.service], (unsigned long long)answer.bits);
        abort();
    }
    return 0;
}
