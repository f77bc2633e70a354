// A call of each entry point of asl.h, held to its answer and to every byte of every buffer: a refused call changes
// nothing, an answered one nothing but what it answers. Each raw call is made again by every engine, and by the inline
// functions over it where these can be lent the same, and all have to agree. What held and what did not is counted.
#include <inttypes.h>
#include <stdarg.h>
#include <stdio.h>
#include <string.h>

#include "asl.h"
#include "by.h"
#include "given.h"
#include "lend.h"

// Of the file: sizes, and where some fields of a header, a record and the footer stand.
enum { HEADER = 112, RECORD = 48, FOOTER = 24 };
enum { SHARD = 10, SNAPSHOT_MIN = 16, SNAPSHOT_MAX = 24, RECORD_COUNT = 32, RECORDS_OFFSET = 40, BLOOM_OFFSET = 48 };
enum { DIGESTS_OFFSET = 64, HEADER_EXTENTS_OFFSET = 80, HEADER_EXTENT_COUNT = 88 };
enum { HASH_ID = 0, DIGEST_OFFSET = 8, EXTENTS_OFFSET = 16, EXTENT_COUNT = 24, TOTAL = 28, FLAGS = 44 };
enum { SEAL_SNAPSHOT = 8, SEAL_TIME = 16 };
enum { FOUND = 64, FIELDS = 104, FIELD_COUNT = 13 };
enum { CANARY = 64, ROOM = 65536, PATTERN = 0x5A };

struct bytes {
    const void *at;
    size_t size;
};

// What is expected of a call: its number and its place; and if it answers, the eight numbers of look up, the bytes of
// tidy or write. NULL where any will do.
struct wanted {
    uint64_t number, place;
    const uint64_t *found;
    const struct bytes *result;
};

static const struct wanted ANSWERED = {ASL_OK, 0, NULL, NULL};
static struct wanted refused(uint64_t number, uint64_t place) { return (struct wanted){number, place, NULL, NULL}; }

static const asl_heading HEADING = {2, 3, 4, 5, 6, 7};
static const asl_pair pairs[] = {{1, 32}, {7, 4}};
static const struct bytes TABLE = {pairs, sizeof pairs};
static const struct bytes NOTHING = {NULL, 0};
static const uint8_t digests_of_l[] = {0x0a, 0x0b, 0x0c, 0x0d, 0x0a, 0x0b, 0x0c, 0x0e};
static const struct bytes KEY = {digests_of_l, 4};
static struct bytes case_l;

// Counting ----------------------------------------------------------------------------------------------------------

static int passed, failed;
static int met[SERVICES][NUMBERS]; // the answers that were given; an answer has no number beyond
static char name[200];             // of the calls that are being made

__attribute__((format(printf, 1, 2))) static void calling(const char *format, ...) {
    va_list arguments;
    va_start(arguments, format);
    vsnprintf(name, sizeof name, format, arguments);
    va_end(arguments);
}

enum { CHECKSUM = SERVICES }; // what is called, where it is none of the services

static void expect(int holds, int called, const char *what) {
    if (holds) {
        passed++;
        return;
    }
    if (++failed <= 20) printf("%s: %s: %s\n", name, called == CHECKSUM ? "checksum" : service_names[called], what);
}

// Lending -----------------------------------------------------------------------------------------------------------

// A buffer: a wall behind it, canaries before it, and a copy of what it held. An empty one is NULL; what is not lent at
// all is all zeros.
struct lent {
    void *at;
    size_t size;
    uint8_t *canaries, *copy;
};

static struct lent lend_copy(int which, struct bytes bytes) {
    static struct stretch stretches[7];
    struct lent l = {.size = bytes.size};
    l.canaries = lend(&stretches[which], CANARY + bytes.size);
    memset(l.canaries, 0xC5, CANARY);
    if (bytes.size == 0) return l;
    l.at = l.canaries + CANARY;
    l.copy = malloc(bytes.size);
    if (!l.copy) abort();
    memcpy(l.at, bytes.at, bytes.size);
    memcpy(l.copy, bytes.at, bytes.size);
    return l;
}

// Memory of that size, filled with a pattern.
static struct lent lend_room(int which, size_t size) {
    struct bytes pattern = {malloc(size + 1), size};
    if (!pattern.at) abort();
    memset((void *)pattern.at, PATTERN, size);
    struct lent l = lend_copy(which, pattern);
    free((void *)pattern.at);
    return l;
}

// Whether the buffer is as it was from a byte on, and the canaries before it. It takes the buffer back, so answers
// about several buffers are joined by &, which asks about each of them.
static int kept(struct lent l, size_t from) {
    int same = from >= l.size || memcmp((uint8_t *)l.at + from, l.copy + from, l.size - from) == 0;
    for (int i = 0; l.canaries && i < CANARY; i++) same = same && l.canaries[i] == 0xC5;
    free(l.copy);
    return same;
}

static int patterned(const void *at, size_t size) {
    const uint8_t *byte = at;
    while (size > 0 && *byte == PATTERN) byte++, size--;
    return size == 0;
}

// Judging -----------------------------------------------------------------------------------------------------------

// Whether the call answered. Its number and place are held to what is wanted, and asl.h's functions to the bits.
static int judge(int service, asl_answer a, struct wanted w) {
    uint64_t number = a.bits & 255, which = a.bits >> 8 & 255, value = a.bits >> 16;
    met[service][number]++;
    expect(number == w.number, service, "another number");
    expect(number == ASL_OK || value == w.place, service, "another place");
    expect(which == 0, service, "it says which segment");
    expect(asl_ok(a) == (number == 0) && asl_number(a) == number && asl_which(a) == which &&
               asl_place(a) == (number ? value : 0) && asl_value(a) == (number ? 0 : value) &&
               asl_length(a) == asl_value(a) && asl_state(a) == (unsigned)asl_value(a) &&
               asl_stepped(a) == (number == 0 && value == 1),
           service, "a function of asl.h reads the answer otherwise");
    return number == ASL_OK;
}

// The calls, raw and inline -----------------------------------------------------------------------------------------

// What a call is lent.
struct asked {
    struct lent table, segment, digest, bloom, entries, digests, extents, out;
    uint64_t hash_id, record;
};

static asl_answer raw_write(const uint64_t *engine, const struct asked *k, struct lent out) {
    return BY(engine, asl_raw_write, k->table.at, k->table.size, HEADING.shard, HEADING.snapshot_min,
              HEADING.snapshot_max, HEADING.domain, HEADING.seal_snapshot, HEADING.seal_time, k->bloom.at,
              k->bloom.size, k->entries.at, k->entries.size / 8, k->digests.at, k->digests.size, k->extents.at,
              k->extents.size / 8, out.at, out.size);
}

static asl_answer raw_call(int service, const uint64_t *engine, const struct asked *k, struct lent out) {
    struct lent t = k->table, s = k->segment, d = k->digest;
    switch (service) {
    case CHECK: return BY(engine, asl_raw_check, t.at, t.size, s.at, s.size);
    case LOOK_UP:
        return BY(engine, asl_raw_look_up, t.at, t.size, s.at, s.size, k->hash_id, d.at, d.size, out.at, out.size);
    case STEP: return BY(engine, asl_raw_step, t.at, t.size, s.at, s.size, k->record, out.at, out.size);
    case TIDY_LENGTH: return BY(engine, asl_raw_tidy_length, t.at, t.size, s.at, s.size);
    case TIDY: return BY(engine, asl_raw_tidy, t.at, t.size, s.at, s.size, out.at, out.size);
    default: return raw_write(engine, k, out);
    }
}

static size_t pairs_of(const struct asked *k) { return k->table.size / sizeof(asl_pair); }

// Two inline functions leave a struct. It is made of the room and goes back there, so that each changed byte shows.
static asl_answer inline_look_up(const uint64_t *engine, const struct asked *k, struct lent out) {
    asl_found found;
    int room = out.size >= sizeof found;
    if (room) memcpy(&found, out.at, sizeof found);
    asl_answer a = BY(engine, asl_look_up, k->table.at, pairs_of(k), k->segment.at, k->segment.size, k->hash_id,
                      k->digest.at, k->digest.size, room ? &found : NULL);
    if (room) memcpy(out.at, &found, sizeof found);
    return a;
}

static asl_answer inline_step(const uint64_t *engine, const struct asked *k, struct lent out) {
    asl_record fields;
    int room = out.size >= sizeof fields;
    if (room) memcpy(&fields, out.at, sizeof fields);
    asl_answer a = BY(engine, asl_step, k->table.at, pairs_of(k), k->segment.at, k->segment.size, k->record,
                      room ? &fields : NULL);
    if (room) memcpy(out.at, &fields, sizeof fields);
    return a;
}

static asl_answer inline_write(const uint64_t *engine, const struct asked *k, struct lent out) {
    return BY(engine, asl_write, k->table.at, pairs_of(k), HEADING, k->bloom.at, k->bloom.size, k->entries.at,
              k->entries.size / sizeof(asl_entry), k->digests.at, k->digests.size, k->extents.at,
              k->extents.size / sizeof(asl_extent), out.at, out.size);
}

static asl_answer inline_call(int service, const uint64_t *engine, const struct asked *k, struct lent out) {
    struct lent t = k->table, s = k->segment;
    switch (service) {
    case CHECK: return BY(engine, asl_check, t.at, pairs_of(k), s.at, s.size);
    case LOOK_UP: return inline_look_up(engine, k, out);
    case STEP: return inline_step(engine, k, out);
    case TIDY_LENGTH: return BY(engine, asl_tidy_length, t.at, pairs_of(k), s.at, s.size);
    case TIDY: return BY(engine, asl_tidy, t.at, pairs_of(k), s.at, s.size, out.at, out.size);
    default: return inline_write(engine, k, out);
    }
}

// Other ways to make a call -----------------------------------------------------------------------------------------

// The two engines, and other numbers, which are taken as the fast one's.
static const struct engine {
    uint64_t number;
    const char *otherwise;
} engines[] = {
    {ASL_ENGINE_FAST, "otherwise by the fast engine"},
    {ASL_ENGINE_PLAIN, "otherwise by the plain engine"},
    {2, "otherwise by engine 2"},
    {(uint64_t)1 << 32, "otherwise by engine 2^32"},
    {UINT64_MAX, "otherwise by engine 2^64 - 1"},
};
enum { ENGINES = sizeof engines / sizeof *engines };

// Whether the inline functions can be lent the same: they take structs, and so no unfinished ones.
static int in_structs(const struct asked *k) {
    return k->table.size % sizeof(asl_pair) == 0 && k->entries.size % sizeof(asl_entry) == 0 &&
           k->extents.size % sizeof(asl_extent) == 0;
}

typedef asl_answer made(int service, const uint64_t *engine, const struct asked *k, struct lent out);

// The call once more, over what it was lent: it has to answer as it did, and to leave the same bytes.
static void once_more(int service, const struct asked *k, asl_answer a, made *make, const struct engine *engine) {
    struct lent again = lend_room(6, k->out.size);
    int same = make(service, engine ? &engine->number : NULL, k, again).bits == a.bits;
    same = same && (again.size == 0 || memcmp(again.at, k->out.at, again.size) == 0);
    expect(same, service, engine ? engine->otherwise : "otherwise by the inline function");
    expect(kept(again, again.size), service, "bytes before the output changed");
}

static int takes_long; // whether a call takes so long that it is made in one other way only

// The inline functions hand any number on alike, which engines.c shows, so they are called by one engine only.
static void in_other_ways(int service, const struct asked *k, asl_answer a) {
    for (int i = 0; i < ENGINES && !takes_long; i++) once_more(service, k, a, raw_call, &engines[i]);
    if (!in_structs(k)) return;
    if (!takes_long) once_more(service, k, a, inline_call, NULL);
    once_more(service, k, a, inline_call, &engines[ASL_ENGINE_PLAIN]);
}

// Each buffer as the calls left it: the output may have changed in its first bytes, `written` of them. This takes all
// buffers back.
static void judge_buffers(int service, const struct asked *k, size_t written) {
    expect(kept(k->out, written), service, "the output changed beyond the result");
    expect(kept(k->table, 0) & kept(k->segment, 0) & kept(k->digest, 0) & kept(k->bloom, 0) & kept(k->entries, 0) &
               kept(k->digests, 0) & kept(k->extents, 0),
           service, "what was lent for reading changed");
}

// Calls -------------------------------------------------------------------------------------------------------------

static void check(struct bytes table, struct bytes segment, struct wanted w) {
    struct asked k = {.table = lend_copy(0, table), .segment = lend_copy(1, segment)};
    asl_answer a = raw_call(CHECK, NULL, &k, k.out);
    if (judge(CHECK, a, w)) expect(a.bits == 0, CHECK, "a value");
    in_other_ways(CHECK, &k, a);
    judge_buffers(CHECK, &k, 0);
}

static void look_up(struct bytes table, struct bytes segment, uint64_t hash_id, struct bytes digest, size_t found_size,
                    struct wanted w) {
    struct asked k = {.table = lend_copy(0, table), .segment = lend_copy(1, segment), .digest = lend_copy(2, digest),
                      .out = lend_room(3, found_size), .hash_id = hash_id};
    asl_answer a = raw_call(LOOK_UP, NULL, &k, k.out);
    int answered = judge(LOOK_UP, a, w);
    if (answered) {
        uint64_t state;
        memcpy(&state, k.out.at, sizeof state);
        expect(a.bits >> 16 == state && state >= 1 && state <= 3, LOOK_UP, "another state");
        expect(!w.found || memcmp(k.out.at, w.found, FOUND) == 0, LOOK_UP, "other values");
    }
    in_other_ways(LOOK_UP, &k, a);
    judge_buffers(LOOK_UP, &k, answered ? FOUND : 0);
}

static uint64_t number_in(const uint8_t *at, int size) {
    uint64_t number = 0;
    while (size-- > 0) number = number << 8 | at[size];
    return number;
}

// The fields of a record as a step has to leave them: those of the file, one after the other.
static void fields_in(const uint8_t *record, uint64_t fields[FIELD_COUNT]) {
    static const int widths[FIELD_COUNT] = {4, 2, 2, 8, 8, 4, 4, 4, 1, 1, 2, 4, 4};
    for (int i = 0; i < FIELD_COUNT; record += widths[i], i++) fields[i] = number_in(record, widths[i]);
}

// Where the step is not to be refused, the segment itself says what it has to leave.
static void step(struct bytes table, struct bytes segment, uint64_t record, size_t fields_size, struct wanted w) {
    struct asked k = {.table = lend_copy(0, table), .segment = lend_copy(1, segment),
                      .out = lend_room(3, fields_size), .record = record};
    asl_answer a = raw_call(STEP, NULL, &k, k.out);
    int left = 0;
    if (judge(STEP, a, w)) {
        const uint8_t *at = segment.at;
        left = a.bits >> 16 == 1;
        expect(a.bits >> 16 == (record < number_in(at + RECORD_COUNT, 8) ? 1 : 2), STEP, "another answer");
        uint64_t expected[FIELD_COUNT];
        if (left) fields_in(at + number_in(at + RECORDS_OFFSET, 8) + RECORD * record, expected);
        if (left) expect(memcmp(k.out.at, expected, FIELDS) == 0, STEP, "other fields");
    }
    in_other_ways(STEP, &k, a);
    judge_buffers(STEP, &k, left ? FIELDS : 0);
}

static void tidy_length(struct bytes table, struct bytes segment, struct wanted w) {
    struct asked k = {.table = lend_copy(0, table), .segment = lend_copy(1, segment)};
    asl_answer a = raw_call(TIDY_LENGTH, NULL, &k, k.out);
    if (judge(TIDY_LENGTH, a, w) && w.result) expect(a.bits >> 16 == w.result->size, TIDY_LENGTH, "another length");
    in_other_ways(TIDY_LENGTH, &k, a);
    judge_buffers(TIDY_LENGTH, &k, 0);
}

// What tidy and write leave: the result at the front of the room, and its length in the answer, which is given back.
static size_t judge_result(int service, asl_answer a, const struct asked *k, struct wanted w) {
    size_t written = judge(service, a, w) ? a.bits >> 16 : 0;
    int right = written <= k->out.size;
    if (right && asl_ok(a) && w.result)
        right = written == w.result->size && memcmp(k->out.at, w.result->at, written) == 0;
    expect(right, service, "another result");
    in_other_ways(service, k, a);
    judge_buffers(service, k, written);
    return written;
}

// The tidy form, and its length before: asked for it, tidy length is refused as tidy is, but not for the room.
static void tidy(struct bytes table, struct bytes segment, size_t room, struct wanted w) {
    struct asked k = {.table = lend_copy(0, table), .segment = lend_copy(1, segment), .out = lend_room(3, room)};
    struct bytes form = {NULL, judge_result(TIDY, raw_call(TIDY, NULL, &k, k.out), &k, w)};
    if (w.number != ASL_REFUSED_ROOM)
        tidy_length(table, segment, (struct wanted){w.number, w.place, NULL, form.size ? &form : NULL});
}

struct writing {
    struct bytes table, bloom, entries, digests, extents;
    size_t room;
};

// Gives back what stands at the front of the output; good until the next call.
static struct bytes write_segment(struct writing w, struct wanted wanted) {
    struct asked k = {.table = lend_copy(0, w.table), .bloom = lend_copy(1, w.bloom),
                      .entries = lend_copy(2, w.entries), .out = lend_room(3, w.room),
                      .digests = lend_copy(4, w.digests), .extents = lend_copy(5, w.extents)};
    asl_answer a = raw_call(WRITE, NULL, &k, k.out);
    if (in_structs(&k)) {
        size_t length = asl_write_length(k.bloom.size, k.entries.at, k.entries.size / sizeof(asl_entry));
        if (asl_ok(a)) expect(length == asl_length(a), WRITE, "another length than asl_write_length's");
        if (asl_number(a) == ASL_REFUSED_LARGE) expect(length == 0, WRITE, "asl_write_length has a length");
    }
    return (struct bytes){k.out.at, judge_result(WRITE, a, &k, wanted)};
}

// The segment, which is not accepted, to each service that is lent one, with a good table and key.
static void to_each(struct bytes segment, struct wanted w) {
    check(TABLE, segment, w);
    look_up(TABLE, segment, 7, KEY, FOUND, w);
    step(TABLE, segment, 0, FIELDS, w);
    step(TABLE, segment, UINT64_MAX, 0, w);
    tidy(TABLE, segment, ROOM, w);
}

// An accepted segment walked to its end and beyond, with too little room, enough, and more.
static void walk(struct bytes segment) {
    uint64_t count = number_in((const uint8_t *)segment.at + RECORD_COUNT, 8);
    for (uint64_t record = 0; record < count; record++)
        for (size_t size = FIELDS - 1; size <= FIELDS + 1; size++)
            step(TABLE, segment, record, size, size < FIELDS ? refused(ASL_REFUSED_ROOM, 0) : ANSWERED);
    for (size_t size = 0; size <= FIELDS + 1; size++) {
        step(TABLE, segment, count, size, ANSWERED);
        step(TABLE, segment, UINT64_MAX, size, ANSWERED);
    }
}
