// calls FIXTURES SAMPLE: calls every entry point of asl.h on every kind of answer, by every engine. FIXTURES is
// tests/fixtures, SAMPLE is samples/case-l.asl. Each call is held to its answer and to every byte of every buffer: a
// refused call changes nothing, an answered one nothing but what it answers. The stack that they take is measured. Its
// last line is `N passed, M failed`; where it cannot read what it is given, it says so and ends without one.
#include "held.h"
#include "stack.h"

// Files -------------------------------------------------------------------------------------------------------------

__attribute__((noreturn)) static void give_up(const char *what, const char *where) {
    printf("%s\n%s\n", where, what);
    exit(1);
}

static FILE *open_file(const char *path) {
    FILE *file = fopen(path, "rb");
    if (!file) give_up("it is not there", path);
    return file;
}

static struct bytes read_file(const char *path) {
    static uint8_t content[ROOM];
    FILE *file = open_file(path);
    size_t size = fread(content, 1, sizeof content, file);
    fclose(file);
    if (size == sizeof content) give_up("it is too long to be read here", path);
    return (struct bytes){content, size};
}

// A segment of the fixtures to the service that its line names. A step refuses as check does.
static void fixture(struct bytes segment, const char *service, struct wanted w) {
    if (strcmp(service, "check") == 0) {
        check(TABLE, segment, w);
        step(TABLE, segment, 0, FIELDS, w);
        if (w.number == ASL_OK) walk(segment);
    } else if (strcmp(service, "look-up") == 0) {
        look_up(TABLE, segment, 7, KEY, FOUND, w);
    } else if (strcmp(service, "step") == 0) {
        step(TABLE, segment, 0, FIELDS, w);
    } else if (strcmp(service, "tidy-length") == 0) {
        tidy_length(TABLE, segment, w);
    } else if (strcmp(service, "tidy") == 0) {
        tidy(TABLE, segment, ROOM, w);
    } else {
        give_up("expected.txt has a service for it that is lent no segment", name);
    }
}

static int is_known(const char *service) {
    for (int i = 0; i < SERVICES; i++)
        if (strcmp(service, service_names[i]) == 0) return 1;
    return 0;
}

static int ends_with(const char *word, const char *end) {
    size_t all = strlen(word), last = strlen(end);
    return all >= last && strcmp(word + all - last, end) == 0;
}

// The segments among the fixtures. Argument lists are left to the comparison of tests/independent.
static void fixtures(const char *folder) {
    char path[500], line[500], file[200], service[20], more;
    uint64_t number, place;
    snprintf(path, sizeof path, "%s/expected.txt", folder);
    FILE *list = open_file(path);
    while (fgets(line, sizeof line, list)) {
        if (line[0] == '#') continue;
        if (sscanf(line, "%199s %19s %" SCNu64 " %" SCNu64 " %c", file, service, &number, &place, &more) != 4)
            give_up("this is not a file, a service, a number and a place", line);
        if (!is_known(service)) give_up("this names a service that is not known", line);
        if (ends_with(file, ".args")) continue;
        if (!ends_with(file, ".asl")) give_up("this names a file that is no segment and no argument list", line);
        calling("fixture %s", file);
        snprintf(path, sizeof path, "%s/%s", folder, file);
        fixture(read_file(path), service, refused(number, place));
    }
    fclose(list);
}

// Changing a segment ------------------------------------------------------------------------------------------------

static struct bytes copy(struct bytes bytes) {
    void *at = malloc(bytes.size);
    if (!at) abort();
    return (struct bytes){memcpy(at, bytes.at, bytes.size), bytes.size};
}

static void put(uint8_t *at, uint64_t number, int size) {
    for (int i = 0; i < size; i++) at[i] = (uint8_t)(number >> 8 * i);
}

// The checksum, bit by bit.
static uint64_t sum_of(const uint8_t *bytes, size_t size) {
    uint64_t c = UINT64_MAX;
    for (size_t i = 0; i < size; i++) {
        c ^= bytes[i];
        for (int bit = 0; bit < 8; bit++) c = c & 1 ? c >> 1 ^ 0xC96C5795D7870F42 : c >> 1;
    }
    return ~c;
}

// The checksum made right.
static void seal(uint8_t *segment, size_t size) {
    put(segment + size - FOOTER, sum_of(segment, size - FOOTER), 8);
}

// Case L with the heading that is lent to write, in which no two numbers are the same: an exchange would show.
static struct bytes headed(struct bytes sample) {
    struct bytes segment = copy(sample);
    uint8_t *at = (uint8_t *)segment.at, *footer = at + segment.size - FOOTER;
    put(at + SHARD, HEADING.shard, 2);
    put(at + SNAPSHOT_MIN, HEADING.snapshot_min, 8);
    put(at + SNAPSHOT_MAX, HEADING.snapshot_max, 8);
    put(footer + SEAL_SNAPSHOT, HEADING.seal_snapshot, 8);
    put(footer + SEAL_TIME, HEADING.seal_time, 8);
    seal(at, segment.size);
    return segment;
}

// Case L: a present key, a gone one, an absent one, every shorter beginning -----------------------------------------

static const struct wanted ANOTHER_LENGTH = {ASL_REFUSED_LAYOUT_LENGTH, HEADER_EXTENT_COUNT, NULL, NULL};

static void beginnings(void) {
    for (size_t size = 0; size < case_l.size; size++) {
        calling("the first %zu bytes of case L", size);
        to_each((struct bytes){case_l.at, size}, size < ASL_LEAST ? refused(ASL_REFUSED_SIZE, 0) : ANOTHER_LENGTH);
    }
    uint8_t more[257] = {0};
    memcpy(more, case_l.at, case_l.size);
    calling("case L and one byte more");
    to_each((struct bytes){more, sizeof more}, ANOTHER_LENGTH);
}

// Every rule of the layout is broken, and then they are mended one by one: the first that is broken wins. The checksum
// is wrong until the last is mended.
static void broken_layout(void) {
    static const struct {
        uint64_t number, place;
        size_t field;
        uint64_t wrong;
    } rules[] = {
        {ASL_REFUSED_LAYOUT_BLOOM, 48, BLOOM_OFFSET, 112},
        {ASL_REFUSED_LAYOUT_RECORDS, 32, RECORDS_OFFSET, 120},
        {ASL_REFUSED_LAYOUT_DIGESTS, 64, DIGESTS_OFFSET, 224},
        {ASL_REFUSED_LAYOUT_EXTENTS, 80, HEADER_EXTENTS_OFFSET, 224},
        {ASL_REFUSED_LAYOUT_LENGTH, 88, HEADER_EXTENT_COUNT, 0},
    };
    struct bytes segment = copy(case_l);
    uint8_t *at = (uint8_t *)segment.at;
    size_t count = sizeof rules / sizeof *rules;
    for (size_t i = 0; i < count; i++) put(at + rules[i].field, rules[i].wrong, 8);
    for (size_t i = 0; i < count; i++) {
        calling("the last %zu layout rules broken", count - i);
        to_each(segment, refused(rules[i].number, rules[i].place));
        memcpy(at + rules[i].field, (const uint8_t *)case_l.at + rules[i].field, 8);
    }
    calling("every layout rule mended");
    check(TABLE, segment, ANSWERED);
    free(at);
}

// The first record that is refused wins, whatever stands in a later one.
static void bad_total_and_bad_flag(void) {
    struct bytes segment = copy(case_l);
    uint8_t *record_0 = (uint8_t *)segment.at + HEADER, *record_1 = record_0 + RECORD;
    put(record_1 + FLAGS, 3, 4);
    seal((uint8_t *)segment.at, segment.size);
    calling("record 1 with a bad flag");
    to_each(segment, refused(ASL_REFUSED_RECORD, 160));
    put(record_0 + TOTAL, 4, 4);
    seal((uint8_t *)segment.at, segment.size);
    calling("record 0 with a bad total and record 1 with a bad flag");
    to_each(segment, refused(ASL_REFUSED_TOTAL, 112));
    free((void *)segment.at);
}

static void answers(void) {
    static const uint64_t present[] = {ASL_STATE_PRESENT, 1, 5, 0, 0, 3, 216, 1};
    static const uint64_t gone[] = {ASL_STATE_GONE, 0, 5, 0, 0, 0, 0, 0};
    static const uint64_t absent[] = {ASL_STATE_ABSENT, 0, 0, 0, 0, 0, 0, 0};
    static const uint8_t unknown[32] = {0};
    calling("case L");
    check(TABLE, case_l, ANSWERED);
    for (size_t size = FOUND; size <= FOUND + 2; size++) {
        look_up(TABLE, case_l, 7, KEY, size, (struct wanted){ASL_OK, 0, present, NULL});
        look_up(TABLE, case_l, 7, (struct bytes){digests_of_l + 4, 4}, size, (struct wanted){ASL_OK, 0, gone, NULL});
        look_up(TABLE, case_l, 7, (struct bytes){unknown, 4}, size, (struct wanted){ASL_OK, 0, absent, NULL});
        look_up(TABLE, case_l, 1, (struct bytes){unknown, 32}, size, (struct wanted){ASL_OK, 0, absent, NULL});
    }
    walk(case_l);
    for (size_t room = 256; room < 259; room++)
        tidy(TABLE, case_l, room, (struct wanted){ASL_OK, 0, NULL, &case_l});
}

// Refusals of what is lent besides a segment ------------------------------------------------------------------------

static void rooms_and_keys(void) {
    calling("too little room");
    for (size_t room = 0; room < 256; room++) tidy(TABLE, case_l, room, refused(ASL_REFUSED_ROOM, 0));
    for (size_t size = 0; size < FOUND; size++) look_up(TABLE, case_l, 7, KEY, size, refused(ASL_REFUSED_ROOM, 0));
    for (size_t size = 0; size < FIELDS; size++) step(TABLE, case_l, 1, size, refused(ASL_REFUSED_ROOM, 0));
    calling("a bad segment before too little room");
    look_up(TABLE, (struct bytes){case_l.at, 200}, 7, KEY, 0, ANOTHER_LENGTH);
    step(TABLE, (struct bytes){case_l.at, 200}, 0, 0, ANOTHER_LENGTH);
    tidy(TABLE, (struct bytes){case_l.at, 200}, 0, ANOTHER_LENGTH);
    calling("a key of a wrong length");
    for (size_t size = 0; size < 8; size++) {
        struct bytes key = {digests_of_l, size};
        if (size != KEY.size) look_up(TABLE, case_l, 7, key, FOUND, refused(ASL_REFUSED_KEY, 0));
    }
    calling("an unknown hash id");
    look_up(TABLE, case_l, 8, KEY, FOUND, refused(ASL_REFUSED_KEY, 0));
    calling("a hash id that is right modulo 2^32");
    look_up(TABLE, case_l, ((uint64_t)1 << 32) + 7, KEY, FOUND, refused(ASL_REFUSED_KEY, 0));
    calling("a bad key before a bad segment");
    look_up(TABLE, NOTHING, 8, KEY, FOUND, refused(ASL_REFUSED_KEY, 0));
}

static void table_to_each(struct bytes table) {
    struct wanted w = refused(ASL_REFUSED_TABLE, 0);
    check(table, case_l, w);
    check(table, NOTHING, w);
    look_up(table, case_l, 8, NOTHING, 0, w);
    step(table, case_l, 0, 0, w);
    tidy(table, case_l, 0, w);
    write_segment((struct writing){.table = table}, w);
}

static void bad_tables(void) {
    static const uint64_t bad[][4] = {
        {1, 32, 1, 32}, {1, 0, 7, 4}, {1, 1025, 7, 4}, {1, 32, (uint64_t)1 << 32, 4}, {1, 32, 7, 65540},
    };
    for (size_t size = 0; size < TABLE.size; size++) {
        calling("the first %zu bytes of the table", size);
        if (size != sizeof(asl_pair)) table_to_each((struct bytes){TABLE.at, size});
    }
    for (size_t i = 0; i < sizeof bad / sizeof *bad; i++) {
        calling("bad table %zu", i);
        table_to_each((struct bytes){bad[i], sizeof bad[i]});
    }
    uint64_t many[2 * 17];
    for (size_t pair = 0; pair < 17; pair++) many[2 * pair] = pair, many[2 * pair + 1] = pair == 7 ? 4 : 32;
    calling("16 pairs, and 17");
    check((struct bytes){many, 16 * sizeof(asl_pair)}, case_l, ANSWERED);
    table_to_each((struct bytes){many, sizeof many});
}

// A file at the limit, and one longer by a byte. Neither is ever read as far as memory is used for it.
static void longest(void) {
    uint8_t *zeros = mmap(NULL, (size_t)ASL_LIMIT + 1, PROT_READ, MAP_PRIVATE | MAP_ANONYMOUS | MAP_NORESERVE, -1, 0);
    if (zeros == MAP_FAILED) abort();
    for (size_t more = 0; more < 2; more++) {
        calling("zeros, as many as the limit and %zu more", more);
        judge(CHECK, asl_raw_check(TABLE.at, TABLE.size, zeros, (size_t)ASL_LIMIT + more),
              refused(more ? ASL_REFUSED_SIZE : ASL_REFUSED_MAGIC, 0));
    }
    munmap(zeros, (size_t)ASL_LIMIT + 1);
}

// Write -------------------------------------------------------------------------------------------------------------

static const asl_entry entries_of_l[] = {
    {7, 0, 4, 1, 0, 0, 0, 0, 1}, // live and published
    {7, 4, 4, 0, 0, 0, 1, 0, 0}, // gone
};
static const asl_extent extents_of_l[] = {{9, 64, 3}};

static struct writing writing_of_l(void) {
    return (struct writing){
        .table = TABLE,
        .entries = {entries_of_l, sizeof entries_of_l},
        .digests = {digests_of_l, sizeof digests_of_l},
        .extents = {extents_of_l, sizeof extents_of_l},
        .room = 256,
    };
}

static void written(void) {
    struct writing a = writing_of_l();
    asl_entry longer[3];
    calling("case L written");
    for (a.room = 0; a.room < 256; a.room++) write_segment(a, refused(ASL_REFUSED_ROOM, 0));
    for (; a.room < 260; a.room++) write_segment(a, (struct wanted){ASL_OK, 0, NULL, &case_l});
    calling("an unfinished entry");
    memset(longer, 0xFF, sizeof longer);
    memcpy(longer, entries_of_l, sizeof entries_of_l);
    a.entries = (struct bytes){longer, sizeof longer - sizeof(uint64_t)};
    write_segment(a, (struct wanted){ASL_OK, 0, NULL, &case_l});
    calling("nothing written");
    struct bytes empty = write_segment((struct writing){.table = TABLE, .room = ASL_LEAST}, ANSWERED);
    check(TABLE, empty, ANSWERED);
}

// A field of entry 1 changed, given by its place in the struct. The refusal's place is the entry's number.
static void changed_entry(size_t field, uint64_t value, uint64_t number) {
    struct writing a = writing_of_l();
    asl_entry entries[2];
    memcpy(entries, entries_of_l, sizeof entries);
    memcpy((uint8_t *)&entries[1] + field, &value, sizeof value);
    a.entries.at = entries;
    calling("the number at byte %zu of entry 1 is %" PRIu64, field, value);
    write_segment(a, refused(number, 1));
}

static void bad_entries(void) {
    changed_entry(offsetof(asl_entry, visibility), 2, ASL_REFUSED_RECORD);
    changed_entry(offsetof(asl_entry, imported), 256, ASL_REFUSED_RECORD);
    changed_entry(offsetof(asl_entry, source), 8, ASL_REFUSED_RECORD);
    changed_entry(offsetof(asl_entry, gone), 2, ASL_REFUSED_RECORD);
    changed_entry(offsetof(asl_entry, digest_start), 5, ASL_REFUSED_LIST);
    changed_entry(offsetof(asl_entry, digest_start), UINT64_MAX - 1, ASL_REFUSED_LIST);
    changed_entry(offsetof(asl_entry, first_extent), 2, ASL_REFUSED_LIST);
    changed_entry(offsetof(asl_entry, extent_count), UINT64_MAX, ASL_REFUSED_LIST);
    changed_entry(offsetof(asl_entry, hash_id), 8, ASL_REFUSED_DIGEST);
    changed_entry(offsetof(asl_entry, hash_id), ((uint64_t)1 << 32) + 7, ASL_REFUSED_DIGEST);
    changed_entry(offsetof(asl_entry, digest_length), 3, ASL_REFUSED_DIGEST);
    changed_entry(offsetof(asl_entry, first_extent), 1, ASL_REFUSED_EXTENTS);
    changed_entry(offsetof(asl_entry, extent_count), 1, ASL_REFUSED_EXTENTS);
    changed_entry(offsetof(asl_entry, gone), 0, ASL_REFUSED_EXTENTS);
    changed_entry(offsetof(asl_entry, digest_start), 0, ASL_REFUSED_DUPLICATE);
}

static void bad_lists(void) {
    static const asl_extent bad[] = {
        {9, 0xFFFFFFFF, 2}, {9, (uint64_t)1 << 32, 0}, {9, 0, (uint64_t)1 << 32}, {9, UINT64_MAX, 1},
    };
    struct writing a = writing_of_l();
    for (size_t i = 0; i < sizeof bad / sizeof *bad; i++) {
        calling("bad extent %zu", i);
        a.extents.at = &bad[i];
        write_segment(a, refused(ASL_REFUSED_TOTAL, 0));
    }
    a = writing_of_l();
    calling("an unfinished extent");
    a.extents.size -= 8;
    write_segment(a, refused(ASL_REFUSED_LIST, 0));
    a = writing_of_l();
    calling("a bloom of 7 bytes");
    a.bloom = (struct bytes){digests_of_l, 7};
    write_segment(a, refused(ASL_REFUSED_LAYOUT_BLOOM, 0));
}

// Counts that wrap when they are made bytes or numbers: an inline function does not take them for smaller ones.
static void impossible_counts(void) {
    static const size_t counts[] = {((size_t)1 << 60) + 2, ((size_t)1 << 61) + 2, SIZE_MAX / 3 + 2, SIZE_MAX};
    uint8_t out[256];
    memset(out, PATTERN, sizeof out);
    for (size_t i = 0; i < sizeof counts / sizeof *counts; i++) {
        size_t count = counts[i];
        calling("%zu pairs, entries or extents", count);
        judge(CHECK, asl_check(pairs, count, case_l.at, case_l.size), refused(ASL_REFUSED_TABLE, 0));
        judge(WRITE, asl_write(pairs, 2, HEADING, NULL, 0, entries_of_l, count, digests_of_l, sizeof digests_of_l,
                               extents_of_l, 1, out, sizeof out), refused(ASL_REFUSED_LARGE, 0));
        judge(WRITE, asl_write(pairs, 2, HEADING, NULL, 0, entries_of_l, 2, digests_of_l, sizeof digests_of_l,
                               extents_of_l, count, out, sizeof out), refused(ASL_REFUSED_LIST, 0));
        expect(asl_write_length(0, entries_of_l, count) == 0, WRITE, "asl_write_length has a length");
        expect(asl_write_length(count, entries_of_l, 2) == 0, WRITE, "asl_write_length has a length");
    }
    expect(patterned(out, sizeof out), WRITE, "the output changed");
    asl_entry huge[] = {entries_of_l[0], entries_of_l[0]};
    huge[1].extent_count = UINT64_MAX;
    calling("an entry of 2^64 - 1 extents");
    expect(asl_write_length(0, huge, 2) == 0, WRITE, "asl_write_length has a length");
}

// What asl.h says of the library and of what lies in memory.
static void declared(void) {
    _Static_assert(sizeof(asl_answer) == 8 && sizeof(asl_pair) == 16 && sizeof(asl_entry) == 72 &&
                       sizeof(asl_extent) == 24 && sizeof(asl_found) == FOUND && sizeof(asl_record) == FIELDS,
                   "the structs lie as the raw calls take and leave them");
    asl_extent extent = asl_extent_at(case_l.at, 216, 0);
    calling("asl.h");
    expect(asl_raw_version() == ((uint64_t)3 << 32) + (1 << 16) && asl_version() == ASL_VERSION, CHECK,
           "another version");
    expect(memcmp(&extent, extents_of_l, sizeof extent) == 0, LOOK_UP, "another extent");
}

// The checksum ------------------------------------------------------------------------------------------------------

// The bytes have that checksum by every engine: whole, and in two parts, the first by one engine and the rest by
// another.
static void checksum(struct bytes bytes, uint64_t sum) {
    struct lent l = lend_copy(0, bytes);
    size_t first = l.size / 3, rest = l.size - first;
    const uint8_t *at = l.at, *rest_at = first > 0 ? at + first : at;
    uint64_t before = asl_raw_checksum(at, first);
    expect(asl_raw_checksum(at, l.size) == sum && asl_checksum(at, l.size) == sum, CHECKSUM, "another checksum");
    expect(asl_raw_checksum_on(before, rest_at, rest) == sum &&
               asl_checksum_on(asl_checksum_on(0, at, first), rest_at, rest) == sum,
           CHECKSUM, "another checksum in parts");
    for (int i = 0; i < ENGINES; i++) {
        uint64_t engine = engines[i].number, next = engines[(i + 1) % ENGINES].number;
        expect(asl_raw_checksum_by(engine, at, l.size) == sum && asl_checksum_by(engine, at, l.size) == sum, CHECKSUM,
               engines[i].otherwise);
        before = asl_checksum_on_by(engine, 0, at, first);
        expect(asl_raw_checksum_on_by(next, before, rest_at, rest) == sum &&
                   asl_checksum_on_by(next, before, rest_at, rest) == sum,
               CHECKSUM, engines[i].otherwise);
    }
    expect(kept(l, 0), CHECKSUM, "what was lent for reading changed");
}

// Published sums; every length to 80, at whose end the wall stands, so that the beginnings have every alignment; and
// longer ones, of which some are too short for the fast engine's tables to pay and some are not.
static void checksums(void) {
    static uint8_t many[65536 + 5];
    for (size_t i = 0; i < sizeof many; i++) many[i] = (uint8_t)(i * i >> 3 ^ i);
    calling("no bytes");
    checksum(NOTHING, 0);
    calling("the published bytes");
    checksum((struct bytes){"123456789", 9}, 0x995DC9BBDF1939FA);
    for (size_t size = 0; size <= sizeof many; size += size < 80 ? 1 : size < 1024 ? 13 : size - 5) {
        calling("%zu bytes", size);
        checksum((struct bytes){many, size}, sum_of(many, size));
    }
    calling("case L's own");
    checksum((struct bytes){case_l.at, case_l.size - FOOTER},
             number_in((const uint8_t *)case_l.at + case_l.size - FOOTER, 8));
}

// Many entries ------------------------------------------------------------------------------------------------------

// Where the extents begin in a segment of that many records with 4-byte digests, if the number is even.
static uint64_t many_extents_at(size_t count) { return HEADER + RECORD * count + 4 * count; }

// `count` live entries, each with a digest and an extent of length 0 of its own; the last has `extents` extents.
static struct writing many(size_t count, size_t extents) {
    size_t entries_size = sizeof(asl_entry) * count, extents_size = sizeof(asl_extent) * (count - 1 + extents);
    asl_entry *entries = calloc(1, entries_size);
    asl_extent *lent_extents = calloc(1, extents_size);
    uint8_t *digests = calloc(4, count);
    if (!entries || !lent_extents || !digests) abort();
    for (size_t i = 0; i < count; i++) {
        entries[i].hash_id = 7;
        entries[i].digest_start = 4 * i;
        entries[i].digest_length = 4;
        entries[i].first_extent = i;
        entries[i].extent_count = i + 1 < count ? 1 : extents;
        for (size_t byte = 0; byte < 4; byte++) digests[4 * i + byte] = (uint8_t)(i >> (24 - 8 * byte));
    }
    size_t room = many_extents_at(count + 1) + ASL_EXTENT_SIZE * (count - 1 + extents) + FOOTER;
    return (struct writing){TABLE, NOTHING, {entries, entries_size}, {digests, 4 * count}, {lent_extents, extents_size},
                            room};
}

static void take_back(struct writing a) {
    free((void *)a.entries.at);
    free((void *)a.digests.at);
    free((void *)a.extents.at);
}

// The number of the record for which a segment is refused, as docs/C.md says that a caller finds it.
static uint64_t refused_record(const uint8_t *segment, asl_answer a) {
    return (asl_place(a) - asl_little_endian(segment + 40, 8)) / ASL_RECORD_SIZE;
}

// A field of record 3 changed, in a segment with 64 bloom bytes: the record begins at 112 + 64 + 48 * 3, the place.
static void changed_record(struct bytes written, size_t field, uint64_t value, int size, uint64_t number) {
    struct bytes segment = copy(written);
    uint8_t *at = (uint8_t *)segment.at;
    put(at + 320 + field, value, size);
    seal(at, segment.size);
    calling("the number at byte %zu of record 3 is %" PRIu64, field, value);
    to_each(segment, refused(number, 320));
    expect(refused_record(at, asl_check(pairs, 2, at, segment.size)) == 3, CHECK, "another record by docs/C.md");
    free(at);
}

static void bad_records_after_bloom(void) {
    static const uint8_t bloom[64] = {0};
    struct writing a = many(4, 1);
    a.bloom = (struct bytes){bloom, sizeof bloom};
    a.room += sizeof bloom;
    calling("four entries and a bloom");
    struct bytes written = copy(write_segment(a, ANSWERED));
    uint64_t digest_of_1 = number_in((const uint8_t *)written.at + HEADER + sizeof bloom + RECORD + DIGEST_OFFSET, 8);
    changed_record(written, FLAGS, 2, 4, ASL_REFUSED_RECORD);
    changed_record(written, HASH_ID, 8, 4, ASL_REFUSED_DIGEST);
    changed_record(written, EXTENT_COUNT, 0, 4, ASL_REFUSED_EXTENTS);
    changed_record(written, TOTAL, 1, 4, ASL_REFUSED_TOTAL);
    changed_record(written, DIGEST_OFFSET, digest_of_1, 8, ASL_REFUSED_DUPLICATE);
    free((void *)written.at);
    take_back(a);
}

static void most_entries(void) {
    static const uint8_t last[] = {0, 0, 0xFF, 0xFF};
    uint64_t last_extent = many_extents_at(65536) + ASL_EXTENT_SIZE * 65535;
    uint64_t present[] = {ASL_STATE_PRESENT, 0, 5, 0, 0, 0, last_extent, 1};
    struct writing a = many(ASL_RECORDS_LIMIT, 1);
    calling("65,536 entries");
    struct bytes segment = copy(write_segment(a, ANSWERED));
    expect(segment.size == 136 + (52 + 16) * 65536, WRITE, "another length");
    check(TABLE, segment, ANSWERED);
    look_up(TABLE, segment, 7, (struct bytes){last, 4}, FOUND, (struct wanted){ASL_OK, 0, present, NULL});
    step(TABLE, segment, 65535, FIELDS, ANSWERED);
    step(TABLE, segment, 65536, FIELDS, ANSWERED);
    tidy(TABLE, segment, segment.size + 1, (struct wanted){ASL_OK, 0, NULL, &segment});
    free((void *)segment.at);
    take_back(a);
    a = many(ASL_RECORDS_LIMIT + 1, 1);
    calling("65,537 entries");
    write_segment(a, refused(ASL_REFUSED_LARGE, 0));
    take_back(a);
}

static void reverse(void *items, size_t count, size_t size) {
    uint8_t *first = items, *last = first + size * (count - 1), held[100];
    for (; first < last; first += size, last -= size) {
        memcpy(held, first, size);
        memcpy(first, last, size);
        memcpy(last, held, size);
    }
}

// Entries, and then records, from the last to the first: the result is the same.
static void turned_round(void) {
    enum { COUNT = 1000 };
    struct writing a = many(COUNT, 1);
    calling("1,000 entries and records, turned round");
    struct bytes written = copy(write_segment(a, ANSWERED)), turned = copy(written);
    struct wanted the_same = {ASL_OK, 0, NULL, &written};
    reverse((void *)a.entries.at, COUNT, sizeof(asl_entry));
    write_segment(a, the_same);
    reverse((uint8_t *)turned.at + HEADER, COUNT, RECORD);
    seal((uint8_t *)turned.at, turned.size);
    tidy(TABLE, turned, written.size + 1, the_same);
    free((void *)written.at);
    free((void *)turned.at);
    take_back(a);
}

// Results over the limit. For write: each of 4,096 entries has all of 16,384 extents. For tidy: a segment of as many
// records is made to share one's extents in the same way. So each call adds up 67 million lengths.
static void too_large(void) {
    enum { COUNT = 4096, SHARED = 16384 };
    struct writing a = many(COUNT, SHARED);
    calling("a result over the limit");
    struct bytes segment = copy(write_segment(a, ANSWERED));
    uint64_t shared_from = many_extents_at(COUNT) + ASL_EXTENT_SIZE * (COUNT - 1);
    for (size_t i = 0; i < COUNT; i++) {
        asl_entry *entry = (asl_entry *)a.entries.at + i;
        uint8_t *record = (uint8_t *)segment.at + HEADER + RECORD * i;
        entry->first_extent = COUNT - 1;
        entry->extent_count = SHARED;
        put(record + EXTENTS_OFFSET, shared_from, 8);
        put(record + EXTENT_COUNT, SHARED, 4);
    }
    seal((uint8_t *)segment.at, segment.size);
    takes_long = 1;
    tidy(TABLE, segment, ROOM, refused(ASL_REFUSED_LARGE, 0));
    write_segment(a, refused(ASL_REFUSED_LARGE, 0));
    takes_long = 0;
    free((void *)segment.at);
    take_back(a);
}

// The whole ---------------------------------------------------------------------------------------------------------

// Every number that an entry point can give was given, and no other. Each can answer as well, which is 0.
static void every_number(void) {
    for (int service = 0; service < SERVICES; service++)
        for (unsigned number = 0; number < NUMBERS; number++) {
            int given = met[service][number] > 0;
            calling("number %u (%s)", number, asl_refusal_name(number));
            if (given || can_give(service, number))
                expect(given && can_give(service, number), service, "given though it cannot be, or never");
        }
}

static void *all_calls(void *arguments) {
    char **paths = arguments;
    fixtures(paths[1]);
    case_l = headed(read_file(paths[2]));
    answers();
    beginnings();
    broken_layout();
    bad_total_and_bad_flag();
    rooms_and_keys();
    bad_tables();
    longest();
    declared();
    checksums();
    written();
    bad_entries();
    bad_lists();
    impossible_counts();
    bad_records_after_bloom();
    most_entries();
    turned_round();
    too_large();
    every_number();
    return NULL;
}

// Makes all calls on a painted stack, and counts how far they came down in it. What this program takes for itself is
// counted too.
int main(int argc, char **argv) {
    enum { PROMISED = 1 << 20 };
    memset(stack, PAINT, STACK);
    if (argc != 3 || !on_stack(all_calls, argv)) return 2;
    int untouched = 0;
    while (untouched < STACK && stack[untouched] == PAINT) untouched++;
    printf("all calls took at most %d bytes of stack\n", STACK - untouched);
    calling("all calls");
    expect(STACK - untouched < PROMISED, WRITE, "more stack than asl.h promises");
    printf("%d passed, %d failed\n", passed, failed);
    return failed > 0;
}
