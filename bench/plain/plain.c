// The raw calls of asl.h in plain C, written without a look at the crates: a yardstick for the speed of the library, and
// a third opinion beside it and tests/independent/asl.py. It allocates where the library does not, and aborts where there
// is no memory, since there is no refusal for that.
//
// NAME gives the functions their names: those of asl.h by default, so that this links in the library's place. Compiled
// with -D'NAME(x)=plain_##x' it links beside it. A caller who does not choose an engine gets a checksum that takes eight
// bytes at a step, or one with -DSTRIDE=1; it is NAME(crc64). One who chooses gets eight by the fast engine and one by the
// plain one.
#include "items.h"

static asl_answer answered(uint64_t value) { return (asl_answer){value << 16}; }
static asl_answer refusal(uint64_t number, uint64_t place) { return (asl_answer){number | place << 16}; }
static asl_answer accepted(void) { return answered(0); }

// The checksum by an engine -----------------------------------------------------------------------------------------

// What a caller gets who does not choose.
static const uint64_t UNCHOSEN = STRIDE == 8 ? ASL_ENGINE_FAST : ASL_ENGINE_PLAIN;

uint64_t NAME(checksum_on_by)(uint64_t engine, uint64_t before, const uint8_t *bytes, size_t size) {
    return crc64_on(engine == ASL_ENGINE_PLAIN ? 1 : 8, before, bytes, size);
}

uint64_t NAME(checksum_on)(uint64_t before, const uint8_t *bytes, size_t size) {
    return NAME(checksum_on_by)(UNCHOSEN, before, bytes, size);
}

uint64_t NAME(checksum_by)(uint64_t engine, const uint8_t *bytes, size_t size) {
    return NAME(checksum_on_by)(engine, 0, bytes, size);
}

uint64_t NAME(checksum)(const uint8_t *bytes, size_t size) { return NAME(crc64)(bytes, size); }

// Reading a segment -------------------------------------------------------------------------------------------------

struct segment {
    const uint8_t *bytes;
    uint64_t size, record_count, records, bloom, bloom_size, digests, digests_size, extents, extent_count;
    uint32_t domain;
    uint8_t visibility;
};

// Whether start + size is end. The sum is not made, since it might wrap.
static int ends_at(uint64_t start, uint64_t size, uint64_t end) { return end >= start && end - start == size; }

// Refusals 51 to 55, each at the byte of the header at which its fields begin. No product wraps: when one is made, its
// count is known to be small.
static asl_answer check_layout(const struct segment *s) {
    if (s->bloom != (s->bloom_size ? HEADER : 0) || s->bloom_size % 8 != 0)
        return refusal(ASL_REFUSED_LAYOUT_BLOOM, H_BLOOM_OFFSET);
    if (s->record_count > ASL_RECORDS_LIMIT || !ends_at(HEADER, s->bloom_size, s->records))
        return refusal(ASL_REFUSED_LAYOUT_RECORDS, H_RECORD_COUNT);
    if (!ends_at(s->records, RECORD * s->record_count, s->digests) || s->digests_size % 8 != 0)
        return refusal(ASL_REFUSED_LAYOUT_DIGESTS, H_DIGESTS_OFFSET);
    if (!ends_at(s->digests, s->digests_size, s->extents))
        return refusal(ASL_REFUSED_LAYOUT_EXTENTS, H_EXTENTS_OFFSET);
    if (s->extent_count > s->size || !ends_at(s->extents, EXTENT * s->extent_count, s->size - FOOTER))
        return refusal(ASL_REFUSED_LAYOUT_LENGTH, H_EXTENT_COUNT);
    return accepted();
}

// Refusals 1 to 4, 51 to 55 and 6; *s is the segment if there is none.
static asl_answer read_segment(struct segment *s, uint64_t engine, const uint8_t *bytes, size_t size) {
    if (size < ASL_LEAST || size > ASL_LIMIT) return refusal(ASL_REFUSED_SIZE, 0);
    if (memcmp(bytes + H_MAGIC, MAGIC, sizeof MAGIC) != 0) return refusal(ASL_REFUSED_MAGIC, 0);
    if (get16(bytes + H_VERSION) != ASL_FORMAT_VERSION) return refusal(ASL_REFUSED_VERSION, 0);
    if (get32(bytes + H_HEADER_SIZE) != HEADER || bytes[H_VISIBILITY] > 1 || bytes[H_FEDERATION] != 0 ||
        get16(bytes + H_RESERVED) != 0 || get64(bytes + H_FLAGS) != 0)
        return refusal(ASL_REFUSED_HEADER, 0);
    *s = (struct segment){
        .bytes = bytes,
        .size = size,
        .record_count = get64(bytes + H_RECORD_COUNT),
        .records = get64(bytes + H_RECORDS_OFFSET),
        .bloom = get64(bytes + H_BLOOM_OFFSET),
        .bloom_size = get64(bytes + H_BLOOM_SIZE),
        .digests = get64(bytes + H_DIGESTS_OFFSET),
        .digests_size = get64(bytes + H_DIGESTS_SIZE),
        .extents = get64(bytes + H_EXTENTS_OFFSET),
        .extent_count = get64(bytes + H_EXTENT_COUNT),
        .domain = get32(bytes + H_DOMAIN),
        .visibility = bytes[H_VISIBILITY],
    };
    asl_answer laid_out = check_layout(s);
    if (!asl_ok(laid_out)) return laid_out;
    if (get64(bytes + size - FOOTER + F_CRC64) != NAME(checksum_by)(engine, bytes, size - FOOTER))
        return refusal(ASL_REFUSED_CHECKSUM, 0);
    return accepted();
}

// The byte of the segment at which a record begins, and the place of its refusals.
static uint64_t record_start(const struct segment *s, uint64_t number) { return s->records + RECORD * number; }

static const uint8_t *record_at(const struct segment *s, uint64_t number) { return s->bytes + record_start(s, number); }

static int lies_in(uint64_t start, uint64_t size, uint64_t section, uint64_t section_size) {
    return start >= section && size <= section_size && start - section <= section_size - size;
}

// Whether these extents of a segment keep their rule and add up to total.
static int adds_up(const uint8_t *extents, uint64_t count, uint64_t total) {
    uint64_t sum = 0;
    for (const uint8_t *end = extents + EXTENT * count; extents < end; extents += EXTENT) {
        uint64_t offset = get32(extents + X_OFFSET), length = get32(extents + X_LENGTH);
        if (offset + length > EXTENT_END_MOST) return 0;
        sum += length;
    }
    return sum == total;
}

// Refusals 7 to 10 of the record at r.
static uint64_t record_refusal(const struct segment *s, const struct table *t, const uint8_t *r) {
    uint32_t flags = get32(r + R_FLAGS), source = get32(r + R_SOURCE), total = get32(r + R_TOTAL);
    uint64_t digest_length = get16(r + R_DIGEST_LENGTH), extents = get64(r + R_EXTENTS_OFFSET),
             count = get32(r + R_EXTENT_COUNT);
    if (get16(r + R_RESERVED) != 0 || get16(r + R_RESERVED_LAST) != 0 || flags > GONE || r[R_VISIBILITY] > 1 ||
        r[R_IMPORTED] > 1 || (r[R_IMPORTED] == 0 && source != 0) || get32(r + R_DOMAIN) != s->domain)
        return ASL_REFUSED_RECORD;
    if (!allows(t, get32(r + R_HASH_ID), digest_length) ||
        !lies_in(get64(r + R_DIGEST_OFFSET), digest_length, s->digests, s->digests_size))
        return ASL_REFUSED_DIGEST;
    if (flags == GONE) {
        if (extents != 0 || count != 0) return ASL_REFUSED_EXTENTS;
        return total == 0 ? ASL_OK : ASL_REFUSED_TOTAL;
    }
    if (count == 0 || !lies_in(extents, EXTENT * count, s->extents, EXTENT * s->extent_count) ||
        (extents - s->extents) % EXTENT != 0)
        return ASL_REFUSED_EXTENTS;
    return adds_up(s->bytes + extents, count, total) ? ASL_OK : ASL_REFUSED_TOTAL;
}

// The record at r, whose rules were tested.
static struct item record_item(const struct segment *s, const uint8_t *r) {
    return (struct item){
        .digest = s->bytes + get64(r + R_DIGEST_OFFSET),
        .in_segment = s->bytes + get64(r + R_EXTENTS_OFFSET),
        .hash_id = get32(r + R_HASH_ID),
        .source = get32(r + R_SOURCE),
        .extent_count = get32(r + R_EXTENT_COUNT),
        .total = get32(r + R_TOTAL),
        .digest_length = get16(r + R_DIGEST_LENGTH),
        .visibility = r[R_VISIBILITY],
        .imported = r[R_IMPORTED],
        .gone = get32(r + R_FLAGS) == GONE,
    };
}

static struct item *record_items(const struct segment *s) {
    struct item *items = allocate(s->record_count, sizeof *items);
    for (uint64_t i = 0; i < s->record_count; i++) items[i] = record_item(s, record_at(s, i));
    return items;
}

// Refusals 7 to 12. Only where keys do not ascend can there be a duplicate.
static asl_answer check_records(const struct segment *s, const struct table *t) {
    struct item before = {0};
    int ascending = 1;
    uint8_t visibility = 0;
    for (uint64_t number = 0; number < s->record_count; number++) {
        const uint8_t *r = record_at(s, number);
        uint64_t refused = record_refusal(s, t, r);
        if (refused) return refusal(refused, record_start(s, number));
        struct item item = record_item(s, r);
        if (number > 0 && compare(&before, &item) >= 0) ascending = 0;
        if (item.visibility > visibility) visibility = item.visibility;
        before = item;
    }
    if (visibility != s->visibility) return refusal(ASL_REFUSED_VISIBILITY, 0);
    if (ascending) return accepted();
    struct item *items = record_items(s);
    size_t repeat = first_repeat(items, s->record_count);
    free(items);
    return repeat < s->record_count ? refusal(ASL_REFUSED_DUPLICATE, record_start(s, repeat)) : accepted();
}

// The whole check, but for the table.
static asl_answer check_segment(struct segment *s, uint64_t engine, const struct table *t, const uint8_t *bytes,
                                size_t size) {
    asl_answer read = read_segment(s, engine, bytes, size);
    return asl_ok(read) ? check_records(s, t) : read;
}

// Writing a segment -------------------------------------------------------------------------------------------------

struct heading {
    uint16_t shard;
    uint64_t snapshot_min, snapshot_max;
    uint32_t domain;
    uint64_t seal_snapshot, seal_time;
    const uint8_t *bloom;
    uint64_t bloom_size;
};

// Where the sections of the result stand.
struct places {
    uint64_t records, digests, digests_used, extents, footer, length;
};

// None of these sums can wrap: there are at most 65,536 items, each with fewer than 2^32 extents.
static struct places places_of(uint64_t bloom_size, const struct item *items, size_t count) {
    struct places p = {.records = HEADER + bloom_size};
    uint64_t extents = 0;
    p.digests = p.records + RECORD * count;
    for (size_t i = 0; i < count; i++) {
        p.digests_used += items[i].digest_length;
        extents += items[i].extent_count;
    }
    p.extents = p.digests + (p.digests_used + 7) / 8 * 8;
    p.footer = p.extents + EXTENT * extents;
    p.length = p.footer + FOOTER;
    return p;
}

// Refusal 16 for the size, or the length.
static asl_answer measured(const struct places *p) {
    return p->length > ASL_LIMIT ? refusal(ASL_REFUSED_LARGE, 0) : answered(p->length);
}

static void put_header(uint8_t *out, const struct heading *h, const struct places *p, size_t count,
                       uint8_t visibility) {
    memset(out, 0, HEADER);
    memcpy(out + H_MAGIC, MAGIC, sizeof MAGIC);
    put16(out + H_VERSION, ASL_FORMAT_VERSION);
    put16(out + H_SHARD, h->shard);
    put32(out + H_HEADER_SIZE, HEADER);
    put64(out + H_SNAPSHOT_MIN, h->snapshot_min);
    put64(out + H_SNAPSHOT_MAX, h->snapshot_max);
    put64(out + H_RECORD_COUNT, count);
    put64(out + H_RECORDS_OFFSET, p->records);
    put64(out + H_BLOOM_OFFSET, h->bloom_size ? HEADER : 0);
    put64(out + H_BLOOM_SIZE, h->bloom_size);
    put64(out + H_DIGESTS_OFFSET, p->digests);
    put64(out + H_DIGESTS_SIZE, p->extents - p->digests);
    put64(out + H_EXTENTS_OFFSET, p->extents);
    put64(out + H_EXTENT_COUNT, (p->footer - p->extents) / EXTENT);
    put32(out + H_DOMAIN, h->domain);
    out[H_VISIBILITY] = visibility;
}

static void put_record(uint8_t *r, const struct item *item, uint32_t domain, uint64_t digest, uint64_t extents) {
    put32(r + R_HASH_ID, item->hash_id);
    put16(r + R_DIGEST_LENGTH, item->digest_length);
    put16(r + R_RESERVED, 0);
    put64(r + R_DIGEST_OFFSET, digest);
    put64(r + R_EXTENTS_OFFSET, item->gone ? 0 : extents);
    put32(r + R_EXTENT_COUNT, item->extent_count);
    put32(r + R_TOTAL, item->total);
    put32(r + R_DOMAIN, domain);
    r[R_VISIBILITY] = item->visibility;
    r[R_IMPORTED] = item->imported;
    put16(r + R_RESERVED_LAST, 0);
    put32(r + R_SOURCE, item->source);
    put32(r + R_FLAGS, item->gone ? GONE : 0);
}

static void put_extents(uint8_t *out, const struct item *item) {
    if (item->in_segment) {
        memcpy(out, item->in_segment, (size_t)EXTENT * item->extent_count);
        return;
    }
    const asl_extent *extent = item->in_list;
    for (uint32_t i = 0; i < item->extent_count; i++, extent++, out += EXTENT) {
        put64(out + X_BLOCK, extent->block);
        put32(out + X_OFFSET, (uint32_t)extent->offset);
        put32(out + X_LENGTH, (uint32_t)extent->length);
    }
}

static void put_segment(uint8_t *out, uint64_t engine, const struct heading *h, const struct item *items, size_t count,
                        const struct places *p) {
    uint64_t record = p->records, digest = p->digests, extents = p->extents;
    uint8_t visibility = 0;
    for (size_t i = 0; i < count; i++) {
        put_record(out + record, &items[i], h->domain, digest, extents);
        memcpy(out + digest, items[i].digest, items[i].digest_length);
        put_extents(out + extents, &items[i]);
        if (items[i].visibility > visibility) visibility = items[i].visibility;
        record += RECORD;
        digest += items[i].digest_length;
        extents += (uint64_t)EXTENT * items[i].extent_count;
    }
    memset(out + digest, 0, p->extents - digest);
    put_header(out, h, p, count, visibility);
    if (h->bloom_size) memcpy(out + HEADER, h->bloom, h->bloom_size);
    put64(out + p->footer + F_CRC64, NAME(checksum_by)(engine, out, p->footer));
    put64(out + p->footer + F_SEAL_SNAPSHOT, h->seal_snapshot);
    put64(out + p->footer + F_SEAL_TIME, h->seal_time);
}

// The tidy form of the items, which it sorts: refusals 16 for the size and 13, or the result.
static asl_answer finish(uint64_t engine, const struct heading *h, struct item *items, size_t count, uint8_t *out,
                         size_t out_size) {
    struct places p = places_of(h->bloom_size, items, count);
    asl_answer a = measured(&p);
    if (!asl_ok(a)) return a;
    if (p.length > out_size) return refusal(ASL_REFUSED_ROOM, 0);
    if (!ascend(items, count)) qsort(items, count, sizeof *items, compare_for_qsort);
    put_segment(out, engine, h, items, count, &p);
    return a;
}

// What write is lent ------------------------------------------------------------------------------------------------

struct lists {
    const uint8_t *digests;
    uint64_t digests_size;
    const asl_extent *extents;
    uint64_t extent_count;
};

// How many numbers of a flat list make an entry, and an extent.
enum { ENTRY_NUMBERS = sizeof(asl_entry) / sizeof(uint64_t), EXTENT_NUMBERS = sizeof(asl_extent) / sizeof(uint64_t) };

static int passes(uint64_t start, uint64_t count, uint64_t end) { return start > end || count > end - start; }

// Whether the extents of a list keep their rule, and their sum, then in *total, fits.
static int sums_up(const asl_extent *extent, uint64_t count, uint32_t *total) {
    uint64_t sum = 0;
    for (; count > 0; count--, extent++) {
        if (extent->offset > U32_MOST || extent->length > U32_MOST) return 0;
        if (extent->offset + extent->length > EXTENT_END_MOST) return 0;
        sum += extent->length;
    }
    *total = (uint32_t)sum;
    return sum <= U32_MOST;
}

// Refusals 7, 15, 8, 9, 10 of the entry e; *item is the entry if there is none.
static uint64_t read_entry(const struct lists *l, const struct table *t, const asl_entry *e, struct item *item) {
    if (e->visibility > 1 || e->imported > 1 || e->gone > 1 || e->source > U32_MOST ||
        (e->imported == 0 && e->source != 0))
        return ASL_REFUSED_RECORD;
    if (passes(e->digest_start, e->digest_length, l->digests_size) ||
        passes(e->first_extent, e->extent_count, l->extent_count))
        return ASL_REFUSED_LIST;
    if (!allows(t, e->hash_id, e->digest_length)) return ASL_REFUSED_DIGEST;
    if (e->gone ? e->first_extent != 0 || e->extent_count != 0 : e->extent_count == 0 || e->extent_count > U32_MOST)
        return ASL_REFUSED_EXTENTS;
    *item = (struct item){
        .digest = l->digests + e->digest_start,
        .in_list = e->gone ? NULL : l->extents + e->first_extent,
        .hash_id = (uint32_t)e->hash_id,
        .source = (uint32_t)e->source,
        .extent_count = (uint32_t)e->extent_count,
        .digest_length = (uint16_t)e->digest_length,
        .visibility = (uint8_t)e->visibility,
        .imported = (uint8_t)e->imported,
        .gone = (uint8_t)e->gone,
    };
    return sums_up(item->in_list, e->extent_count, &item->total) ? ASL_OK : ASL_REFUSED_TOTAL;
}

// Refusals 7 to 10, 12 and 15 of the entries, each at the entry's number; they are in items if there is none.
static asl_answer read_entries(const struct lists *l, const struct table *t, const asl_entry *entries,
                               struct item *items, size_t count) {
    for (size_t i = 0; i < count; i++) {
        uint64_t refused = read_entry(l, t, &entries[i], &items[i]);
        if (refused) return refusal(refused, i);
    }
    if (ascend(items, count)) return accepted();
    size_t repeat = first_repeat(items, count);
    return repeat < count ? refusal(ASL_REFUSED_DUPLICATE, repeat) : accepted();
}

// The services ------------------------------------------------------------------------------------------------------

// The whole check, table and segment; *s is the segment if it is accepted.
static asl_answer check_both(struct segment *s, uint64_t engine, const uint8_t *table, size_t table_size,
                             const uint8_t *segment, size_t segment_size) {
    struct table t;
    if (!read_table(&t, table, table_size)) return refusal(ASL_REFUSED_TABLE, 0);
    return check_segment(s, engine, &t, segment, segment_size);
}

asl_answer NAME(check_by)(uint64_t engine, const uint8_t *table, size_t table_size, const uint8_t *segment,
                          size_t segment_size) {
    struct segment s;
    return check_both(&s, engine, table, table_size, segment, segment_size);
}

asl_answer NAME(check)(const uint8_t *table, size_t table_size, const uint8_t *segment, size_t segment_size) {
    return NAME(check_by)(UNCHOSEN, table, table_size, segment, segment_size);
}

// Numbers, eight bytes to each.
static void put_numbers(uint8_t *at, const uint64_t *numbers, size_t count) {
    for (size_t i = 0; i < count; i++) put64(at + 8 * i, numbers[i]);
}

// The record with that key, or NULL.
static const uint8_t *record_of(const struct segment *s, uint64_t hash_id, const uint8_t *digest, size_t digest_size) {
    for (uint64_t i = 0; i < s->record_count; i++) {
        const uint8_t *r = record_at(s, i);
        if (get32(r + R_HASH_ID) == hash_id && memcmp(s->bytes + get64(r + R_DIGEST_OFFSET), digest, digest_size) == 0)
            return r;
    }
    return NULL;
}

asl_answer NAME(look_up_by)(uint64_t engine, const uint8_t *table, size_t table_size, const uint8_t *segment,
                            size_t segment_size, uint64_t hash_id, const uint8_t *digest, size_t digest_size,
                            uint8_t *found, size_t found_size) {
    struct table t;
    struct segment s;
    uint64_t numbers[8] = {ASL_STATE_ABSENT};
    if (!read_table(&t, table, table_size)) return refusal(ASL_REFUSED_TABLE, 0);
    if (!allows(&t, hash_id, digest_size)) return refusal(ASL_REFUSED_KEY, 0);
    asl_answer a = check_segment(&s, engine, &t, segment, segment_size);
    if (!asl_ok(a)) return a;
    if (found_size < sizeof numbers) return refusal(ASL_REFUSED_ROOM, 0);
    const uint8_t *r = record_of(&s, hash_id, digest, digest_size);
    if (r) {
        numbers[0] = get32(r + R_FLAGS) == GONE ? ASL_STATE_GONE : ASL_STATE_PRESENT;
        numbers[1] = r[R_VISIBILITY];
        numbers[2] = s.domain;
        numbers[3] = r[R_IMPORTED];
        numbers[4] = get32(r + R_SOURCE);
        // A gone record has 0 in all three.
        numbers[5] = get32(r + R_TOTAL);
        numbers[6] = get64(r + R_EXTENTS_OFFSET);
        numbers[7] = get32(r + R_EXTENT_COUNT);
    }
    put_numbers(found, numbers, 8);
    return answered(numbers[0]);
}

asl_answer NAME(look_up)(const uint8_t *table, size_t table_size, const uint8_t *segment, size_t segment_size,
                         uint64_t hash_id, const uint8_t *digest, size_t digest_size, uint8_t *found,
                         size_t found_size) {
    return NAME(look_up_by)(UNCHOSEN, table, table_size, segment, segment_size, hash_id, digest, digest_size, found,
                            found_size);
}

asl_answer NAME(step_by)(uint64_t engine, const uint8_t *table, size_t table_size, const uint8_t *segment,
                         size_t segment_size, uint64_t record, uint8_t *fields, size_t fields_size) {
    struct segment s;
    asl_answer a = check_both(&s, engine, table, table_size, segment, segment_size);
    if (!asl_ok(a)) return a;
    if (record >= s.record_count) return answered(ASL_STEP_DONE);
    const uint8_t *r = record_at(&s, record);
    uint64_t numbers[13] = {
        get32(r + R_HASH_ID), get16(r + R_DIGEST_LENGTH), get16(r + R_RESERVED), get64(r + R_DIGEST_OFFSET),
        get64(r + R_EXTENTS_OFFSET), get32(r + R_EXTENT_COUNT), get32(r + R_TOTAL), get32(r + R_DOMAIN),
        r[R_VISIBILITY], r[R_IMPORTED], get16(r + R_RESERVED_LAST), get32(r + R_SOURCE), get32(r + R_FLAGS),
    };
    if (fields_size < sizeof numbers) return refusal(ASL_REFUSED_ROOM, 0);
    put_numbers(fields, numbers, 13);
    return answered(ASL_STEP_RECORD);
}

asl_answer NAME(step)(const uint8_t *table, size_t table_size, const uint8_t *segment, size_t segment_size,
                      uint64_t record, uint8_t *fields, size_t fields_size) {
    return NAME(step_by)(UNCHOSEN, table, table_size, segment, segment_size, record, fields, fields_size);
}

asl_answer NAME(tidy_length_by)(uint64_t engine, const uint8_t *table, size_t table_size, const uint8_t *segment,
                                size_t segment_size) {
    struct segment s;
    asl_answer a = check_both(&s, engine, table, table_size, segment, segment_size);
    if (!asl_ok(a)) return a;
    struct item *items = record_items(&s);
    struct places p = places_of(s.bloom_size, items, s.record_count);
    free(items);
    return measured(&p);
}

asl_answer NAME(tidy_length)(const uint8_t *table, size_t table_size, const uint8_t *segment, size_t segment_size) {
    return NAME(tidy_length_by)(UNCHOSEN, table, table_size, segment, segment_size);
}

asl_answer NAME(tidy_by)(uint64_t engine, const uint8_t *table, size_t table_size, const uint8_t *segment,
                         size_t segment_size, uint8_t *out, size_t out_size) {
    struct segment s;
    asl_answer a = check_both(&s, engine, table, table_size, segment, segment_size);
    if (!asl_ok(a)) return a;
    const uint8_t *footer = segment + segment_size - FOOTER;
    struct heading h = {get16(segment + H_SHARD),
                        get64(segment + H_SNAPSHOT_MIN),
                        get64(segment + H_SNAPSHOT_MAX),
                        s.domain,
                        get64(footer + F_SEAL_SNAPSHOT),
                        get64(footer + F_SEAL_TIME),
                        segment + HEADER,
                        s.bloom_size};
    struct item *items = record_items(&s);
    a = finish(engine, &h, items, s.record_count, out, out_size);
    free(items);
    return a;
}

asl_answer NAME(tidy)(const uint8_t *table, size_t table_size, const uint8_t *segment, size_t segment_size,
                      uint8_t *out, size_t out_size) {
    return NAME(tidy_by)(UNCHOSEN, table, table_size, segment, segment_size, out, out_size);
}

// The lists are lent as numbers; those of an item lie as in its struct.
asl_answer NAME(write_by)(uint64_t engine, const uint8_t *table, size_t table_size, uint16_t shard,
                          uint64_t snapshot_min, uint64_t snapshot_max, uint32_t domain, uint64_t seal_snapshot,
                          uint64_t seal_time, const uint8_t *bloom, size_t bloom_size, const uint64_t *entries,
                          size_t entries_count, const uint8_t *digests, size_t digests_size, const uint64_t *extents,
                          size_t extents_count, uint8_t *out, size_t out_size) {
    struct table t;
    struct heading h = {shard, snapshot_min, snapshot_max, domain, seal_snapshot, seal_time, bloom, bloom_size};
    struct lists l = {digests, digests_size, (const asl_extent *)extents, extents_count / EXTENT_NUMBERS};
    size_t count = entries_count / ENTRY_NUMBERS;
    if (!read_table(&t, table, table_size)) return refusal(ASL_REFUSED_TABLE, 0);
    if (count > ASL_RECORDS_LIMIT) return refusal(ASL_REFUSED_LARGE, 0);
    if (bloom_size % 8 != 0) return refusal(ASL_REFUSED_LAYOUT_BLOOM, 0);
    struct item *items = allocate(count, sizeof *items);
    asl_answer a = read_entries(&l, &t, (const asl_entry *)entries, items, count);
    if (asl_ok(a)) a = finish(engine, &h, items, count, out, out_size);
    free(items);
    return a;
}

asl_answer NAME(write)(const uint8_t *table, size_t table_size, uint16_t shard, uint64_t snapshot_min,
                       uint64_t snapshot_max, uint32_t domain, uint64_t seal_snapshot, uint64_t seal_time,
                       const uint8_t *bloom, size_t bloom_size, const uint64_t *entries, size_t entries_count,
                       const uint8_t *digests, size_t digests_size, const uint64_t *extents, size_t extents_count,
                       uint8_t *out, size_t out_size) {
    return NAME(write_by)(UNCHOSEN, table, table_size, shard, snapshot_min, snapshot_max, domain, seal_snapshot,
                          seal_time, bloom, bloom_size, entries, entries_count, digests, digests_size, extents,
                          extents_count, out, out_size);
}

uint64_t NAME(version)(void) { return ASL_VERSION; }
