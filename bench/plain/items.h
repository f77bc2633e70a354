// The store's table, and items that were read: compared, and searched for the first whose key stands earlier. For plain.c.
#include "bytes.h"

#include <stdlib.h>
#include <string.h>

static void *allocate(size_t count, size_t size) {
    void *block = calloc(count ? count : 1, size);
    if (!block) abort();
    return block;
}

// The store's table -------------------------------------------------------------------------------------------------

enum { PAIR = 16 }; // bytes of a pair as it is lent

struct table {
    size_t pairs;
    uint32_t hash_id[ASL_PAIRS_LIMIT];
    uint16_t length[ASL_PAIRS_LIMIT];
};

// The pair of a hash id, or t->pairs if there is none.
static size_t pair_of(const struct table *t, uint64_t hash_id) {
    size_t pair = 0;
    while (pair < t->pairs && t->hash_id[pair] != hash_id) pair++;
    return pair;
}

static int allows(const struct table *t, uint64_t hash_id, uint64_t length) {
    size_t pair = pair_of(t, hash_id);
    return pair < t->pairs && t->length[pair] == length;
}

// Whether the bytes are a table, which is then in *t.
static int read_table(struct table *t, const uint8_t *bytes, size_t size) {
    t->pairs = 0;
    if (size == 0 || size % PAIR != 0 || size > ASL_PAIRS_LIMIT * PAIR) return 0;
    for (size_t at = 0; at < size; at += PAIR) {
        uint64_t hash_id = get64(bytes + at), length = get64(bytes + at + 8);
        if (hash_id > U32_MOST || length < 1 || length > ASL_DIGEST_LIMIT) return 0;
        if (pair_of(t, hash_id) < t->pairs) return 0;
        t->hash_id[t->pairs] = (uint32_t)hash_id;
        t->length[t->pairs++] = (uint16_t)length;
    }
    return 1;
}

// Items: records of a segment and entries of write's list -----------------------------------------------------------

// An item whose rules were tested. Its extents lie in a segment, or in write's list; the other pointer is NULL.
struct item {
    const uint8_t *digest;
    const uint8_t *in_segment;
    const asl_extent *in_list;
    uint32_t hash_id, source, extent_count, total;
    uint16_t digest_length;
    uint8_t visibility, imported, gone;
};

// By hash id, then by digest bytes. One hash id has digests of one length.
static int compare(const struct item *a, const struct item *b) {
    if (a->hash_id != b->hash_id) return a->hash_id < b->hash_id ? -1 : 1;
    return memcmp(a->digest, b->digest, a->digest_length);
}

static int compare_for_qsort(const void *a, const void *b) { return compare(a, b); }

static int ascend(const struct item *items, size_t count) {
    for (size_t i = 1; i < count; i++)
        if (compare(&items[i - 1], &items[i]) >= 0) return 0;
    return 1;
}

static uint64_t mix(uint64_t h) {
    h *= 0x9E3779B97F4A7C15;
    return h ^ h >> 32;
}

static uint64_t hash_of(const struct item *item) {
    uint64_t h = mix(item->hash_id);
    size_t at = 0;
    for (; at + 8 <= item->digest_length; at += 8) h = mix(h ^ get64(item->digest + at));
    for (; at < item->digest_length; at++) h = mix(h ^ item->digest[at]);
    return h;
}

// The lowest item whose key stands earlier, or count. A set by open addressing holds the items before, as number + 1.
static size_t first_repeat(const struct item *items, size_t count) {
    size_t slots = 1, number;
    while (slots < 2 * count) slots *= 2;
    uint32_t *seen = allocate(slots, sizeof *seen);
    for (number = 0; number < count; number++) {
        size_t slot = hash_of(&items[number]) & (slots - 1);
        while (seen[slot] && compare(&items[seen[slot] - 1], &items[number]) != 0) slot = (slot + 1) & (slots - 1);
        if (seen[slot]) break;
        seen[slot] = (uint32_t)number + 1;
    }
    free(seen);
    return number;
}
