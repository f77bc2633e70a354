/*
 * asl.h: check, look up, walk, tidy and write ASL index segments. Version 3.1 of the interface.
 *
 * A segment is accepted whole, or refused with a number and a place. Every call on a segment makes the whole check
 * itself, so no answer is ever drawn from a damaged one. docs/C.md has an example that can be compiled, and says how a
 * program moves here from version 3.0, from version 2, and from version 1. docs/SERVICES.md says what each call answers
 * and refuses, docs/FORMAT.md which field earns which refusal.
 *
 * Call asl_check, asl_look_up, asl_step, asl_tidy_length, asl_tidy and asl_write; and asl_checksum and asl_checksum_on
 * for the checksum alone. They are inline and stand over the library's own symbols, asl_raw_.., which take bare bytes
 * and numbers.
 *
 * ANSWERS     The first six return an asl_answer. It is a struct and no number, so that it cannot be compared with 0
 *             or stand in an if: ask it by asl_ok, asl_number and the other functions below. The compiler warns where
 *             an answer is not used. A checksum is a number; its calls refuse nothing.
 * ENGINES     Each of the eight has a second form, which ends in _by and takes the engine of the checksum, one of
 *             asl_engine, as its first argument. The engine makes no difference to any answer or byte of a buffer.
 * REFUSED     A refused call changes nothing at all: no byte of any buffer, and nothing that `found` or `fields`
 *             points to.
 * BUFFERS     A buffer is a pointer and its size. NULL with size 0 is an empty one, and no other pointer is NULL.
 *             Nothing is kept after the call, and nothing is allocated.
 * SIZES       A buffer or list has at most PTRDIFF_MAX bytes. Sizes count bytes. Counts count pairs, entries and
 *             extents, each of them a struct; only the raw calls count numbers.
 * OVERLAP     What is lent for writing (out, found, fields) must not overlap anything else that is lent. What is lent
 *             for reading may overlap.
 * ALIGNMENT   Pointers to structs and to uint64_t are aligned as the compiler aligns them. Pointers to bytes need no
 *             alignment.
 * THREADS     The library has no state at all. Calls from any number of threads are safe as long as no thread changes
 *             a buffer that another thread's call is lent.
 * STACK       Every call needs less than 1 MiB of it, by either engine.
 * VERSIONS    The interface and the format of the segments are counted apart; that both are at 3 is chance. The format
 *             (ASL_FORMAT_VERSION) is the same as in version 2 of the interface, and so are the segments accepted.
 */
#ifndef ASL_H
#define ASL_H

#include <stddef.h>
#include <stdint.h>
#ifndef __cplusplus
#include <stdbool.h>
#endif

#if defined __BYTE_ORDER__ && __BYTE_ORDER__ != __ORDER_LITTLE_ENDIAN__
#error "asl.h lends a table as it lies in memory, so the machine has to be little-endian"
#endif

/* Stands before each call, so that the compiler warns where its answer is not used. */
#if (defined __cplusplus && __cplusplus >= 201703L) || (defined __STDC_VERSION__ && __STDC_VERSION__ >= 202311L)
#define ASL_MUST_USE [[nodiscard]]
#elif defined __GNUC__
#define ASL_MUST_USE __attribute__((warn_unused_result))
#else
#define ASL_MUST_USE
#endif

#ifdef __cplusplus
extern "C" {
#endif

/* Versions ------------------------------------------------------------------------------------------------------- */

/* Of this header. ASL_VERSION is one number, which #if can compare: major * 2^32 + minor * 2^16 + patch. */
#define ASL_VERSION_MAJOR 3
#define ASL_VERSION_MINOR 1
#define ASL_VERSION_PATCH 0
#define ASL_VERSION \
    (ASL_VERSION_MAJOR * UINT64_C(4294967296) + ASL_VERSION_MINOR * UINT64_C(65536) + ASL_VERSION_PATCH)

/* Of the segments that the library reads and writes, as it stands in them. It is counted apart from the above. */
#define ASL_FORMAT_VERSION 3

/* Sizes and limits ----------------------------------------------------------------------------------------------- */

#define ASL_LEAST 136u           /* bytes of the shortest segment */
#define ASL_LIMIT 1073741824u    /* bytes of the longest segment */
#define ASL_RECORDS_LIMIT 65536u /* the most records of a segment, and the most entries to write */
#define ASL_PAIRS_LIMIT 16u      /* the most pairs of the table */
#define ASL_DIGEST_LIMIT 1024u   /* bytes of the longest digest */
#define ASL_HEADER_SIZE 112u     /* bytes of the header of a segment */
#define ASL_RECORD_SIZE 48u      /* bytes of a record in a segment */
#define ASL_EXTENT_SIZE 16u      /* bytes of an extent in a segment: block (8), offset (4), length (4) */
#define ASL_FOOTER_SIZE 24u      /* bytes of the footer of a segment */

/* Refusals ------------------------------------------------------------------------------------------------------- */

/*
 * The refusals' numbers. More may come in a later version, and they do not all follow one another: 5 is none. It was
 * one number for what 51 to 55 tell apart.
 */
enum asl_refusal {
    ASL_OK = 0,                  /* answered, not refused */
    ASL_REFUSED_SIZE = 1,        /* segment shorter than ASL_LEAST or longer than ASL_LIMIT */
    ASL_REFUSED_MAGIC = 2,       /* magic differs */
    ASL_REFUSED_VERSION = 3,     /* the segment's version is not ASL_FORMAT_VERSION */
    ASL_REFUSED_HEADER = 4,      /* header size, federation version, reserved or flags wrong, visibility above 1 */
    ASL_REFUSED_CHECKSUM = 6,    /* stored and computed checksum differ */
    ASL_REFUSED_RECORD = 7,      /* reserved, flags, marks, visibility, source or domain wrong */
    ASL_REFUSED_DIGEST = 8,      /* unknown hash id, wrong length, or outside its section */
    ASL_REFUSED_EXTENTS = 9,     /* gone with extents, not gone with none, or misplaced */
    ASL_REFUSED_TOTAL = 10,      /* extent passes 2^32, sum differs or passes 2^32 - 1, gone with total not 0 */
    ASL_REFUSED_VISIBILITY = 11, /* the header's is not the largest of the records' */
    ASL_REFUSED_DUPLICATE = 12,  /* key stands earlier; the place is that of the lowest such record */
    ASL_REFUSED_ROOM = 13,       /* out is shorter than the result; look up, step: no room for what is found */
    ASL_REFUSED_TABLE = 14,      /* the store's table breaks its rule */
    ASL_REFUSED_LIST = 15,       /* write: start + count passes the end of the lent digests or extents */
    ASL_REFUSED_LARGE = 16,      /* write: too many entries; write, tidy, tidy length: result longer than ASL_LIMIT */
    ASL_REFUSED_KEY = 17,        /* look up: hash id unknown, or digest length not the table's */

    /* The layout of the sections, by sums over whole numbers, never modulo 2^64. Write gives 51 alone of these. */
    ASL_REFUSED_LAYOUT_BLOOM = 51,   /* bloom offset wrong (0 if bloom size is 0, else 112),
                                        or bloom size no multiple of 8 */
    ASL_REFUSED_LAYOUT_RECORDS = 52, /* more than ASL_RECORDS_LIMIT records, or records offset not 112 + bloom size */
    ASL_REFUSED_LAYOUT_DIGESTS = 53, /* digests offset not records offset + 48 * record count,
                                        or digests size no multiple of 8 */
    ASL_REFUSED_LAYOUT_EXTENTS = 54, /* extents offset not digests offset + digests size */
    ASL_REFUSED_LAYOUT_LENGTH = 55   /* length of the segment not extents offset + 16 * extent count + 24 */
};

/*
 * The refusal's name (docs/SERVICES.md, "Refusals"), "ok" for 0, and "unknown" for what is no refusal's number. 9 and
 * 54 have one name, "extents", and the names of 7 and 52, "record" and "records", and of 8 and 53, "digest" and
 * "digests", differ in one letter. The number tells them apart, so a log should print it.
 */
static inline const char *asl_refusal_name(uint64_t number) {
    switch (number) {
    case ASL_OK: return "ok";
    case ASL_REFUSED_SIZE: return "size";
    case ASL_REFUSED_MAGIC: return "magic";
    case ASL_REFUSED_VERSION: return "version";
    case ASL_REFUSED_HEADER: return "header";
    case ASL_REFUSED_CHECKSUM: return "checksum";
    case ASL_REFUSED_RECORD: return "record";
    case ASL_REFUSED_DIGEST: return "digest";
    case ASL_REFUSED_EXTENTS: return "extents";
    case ASL_REFUSED_TOTAL: return "total";
    case ASL_REFUSED_VISIBILITY: return "visibility";
    case ASL_REFUSED_DUPLICATE: return "duplicate";
    case ASL_REFUSED_ROOM: return "room";
    case ASL_REFUSED_TABLE: return "table";
    case ASL_REFUSED_LIST: return "list";
    case ASL_REFUSED_LARGE: return "large";
    case ASL_REFUSED_KEY: return "key";
    case ASL_REFUSED_LAYOUT_BLOOM: return "bloom";
    case ASL_REFUSED_LAYOUT_RECORDS: return "records";
    case ASL_REFUSED_LAYOUT_DIGESTS: return "digests";
    case ASL_REFUSED_LAYOUT_EXTENTS: return "extents";
    case ASL_REFUSED_LAYOUT_LENGTH: return "length";
    default: return "unknown";
    }
}

/* Answers -------------------------------------------------------------------------------------------------------- */

/* What a call on a segment or a request returns: number + 2^8 * which + 2^16 * value. */
typedef struct asl_answer {
    uint64_t bits;
} asl_answer;

/* 0 if the call answered, else the refusal's number, one of asl_refusal. */
static inline unsigned asl_number(asl_answer a) { return (unsigned)(a.bits & 255); }

/* Whether the call answered. If not, it was refused. */
static inline bool asl_ok(asl_answer a) { return asl_number(a) == ASL_OK; }

/* The segment that was refused: 0 in this version. It is for calls that are lent two: 1 is the newer, 2 the older. */
static inline unsigned asl_which(asl_answer a) { return (unsigned)(a.bits >> 8 & 255); }

/*
 * The place of a refusal. From a call that is lent a segment it is a byte of it, counted from 0:
 *   7 to 10, 12   the byte at which the record begins: records offset + 48 * its number
 *   51 to 55      the byte of the header at which the rule's fields begin: 48, bloom offset, for 51; 32, record count,
 *                 for 52; 64, digests offset, for 53; 80, extents offset, for 54; 88, extent count, for 55
 * From asl_write, which is lent none, it is
 *   7 to 10, 12, 15   the number of the entry, from 0
 * It is 0 for every other refusal, so for write's 51 too, and where the call answered.
 */
static inline uint64_t asl_place(asl_answer a) { return asl_ok(a) ? 0 : a.bits >> 16; }

/* The value of an answer: 0 for asl_check; for the other calls the next three functions give it. 0 where refused. */
static inline uint64_t asl_value(asl_answer a) { return asl_ok(a) ? a.bits >> 16 : 0; }

/* asl_tidy_length, asl_tidy, asl_write: the length of the result in bytes. 0 where refused: no result has length 0. */
static inline size_t asl_length(asl_answer a) { return (size_t)asl_value(a); }

/* What asl_look_up says of a key. 0 is none of them. */
enum {
    ASL_STATE_ABSENT = 1, /* no record has the key */
    ASL_STATE_GONE = 2,   /* a record says that what the key names is gone */
    ASL_STATE_PRESENT = 3 /* a record has the key, and extents */
};

/* asl_look_up: one of the three states. 0 where refused, which is no state: the segment or key was not good. */
static inline unsigned asl_state(asl_answer a) { return (unsigned)asl_value(a); }

/* What asl_step says. 0 is neither. */
enum {
    ASL_STEP_RECORD = 1, /* it left a record */
    ASL_STEP_DONE = 2    /* the segment has no record of that number */
};

/* asl_step: whether it left a record. If not, it is done, or was refused: asl_ok says which. */
static inline bool asl_stepped(asl_answer a) { return asl_value(a) == ASL_STEP_RECORD; }

/* What is lent, and what is found ---------------------------------------------------------------------------------- */

/*
 * A pair of the store's table, which has 1 to ASL_PAIRS_LIMIT of them. Hash ids are below 2^32 and none stands twice;
 * lengths are 1 to ASL_DIGEST_LIMIT. A table of no pairs, of more, or of others is refused with 14.
 */
typedef struct asl_pair {
    uint64_t hash_id;
    uint64_t digest_length; /* in bytes */
} asl_pair;

/* The numbers of a segment that are no record's, as write is lent them. */
typedef struct asl_heading {
    uint16_t shard;
    uint64_t snapshot_min;
    uint64_t snapshot_max;
    uint32_t domain; /* every record's too */
    uint64_t seal_snapshot;
    uint64_t seal_time;
} asl_heading;

/* A record, as write is lent it. Numbers are wider than their fields, so that one that does not fit is refused. */
typedef struct asl_entry {
    uint64_t hash_id;
    uint64_t digest_start;  /* the byte of `digests` at which the digest begins */
    uint64_t digest_length; /* the table's for the hash id */
    uint64_t visibility;    /* 0 internal, 1 published */
    uint64_t imported;      /* 0 or 1 */
    uint64_t source;        /* the source domain; 0 if not imported */
    uint64_t gone;          /* 0 or 1; if 1, the last two are 0 */
    uint64_t first_extent;  /* the extent of `extents`, counted from 0, that is the entry's first */
    uint64_t extent_count;  /* at least 1 if not gone */
} asl_entry;

/* An extent, as write is lent it and as asl_extent_at finds it. */
typedef struct asl_extent {
    uint64_t block;
    uint64_t offset; /* in the block; offset + length is at most 2^32 */
    uint64_t length;
} asl_extent;

/* What look up finds. What does not apply to the state is 0. */
typedef struct asl_found {
    uint64_t state;         /* ASL_STATE_ABSENT, ASL_STATE_GONE or ASL_STATE_PRESENT */
    uint64_t visibility;    /* gone and present: 0 internal, 1 published */
    uint64_t domain;        /* gone and present */
    uint64_t imported;      /* gone and present: 1 if imported; then there is a source */
    uint64_t source;        /* gone and present, imported: the source domain, which may be 0 */
    uint64_t total;         /* present: the sum of the extents' lengths; 0 for an empty export */
    uint64_t extents_start; /* present: the byte of the segment at which the extents begin, for asl_extent_at */
    uint64_t extent_count;  /* present: how many extents */
} asl_found;

/* What a step leaves: every field of a record, in the order of the file. */
typedef struct asl_record {
    uint64_t hash_id;
    uint64_t digest_length;
    uint64_t reserved;       /* 0 */
    uint64_t digest_offset;  /* the byte of the segment at which the digest begins */
    uint64_t extents_offset; /* the byte of the segment at which the extents begin, for asl_extent_at; 0 if gone */
    uint64_t extent_count;   /* 0 if gone */
    uint64_t total;          /* the sum of the extents' lengths; 0 if gone */
    uint64_t domain;
    uint64_t visibility;    /* 0 internal, 1 published */
    uint64_t imported;      /* 0 or 1 */
    uint64_t reserved_last; /* 0 */
    uint64_t source;        /* the source domain; 0 if not imported */
    uint64_t flags;         /* ASL_FLAG_GONE, or 0 */
} asl_record;

#define ASL_FLAG_GONE 1u /* what the key names is gone */

/* Engines -------------------------------------------------------------------------------------------------------- */

/*
 * The checksum has two engines. Both are proved to give the checksum of the format on every input, so they differ in
 * time and in stack alone. Every other number is settled too: it is taken as ASL_ENGINE_FAST. The plain one is there
 *   to compare      a run by each engine shows that the machine does as the proof says, tables included;
 *   for the stack   the fast one puts its tables there, 16 KiB.
 * The fast one hands a short input to the plain one, without tables: docs/C.md, "The engines of the checksum".
 */
enum asl_engine {
    ASL_ENGINE_FAST = 0, /* eight bytes at a step, by tables; what a caller gets who does not choose */
    ASL_ENGINE_PLAIN = 1 /* written bit by bit, of which the compiler makes a table of 256 numbers */
};

/* The library's own symbols -------------------------------------------------------------------------------------- */

/*
 * For calls from other languages. C and C++ have the inline functions below, of which each gives the same answers as
 * the raw call of its name, and says what they are. Here
 *   table        is bytes: of each pair the hash id and the digest length, each eight bytes, little-endian. Bytes that
 *                end inside a number or a pair are refused with 14.
 *   found        is ASL_FOUND_SIZE bytes at least, else 13. asl_found_of reads them.
 *   fields       is ASL_FIELDS_SIZE bytes at least, else 13, where there is a record. asl_record_of reads them.
 *   entries      is a flat list, nine numbers to an entry. ENTRIES_COUNT COUNTS NUMBERS, NOT ENTRIES.
 *   extents      is a flat list, three numbers to an extent. EXTENTS_COUNT COUNTS NUMBERS, NOT EXTENTS.
 *   engine       is one of asl_engine; any other number is taken as ASL_ENGINE_FAST, as it is where there is none.
 * An unfinished last item of a list is not read. Bytes of found and fields after those that are left stay.
 */
#define ASL_FOUND_SIZE 64u   /* eight numbers, as asl_found has them */
#define ASL_FIELDS_SIZE 104u /* thirteen numbers, as asl_record has them */

ASL_MUST_USE asl_answer asl_raw_check(const uint8_t *table, size_t table_size, const uint8_t *segment,
                                      size_t segment_size);
ASL_MUST_USE asl_answer asl_raw_look_up(const uint8_t *table, size_t table_size, const uint8_t *segment,
                                        size_t segment_size, uint64_t hash_id, const uint8_t *digest,
                                        size_t digest_size, uint8_t *found, size_t found_size);
ASL_MUST_USE asl_answer asl_raw_step(const uint8_t *table, size_t table_size, const uint8_t *segment,
                                     size_t segment_size, uint64_t record, uint8_t *fields, size_t fields_size);
ASL_MUST_USE asl_answer asl_raw_tidy_length(const uint8_t *table, size_t table_size, const uint8_t *segment,
                                            size_t segment_size);
ASL_MUST_USE asl_answer asl_raw_tidy(const uint8_t *table, size_t table_size, const uint8_t *segment,
                                     size_t segment_size, uint8_t *out, size_t out_size);
ASL_MUST_USE asl_answer asl_raw_write(const uint8_t *table, size_t table_size, uint16_t shard, uint64_t snapshot_min,
                                      uint64_t snapshot_max, uint32_t domain, uint64_t seal_snapshot,
                                      uint64_t seal_time, const uint8_t *bloom, size_t bloom_size,
                                      const uint64_t *entries, size_t entries_count, const uint8_t *digests,
                                      size_t digests_size, const uint64_t *extents, size_t extents_count,
                                      uint8_t *out, size_t out_size);
ASL_MUST_USE uint64_t asl_raw_checksum(const uint8_t *bytes, size_t size);
ASL_MUST_USE uint64_t asl_raw_checksum_on(uint64_t before, const uint8_t *bytes, size_t size);
ASL_MUST_USE uint64_t asl_raw_version(void);

ASL_MUST_USE asl_answer asl_raw_check_by(uint64_t engine, const uint8_t *table, size_t table_size,
                                         const uint8_t *segment, size_t segment_size);
ASL_MUST_USE asl_answer asl_raw_look_up_by(uint64_t engine, const uint8_t *table, size_t table_size,
                                           const uint8_t *segment, size_t segment_size, uint64_t hash_id,
                                           const uint8_t *digest, size_t digest_size, uint8_t *found,
                                           size_t found_size);
ASL_MUST_USE asl_answer asl_raw_step_by(uint64_t engine, const uint8_t *table, size_t table_size,
                                        const uint8_t *segment, size_t segment_size, uint64_t record, uint8_t *fields,
                                        size_t fields_size);
ASL_MUST_USE asl_answer asl_raw_tidy_length_by(uint64_t engine, const uint8_t *table, size_t table_size,
                                               const uint8_t *segment, size_t segment_size);
ASL_MUST_USE asl_answer asl_raw_tidy_by(uint64_t engine, const uint8_t *table, size_t table_size,
                                        const uint8_t *segment, size_t segment_size, uint8_t *out, size_t out_size);
ASL_MUST_USE asl_answer asl_raw_write_by(uint64_t engine, const uint8_t *table, size_t table_size, uint16_t shard,
                                         uint64_t snapshot_min, uint64_t snapshot_max, uint32_t domain,
                                         uint64_t seal_snapshot, uint64_t seal_time, const uint8_t *bloom,
                                         size_t bloom_size, const uint64_t *entries, size_t entries_count,
                                         const uint8_t *digests, size_t digests_size, const uint64_t *extents,
                                         size_t extents_count, uint8_t *out, size_t out_size);
ASL_MUST_USE uint64_t asl_raw_checksum_by(uint64_t engine, const uint8_t *bytes, size_t size);
ASL_MUST_USE uint64_t asl_raw_checksum_on_by(uint64_t engine, uint64_t before, const uint8_t *bytes, size_t size);

/* Numbers in bytes ----------------------------------------------------------------------------------------------- */

/* The number in that many bytes, at most eight, the lowest first. */
static inline uint64_t asl_little_endian(const uint8_t *at, size_t size) {
    uint64_t number = 0;
    while (size-- > 0) number = number << 8 | at[size];
    return number;
}

/* What asl_raw_look_up left. */
static inline asl_found asl_found_of(const uint8_t found[ASL_FOUND_SIZE]) {
    asl_found f;
    f.state = asl_little_endian(found, 8);
    f.visibility = asl_little_endian(found + 8, 8);
    f.domain = asl_little_endian(found + 16, 8);
    f.imported = asl_little_endian(found + 24, 8);
    f.source = asl_little_endian(found + 32, 8);
    f.total = asl_little_endian(found + 40, 8);
    f.extents_start = asl_little_endian(found + 48, 8);
    f.extent_count = asl_little_endian(found + 56, 8);
    return f;
}

/* What asl_raw_step left. */
static inline asl_record asl_record_of(const uint8_t fields[ASL_FIELDS_SIZE]) {
    asl_record r;
    r.hash_id = asl_little_endian(fields, 8);
    r.digest_length = asl_little_endian(fields + 8, 8);
    r.reserved = asl_little_endian(fields + 16, 8);
    r.digest_offset = asl_little_endian(fields + 24, 8);
    r.extents_offset = asl_little_endian(fields + 32, 8);
    r.extent_count = asl_little_endian(fields + 40, 8);
    r.total = asl_little_endian(fields + 48, 8);
    r.domain = asl_little_endian(fields + 56, 8);
    r.visibility = asl_little_endian(fields + 64, 8);
    r.imported = asl_little_endian(fields + 72, 8);
    r.reserved_last = asl_little_endian(fields + 80, 8);
    r.source = asl_little_endian(fields + 88, 8);
    r.flags = asl_little_endian(fields + 96, 8);
    return r;
}

/*
 * Extent number i, from 0, of those that begin at byte `start` of the segment. It tests nothing: the segment is the one
 * that was lent to the call that gave start (extents_start, extents_offset) and extent_count, and i is below the count.
 */
static inline asl_extent asl_extent_at(const uint8_t *segment, uint64_t start, uint64_t i) {
    const uint8_t *at = segment + start + ASL_EXTENT_SIZE * i;
    asl_extent x;
    x.block = asl_little_endian(at, 8);
    x.offset = asl_little_endian(at + 8, 4);
    x.length = asl_little_endian(at + 12, 4);
    return x;
}

/* The calls ------------------------------------------------------------------------------------------------------ */

/*
 * What is said of a call holds for its two forms, without an engine and _by one. The first is the second with
 * ASL_ENGINE_FAST.
 */

/*
 * The version of the library that is linked, as ASL_VERSION. It fits this header if the major numbers are the same and
 * its minor number is no smaller than this header's.
 */
ASL_MUST_USE static inline uint64_t asl_version(void) { return asl_raw_version(); }

/* Bytes of a table of that many pairs. More than a table can have are lent as none: either is refused with 14. */
static inline size_t asl_table_size(size_t pair_count) {
    return pair_count > ASL_PAIRS_LIMIT ? 0 : pair_count * sizeof(asl_pair);
}

/*
 * Checks a segment: answered exactly when it keeps every rule of the format.
 *
 * Refusals, in this order: 14; 1 to 4; 51 to 55; 6; then the records by number and within one 7 to 10; 11; 12.
 *
 * Nothing is written. The value of the answer is 0.
 */
ASL_MUST_USE static inline asl_answer asl_check_by(uint64_t engine, const asl_pair *pairs, size_t pair_count,
                                                   const uint8_t *segment, size_t segment_size) {
    return asl_raw_check_by(engine, (const uint8_t *)pairs, asl_table_size(pair_count), segment, segment_size);
}

ASL_MUST_USE static inline asl_answer asl_check(const asl_pair *pairs, size_t pair_count, const uint8_t *segment,
                                                size_t segment_size) {
    return asl_check_by(ASL_ENGINE_FAST, pairs, pair_count, segment, segment_size);
}

/*
 * Looks up a key, a hash id and digest bytes. asl_state of the answer is what it says of the key.
 *
 * Refusals, in this order: 14; 17; asl_check's from 1 on; 13 where found is NULL. So a damaged segment is refused
 * whatever the key, and "absent" means that the segment is whole and no record of it has the key.
 *
 * hash_id is wider than its field so that one that does not fit it is refused and not cut.
 * found: if answered, all eight numbers are set; else none.
 */
ASL_MUST_USE static inline asl_answer asl_look_up_by(uint64_t engine, const asl_pair *pairs, size_t pair_count,
                                                     const uint8_t *segment, size_t segment_size, uint64_t hash_id,
                                                     const uint8_t *digest, size_t digest_size, asl_found *found) {
    uint8_t left[ASL_FOUND_SIZE];
    asl_answer a = asl_raw_look_up_by(engine, (const uint8_t *)pairs, asl_table_size(pair_count), segment,
                                      segment_size, hash_id, digest, digest_size, left, found ? sizeof left : 0);
    if (asl_ok(a)) *found = asl_found_of(left);
    return a;
}

ASL_MUST_USE static inline asl_answer asl_look_up(const asl_pair *pairs, size_t pair_count, const uint8_t *segment,
                                                  size_t segment_size, uint64_t hash_id, const uint8_t *digest,
                                                  size_t digest_size, asl_found *found) {
    return asl_look_up_by(ASL_ENGINE_FAST, pairs, pair_count, segment, segment_size, hash_id, digest, digest_size,
                          found);
}

/*
 * A step of a walk: gives every field of the record of that number, from 0. asl_stepped of the answer is whether there
 * is one; if not, and asl_ok, the walk is done. Records stand in the order of the file.
 *
 * Refusals, in this order: asl_check's; 13 where there is such a record and fields is NULL.
 *
 * Every step makes the whole check, so a walk takes as many checks as there are records, and one more.
 * fields: if there is such a record, all thirteen numbers are set; if done or refused, none.
 */
ASL_MUST_USE static inline asl_answer asl_step_by(uint64_t engine, const asl_pair *pairs, size_t pair_count,
                                                  const uint8_t *segment, size_t segment_size, uint64_t record,
                                                  asl_record *fields) {
    uint8_t left[ASL_FIELDS_SIZE];
    asl_answer a = asl_raw_step_by(engine, (const uint8_t *)pairs, asl_table_size(pair_count), segment, segment_size,
                                   record, left, fields ? sizeof left : 0);
    if (asl_stepped(a)) *fields = asl_record_of(left);
    return a;
}

ASL_MUST_USE static inline asl_answer asl_step(const asl_pair *pairs, size_t pair_count, const uint8_t *segment,
                                               size_t segment_size, uint64_t record, asl_record *fields) {
    return asl_step_by(ASL_ENGINE_FAST, pairs, pair_count, segment, segment_size, record, fields);
}

/*
 * The length of the tidy form of a segment: asl_length of the answer. It may be more than the segment's.
 *
 * Refusals, in this order: asl_check's; 16.
 *
 * Nothing is written.
 */
ASL_MUST_USE static inline asl_answer asl_tidy_length_by(uint64_t engine, const asl_pair *pairs, size_t pair_count,
                                                         const uint8_t *segment, size_t segment_size) {
    return asl_raw_tidy_length_by(engine, (const uint8_t *)pairs, asl_table_size(pair_count), segment, segment_size);
}

ASL_MUST_USE static inline asl_answer asl_tidy_length(const asl_pair *pairs, size_t pair_count,
                                                      const uint8_t *segment, size_t segment_size) {
    return asl_tidy_length_by(ASL_ENGINE_FAST, pairs, pair_count, segment, segment_size);
}

/*
 * Writes the tidy form of a segment to out: the one form that all segments of one meaning share. asl_length of the
 * answer is its length. It may be longer than the segment, since what records share is written for each of them.
 *
 * Refusals, in this order: asl_check's; 16; 13 where out_size is below what asl_tidy_length says.
 *
 * out: if answered, its first bytes, asl_length of them, are the tidy form; bytes after it stay.
 */
ASL_MUST_USE static inline asl_answer asl_tidy_by(uint64_t engine, const asl_pair *pairs, size_t pair_count,
                                                  const uint8_t *segment, size_t segment_size, uint8_t *out,
                                                  size_t out_size) {
    return asl_raw_tidy_by(engine, (const uint8_t *)pairs, asl_table_size(pair_count), segment, segment_size, out,
                           out_size);
}

ASL_MUST_USE static inline asl_answer asl_tidy(const asl_pair *pairs, size_t pair_count, const uint8_t *segment,
                                               size_t segment_size, uint8_t *out, size_t out_size) {
    return asl_tidy_by(ASL_ENGINE_FAST, pairs, pair_count, segment, segment_size, out, out_size);
}

/*
 * The length of what asl_write writes:
 *
 *     112 + bloom bytes + 48 * entries + digest bytes of all entries, rounded up to a multiple of 8
 *         + 16 * extents of all entries + 24
 *
 * 0 where this is over ASL_LIMIT or there are more than ASL_RECORDS_LIMIT entries: then asl_write refuses in any case.
 * Other than this it tests nothing.
 */
static inline size_t asl_write_length(size_t bloom_size, const asl_entry *entries, size_t entry_count) {
    uint64_t digests = 0, extents = 0, length;
    size_t i;
    if (bloom_size > ASL_LIMIT || entry_count > ASL_RECORDS_LIMIT) return 0;
    for (i = 0; i < entry_count; i++) {
        /* No sum is made of numbers over the limit, so that none wraps. */
        if (entries[i].digest_length > ASL_LIMIT || entries[i].extent_count > ASL_LIMIT) return 0;
        digests += entries[i].digest_length;
        extents += entries[i].extent_count;
    }
    length = ASL_HEADER_SIZE + bloom_size + ASL_RECORD_SIZE * entry_count + (digests + 7) / 8 * 8 +
             ASL_EXTENT_SIZE * extents + ASL_FOOTER_SIZE;
    return length > ASL_LIMIT ? 0 : (size_t)length;
}

/*
 * Writes a segment to out, in the tidy form. asl_length of the answer is its length, which is asl_write_length's.
 *
 * bloom: as it is to stand in the segment; its size is a multiple of 8, and may be 0.
 * entries: the records, in any order. entry_count counts entries.
 * digests: the bytes in which the entries' digests lie; they may share bytes and leave some unused.
 * extents: likewise the list in which the entries' extents lie. extent_count counts extents.
 *
 * Refusals, in this order: 14; 16 for the count of entries; 51 where bloom_size is no multiple of 8; then the entries
 * by number and within one 7, 15, 8, 9, 10; 12; 16 for the size of the result; 13 where out_size is below it.
 *
 * out: if answered, its first bytes, asl_length of them, are the segment; bytes after it stay.
 */
ASL_MUST_USE static inline asl_answer asl_write_by(uint64_t engine, const asl_pair *pairs, size_t pair_count,
                                                   asl_heading heading, const uint8_t *bloom, size_t bloom_size,
                                                   const asl_entry *entries, size_t entry_count,
                                                   const uint8_t *digests, size_t digests_size,
                                                   const asl_extent *extents, size_t extent_count, uint8_t *out,
                                                   size_t out_size) {
    /* No count may wrap when it is made a count of numbers. One entry over the limit is refused as any more are. */
    size_t whole_entries = entry_count > ASL_RECORDS_LIMIT ? ASL_RECORDS_LIMIT + 1 : entry_count;
    /* No memory holds so many extents, so they are lent as none: an entry that has extents is refused with 15, and for
       one that has none the list makes no difference. */
    size_t whole_extents = extent_count > PTRDIFF_MAX / sizeof(asl_extent) ? 0 : extent_count;
    return asl_raw_write_by(engine, (const uint8_t *)pairs, asl_table_size(pair_count), heading.shard,
                            heading.snapshot_min, heading.snapshot_max, heading.domain, heading.seal_snapshot,
                            heading.seal_time, bloom, bloom_size, (const uint64_t *)entries,
                            whole_entries * (sizeof(asl_entry) / sizeof(uint64_t)), digests, digests_size,
                            (const uint64_t *)extents, whole_extents * (sizeof(asl_extent) / sizeof(uint64_t)), out,
                            out_size);
}

ASL_MUST_USE static inline asl_answer asl_write(const asl_pair *pairs, size_t pair_count, asl_heading heading,
                                                const uint8_t *bloom, size_t bloom_size, const asl_entry *entries,
                                                size_t entry_count, const uint8_t *digests, size_t digests_size,
                                                const asl_extent *extents, size_t extent_count, uint8_t *out,
                                                size_t out_size) {
    return asl_write_by(ASL_ENGINE_FAST, pairs, pair_count, heading, bloom, bloom_size, entries, entry_count, digests,
                        digests_size, extents, extent_count, out, out_size);
}

/*
 * The checksum of bytes: the CRC-64 of the .xz format, which is what a segment has in its footer over all bytes before
 * it. "123456789" has 0x995DC9BBDF1939FA, and no bytes have 0. Any bytes will do, and nothing is refused.
 */
ASL_MUST_USE static inline uint64_t asl_checksum_by(uint64_t engine, const uint8_t *bytes, size_t size) {
    return asl_raw_checksum_by(engine, bytes, size);
}

ASL_MUST_USE static inline uint64_t asl_checksum(const uint8_t *bytes, size_t size) {
    return asl_checksum_by(ASL_ENGINE_FAST, bytes, size);
}

/*
 * The checksum of some bytes followed by these, where `before` is the checksum of the former. So a long input can be
 * taken in parts, each by any engine: sum = 0; then for each part sum = asl_checksum_on(sum, part, part_size).
 */
ASL_MUST_USE static inline uint64_t asl_checksum_on_by(uint64_t engine, uint64_t before, const uint8_t *bytes,
                                                       size_t size) {
    return asl_raw_checksum_on_by(engine, before, bytes, size);
}

ASL_MUST_USE static inline uint64_t asl_checksum_on(uint64_t before, const uint8_t *bytes, size_t size) {
    return asl_checksum_on_by(ASL_ENGINE_FAST, before, bytes, size);
}

#ifdef __cplusplus
}
#endif

#endif
