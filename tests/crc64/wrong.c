// Engines that are wrong where MISTAKE, a condition of C, holds: there a bit of the checksum or of the register is
// turned. The linker (--wrap) hands driver.c's calls to these, and the engines themselves are the __real_ ones.
#include <stddef.h>
#include <stdint.h>

// What a condition can speak of besides the bytes `s`, their number `n` and the register `before` (all ones, where a
// function is lent none): which function was called.
enum function { PLAIN, PLAIN_ON, FAST, FAST_ON };

static uint64_t turned(enum function called, uint64_t before, const uint8_t *s, size_t n) {
    (void)called, (void)before, (void)s, (void)n;
    return MISTAKE;
}

#define WHOLE(name, called)                                            \
    uint64_t __real_##name(const uint8_t *s, size_t n);                \
    uint64_t __wrap_##name(const uint8_t *s, size_t n);                \
    uint64_t __wrap_##name(const uint8_t *s, size_t n) {               \
        return __real_##name(s, n) ^ turned(called, UINT64_MAX, s, n); \
    }
#define ON(name, called)                                                   \
    uint64_t __real_##name(uint64_t before, const uint8_t *s, size_t n);   \
    uint64_t __wrap_##name(uint64_t before, const uint8_t *s, size_t n);   \
    uint64_t __wrap_##name(uint64_t before, const uint8_t *s, size_t n) {  \
        return __real_##name(before, s, n) ^ turned(called, before, s, n); \
    }
WHOLE(crc64_plain, PLAIN)
ON(crc64_plain_on, PLAIN_ON)
WHOLE(crc64_fast, FAST)
ON(crc64_fast_on, FAST_ON)
