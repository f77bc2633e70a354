// The bitwise loop of the plain engine, in C. NAME is what the function is called, so that two compilers' versions of
// it stand side by side. It includes no header: the kit's clang has none.

unsigned long NAME(const unsigned char *s, unsigned long n) {
    unsigned long c = ~0ul;
    for (unsigned long i = 0; i < n; i++) {
        c ^= s[i];
        for (int k = 0; k < 8; k++) c = c % 2 == 1 ? (c >> 1) ^ 0xC96C5795D7870F42ul : c >> 1;
    }
    return ~c;
}
