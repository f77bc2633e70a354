// Prints each refusal's number and its name, as asl.h has them. The numbers need not follow one another.
#include <stdio.h>
#include <string.h>

#include "asl.h"

static int is_named(uint64_t number) { return strcmp(asl_refusal_name(number), "unknown") != 0; }

int main(void) {
    enum { NUMBERS = 256 }; // an answer has no number beyond
    for (uint64_t number = ASL_OK + 1; number < NUMBERS; number++)
        if (is_named(number)) printf("%d %s\n", (int)number, asl_refusal_name(number));
    return strcmp(asl_refusal_name(ASL_OK), "ok") != 0 || is_named(NUMBERS) || is_named(UINT64_MAX) ||
           is_named(((uint64_t)1 << 32) + ASL_REFUSED_SIZE);
}
