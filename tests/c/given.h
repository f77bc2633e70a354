// The six calls, by number and by name; and can_give(service, number): which number each of them can answer, 0 among
// them. tests/independent/compare.py says the last by itself, and test_compare.py there holds the two to each other.
#include "asl.h"

enum { CHECK, LOOK_UP, STEP, TIDY_LENGTH, TIDY, WRITE, SERVICES };
static const char *const service_names[SERVICES] = {"check", "look-up", "step", "tidy-length", "tidy", "write"};
enum { NUMBERS = 256 };

static int can_give(int service, unsigned number) {
    static const unsigned possible[SERVICES][NUMBERS] = {
        [CHECK] = {1, 2, 3, 4, 6, 7, 8, 9, 10, 11, 12, 14, 51, 52, 53, 54, 55},
        [LOOK_UP] = {1, 2, 3, 4, 6, 7, 8, 9, 10, 11, 12, 13, 14, 17, 51, 52, 53, 54, 55},
        [STEP] = {1, 2, 3, 4, 6, 7, 8, 9, 10, 11, 12, 13, 14, 51, 52, 53, 54, 55},
        [TIDY_LENGTH] = {1, 2, 3, 4, 6, 7, 8, 9, 10, 11, 12, 14, 16, 51, 52, 53, 54, 55},
        [TIDY] = {1, 2, 3, 4, 6, 7, 8, 9, 10, 11, 12, 13, 14, 16, 51, 52, 53, 54, 55},
        [WRITE] = {7, 8, 9, 10, 12, 13, 14, 15, 16, 51},
    };
    for (const unsigned *given = possible[service]; *given; given++)
        if (*given == number) return 1;
    return number == ASL_OK;
}
