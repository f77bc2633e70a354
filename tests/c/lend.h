// lend(stretch, size): memory of exactly that size. It ends where a page begins that nobody may touch, so a program
// that reads or writes one byte past its end is ended at once, under the emulator too. What was lent from a stretch
// before is taken back.
#include <stdint.h>
#include <stdlib.h>
#include <sys/mman.h>
#include <unistd.h>

struct stretch {
    uint8_t *wall;
    size_t room;
};

static void build(struct stretch *s, size_t room) {
    size_t page = (size_t)sysconf(_SC_PAGESIZE);
    if (s->wall) munmap(s->wall - s->room, s->room + page);
    s->room = (room + page - 1) / page * page;
    uint8_t *start = mmap(NULL, s->room + page, PROT_READ | PROT_WRITE, MAP_PRIVATE | MAP_ANONYMOUS, -1, 0);
    if (start == MAP_FAILED || mprotect(start + s->room, page, PROT_NONE) != 0) abort();
    s->wall = start + s->room;
}

// Memory whose size is a multiple of 8 is aligned for numbers.
static void *lend(struct stretch *s, size_t size) {
    if (!s->wall || size > s->room) build(s, size + 65536);
    return s->wall - size;
}
