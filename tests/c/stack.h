// on_stack(make, given): calls make(given) on a stack of our own, so that it can be painted before and looked at after.
// It grows down, from the last byte towards the first.
#include <pthread.h>
#include <stdint.h>

enum { STACK = 8 << 20, PAINT = 0xA5 };
static _Alignas(64) uint8_t stack[STACK];

// Whether it could be called.
static int on_stack(void *(*make)(void *), void *given) {
    pthread_attr_t attributes;
    pthread_t thread;
    return pthread_attr_init(&attributes) == 0 && pthread_attr_setstack(&attributes, stack, STACK) == 0 &&
           pthread_create(&thread, &attributes, make, given) == 0 && pthread_join(thread, NULL) == 0;
}
