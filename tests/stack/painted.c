/* The deepest stack that a function touches, as painted.h says; x86-64 with gcc, compiled with -mno-red-zone.
 * The thread paints its own stack below its frame, so that what the thread's start and end touch does not count. */
#define _GNU_SOURCE
#include "painted.h"

#include <pthread.h>
#include <stdint.h>
#include <stdlib.h>
#include <sys/mman.h>

#define STACK ((size_t)512 << 10)
#define GUARD ((size_t)4 << 20) /* below the stack; a function that gets there ends the program */
#define PAINT 0xC5

typedef struct {
    void (*run)(void);
    volatile uint8_t *base;
    size_t used;
} job;

/* No call stands between the painting and the run, or between the run and the count. */
static void *paint_and_run(void *given) {
    job *j = given;
    volatile uint8_t *top;
    __asm__ volatile("mov %%rsp, %0" : "=r"(top));
    for (volatile uint8_t *p = j->base; p < top; p++) *p = PAINT;
    j->run();
    volatile uint8_t *deepest = j->base;
    while (deepest < top && *deepest == PAINT) deepest++;
    j->used = (size_t)(top - deepest);
    return NULL;
}

static uint8_t *stack_base(void) {
    static uint8_t *region;
    if (region != NULL) return region + GUARD;
    void *got = mmap(NULL, GUARD + STACK, PROT_READ | PROT_WRITE, MAP_PRIVATE | MAP_ANONYMOUS, -1, 0);
    if (got == MAP_FAILED || mprotect(got, GUARD, PROT_NONE) != 0) abort();
    region = got;
    return region + GUARD;
}

size_t touched(void (*run)(void)) {
    job j = { run, stack_base(), 0 };
    pthread_attr_t attributes;
    pthread_t thread;
    if (pthread_attr_init(&attributes) != 0 || pthread_attr_setstack(&attributes, stack_base(), STACK) != 0) abort();
    if (pthread_create(&thread, &attributes, paint_and_run, &j) != 0 || pthread_join(thread, NULL) != 0) abort();
    pthread_attr_destroy(&attributes);
    return j.used;
}
