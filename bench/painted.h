/* What the programs that measure a stack share: a call on a thread whose stack was painted before. */
#ifndef PAINTED_H
#define PAINTED_H

#include <pthread.h>
#include <stdint.h>
#include <stdlib.h>
#include <sys/mman.h>

/* Below a stack lie bytes that can't be written, more than the largest frame: a call that needs more stack ends the process. */
enum { GUARD = 1 << 24 };
#define PAINT UINT64_C(0xA5A5A5A55A5A5A5A)

/* The frame that calls, which what runs on the thread notes here. */
static uintptr_t top;

static uint64_t *make_stack(size_t size) {
    char *below = mmap(NULL, GUARD + size, PROT_READ | PROT_WRITE, MAP_PRIVATE | MAP_ANONYMOUS, -1, 0);
    if (below == MAP_FAILED || mprotect(below, GUARD, PROT_NONE) != 0) exit(2);
    return (uint64_t *)(below + GUARD);
}

/* Paints the stack and runs this on a thread that has it. Gives back the bytes from the frame that calls down to the lowest word that is not as painted. */
static size_t stack_used(uint64_t *stack, size_t size, void *(*run)(void *)) {
    pthread_attr_t attributes;
    pthread_t thread;
    size_t low = 0;
    for (size_t i = 0; i < size / sizeof *stack; i++) stack[i] = PAINT;
    pthread_attr_init(&attributes);
    if (pthread_attr_setstack(&attributes, stack, size) != 0 || pthread_create(&thread, &attributes, run, NULL) != 0) exit(2);
    pthread_join(thread, NULL);
    pthread_attr_destroy(&attributes);
    while (stack[low] == PAINT) low++;
    return top - (uintptr_t)(stack + low);
}

#endif
