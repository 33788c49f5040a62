/* A machine of the benchmarks: whoever includes this has `load` and `run`. MAIN names what
 * measures it: rounds.h, unless the compiler is told another one. */
#ifndef MACHINE_H
#define MACHINE_H

#define _GNU_SOURCE
#include <inttypes.h>
#include <stdint.h>
#include <stdio.h>
#include <stdlib.h>
#include <string.h>
#include <time.h>

/* The program of these bytes, for a memory of this length, or NULL. */
static void *load(const char *name, const uint8_t *code, size_t length, size_t lent);

/* R0 of a run on the memory, and how many instructions ran, where that is known. */
static uint64_t run(void *program, uint8_t *memory, size_t length, uint64_t argument,
                    uint64_t *steps);

/* The time that this thread had of a processor, or that of the clock. */
#ifndef CLOCK
#define CLOCK CLOCK_THREAD_CPUTIME_ID
#endif

static inline uint64_t nanoseconds(void) {
    struct timespec time;
    clock_gettime(CLOCK, &time);
    return (uint64_t)time.tv_sec * 1000000000u + (uint64_t)time.tv_nsec;
}

#ifndef MAIN
#define MAIN "rounds.h"
#endif
#include MAIN

#endif
