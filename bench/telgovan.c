/* The library: a program is verified once and runs by telgovan_program_run. */
#include "telgovan.h"

#include "machine.h"

static void *load(const char *name, const uint8_t *code, size_t length, size_t lent) {
    struct telgovan_program *program = calloc(1, sizeof *program);
    struct telgovan_verdict verdict;
    (void)name;
    if (program == NULL ||
        telgovan_program_load((uint32_t)lent, code, length, program, &verdict) != 0)
        return NULL;
    return program;
}

static inline void unload(void *program) {
    telgovan_program_unload(program);
    free(program);
}

static inline uint64_t run(void *program, uint8_t *memory, size_t length, uint64_t argument,
                           uint64_t *steps) {
    struct telgovan_outcome outcome;
    if (telgovan_program_run(program, 4096, argument, memory, length, &outcome) != 0) exit(1);
    *steps = outcome.used;
    return outcome.r0;
}
