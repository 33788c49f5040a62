/* The C functions of examples/clang as the processor's own code. FUNCTIONS names them, and the file
 * functions.h, which bench/run writes, has their text. */
#include "functions.h"

#include "machine.h"

struct named {
    const char *name;
    unsigned long (*function)();
};

static struct named functions[] = {FUNCTIONS};

static void *load(const char *name, const uint8_t *code, size_t length, size_t lent) {
    (void)code, (void)length, (void)lent;
    for (size_t n = 0; n < sizeof functions / sizeof *functions; n++)
        if (strcmp(functions[n].name, name) == 0) return &functions[n];
    return NULL;
}

static uint64_t run(void *program, uint8_t *memory, size_t length, uint64_t argument,
                    uint64_t *steps) {
    const struct named *named = program;
    (void)steps;
    return named->function(memory, length, argument);
}
