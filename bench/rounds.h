/* What each machine does here: it reads lines "NAME CODE MEMORY ARGUMENT", code and memory in
 * hexadecimal ("-" for none), and prints "NAME R0 STEPS NANOSECONDS" of the quickest of several
 * rounds, by the run, or "NAME refused". STEPS is 0 where the machine doesn't count them. */

enum { ROUNDS = 7, ROUND = 40000000, MOST = 1 << 17 };

static size_t bytes_of(const char *text, uint8_t *bytes) {
    size_t length = 0;
    unsigned value;
    for (; sscanf(text, "%2x", &value) == 1; text += 2) bytes[length++] = (uint8_t)value;
    return length;
}

/* How long so many runs take. */
static uint64_t timed(void *program, uint8_t *memory, size_t length, uint64_t argument,
                      uint64_t times, uint64_t *r0, uint64_t *steps) {
    uint64_t start = nanoseconds();
    for (uint64_t n = 0; n < times; n++) *r0 = run(program, memory, length, argument, steps);
    return nanoseconds() - start;
}

static void measure(const char *name, void *program, uint8_t *memory, size_t length,
                    uint64_t argument) {
    uint64_t times = 1, r0 = 0, steps = 0, first = 0;
    while ((first = timed(program, memory, length, argument, times, &r0, &steps)) < ROUND / 4)
        times *= 2;
    double quickest = (double)first / (double)times;
    for (int round = 0; round < ROUNDS; round++) {
        double each =
            (double)timed(program, memory, length, argument, times, &r0, &steps) / (double)times;
        if (each < quickest) quickest = each;
    }
    printf("%s %" PRIu64 " %" PRIu64 " %.3f\n", name, r0, steps, quickest);
}

int main(void) {
    static char line[4 * MOST + 200], name[64], code[2 * MOST], lent[2 * MOST];
    static uint8_t bytes[MOST], memory[MOST];
    uint64_t argument;
    while (fgets(line, sizeof line, stdin) != NULL) {
        if (sscanf(line, "%63s %262143s %262143s %" SCNu64, name, code, lent, &argument) != 4)
            return 1;
        size_t length = bytes_of(lent, memory);
        void *program = load(name, bytes, bytes_of(code, bytes), length);
        if (program == NULL)
            printf("%s refused\n", name);
        else
            measure(name, program, memory, length, argument);
        fflush(stdout);
    }
    return 0;
}
