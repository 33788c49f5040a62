/* What each machine does here: it reads lines "NAME CODE LENGTH", the code in hexadecimal and the
 * length of a memory, and prints "NAME NANOSECONDS" of the quickest of many times that the program
 * was loaded and let go of, or "NAME refused". */

enum { ROUNDS = 200, LONGEST_ROUND = 300000000, MOST = 1 << 17 };

static inline void unload(void *program);

static size_t bytes_of(const char *text, uint8_t *bytes) {
    size_t length = 0;
    unsigned value;
    for (; sscanf(text, "%2x", &value) == 1; text += 2) bytes[length++] = (uint8_t)value;
    return length;
}

/* The quickest of many rounds; 0 where the program is refused. */
static uint64_t quickest_of(const char *name, const uint8_t *code, size_t length, size_t lent) {
    uint64_t quickest = UINT64_MAX, all = 0;
    for (int round = 0; round < ROUNDS && all < LONGEST_ROUND; round++) {
        uint64_t start = nanoseconds();
        void *program = load(name, code, length, lent);
        if (program == NULL) return 0;
        unload(program);
        uint64_t time = nanoseconds() - start;
        all += time;
        if (time < quickest) quickest = time;
    }
    return quickest;
}

int main(void) {
    static char line[2 * MOST + 200], name[64], code[2 * MOST];
    static uint8_t bytes[MOST];
    size_t lent;
    while (fgets(line, sizeof line, stdin) != NULL) {
        if (sscanf(line, "%63s %262143s %zu", name, code, &lent) != 3) return 1;
        uint64_t time = quickest_of(name, bytes, bytes_of(code, bytes), lent);
        if (time == 0)
            printf("%s refused\n", name);
        else
            printf("%s %" PRIu64 "\n", name, time);
        fflush(stdout);
    }
    return 0;
}
