/* What each machine does here: `MACHINE CODE FRAMES answers` prints what it answers to each frame,
 * 0 or 1, and the steps of a run on average; `MACHINE CODE FRAMES time` the nanoseconds of a run
 * on average, of the quickest of several rounds over all frames. FRAMES has the length of each in
 * four bytes ahead of it. With ANEW the program is loaded for each run, and let go of behind it. */

enum { ROUNDS = 9, ROUND = 20000000, LONGEST = 65536, MOST = 4096 };

struct frame {
    uint8_t *bytes;
    uint32_t length;
};

static struct frame frames[MOST];

/* What is loaded for each run, with ANEW. */
static uint8_t code[LONGEST];
static size_t code_length;

static size_t bytes_of(const char *name, uint8_t *bytes) {
    FILE *file = fopen(name, "rb");
    if (file == NULL) exit(1);
    size_t length = fread(bytes, 1, LONGEST, file);
    fclose(file);
    return length;
}

static size_t read_frames(const char *name) {
    size_t count = 0;
    uint32_t length;
    FILE *file = fopen(name, "rb");
    if (file == NULL) exit(1);
    while (count < MOST && fread(&length, 4, 1, file) == 1) {
        frames[count] = (struct frame){malloc(length), length};
        if (fread(frames[count++].bytes, 1, length, file) != length) exit(1);
    }
    fclose(file);
    return count;
}

#ifdef ANEW
static inline void unload(void *program);
#endif

static uint64_t run_on(void *program, const struct frame *frame, uint64_t *steps) {
#ifdef ANEW
    program = load("anew", code, code_length, 60);
#endif
    uint64_t answer = run(program, frame->bytes, frame->length, 0, steps);
#ifdef ANEW
    unload(program);
#endif
    return answer;
}

static void tell_answers(void *program, size_t count) {
    uint64_t all = 0;
    for (size_t n = 0; n < count; n++) {
        uint64_t steps = 0;
        putchar(run_on(program, &frames[n], &steps) ? '1' : '0');
        all += steps;
    }
    printf(" %.2f\n", (double)all / (double)count);
}

/* The time of a run on average. */
static double timed(void *program, size_t count, uint64_t times) {
    uint64_t steps, sum = 0, start = nanoseconds();
    for (uint64_t round = 0; round < times; round++)
        for (size_t n = 0; n < count; n++) sum += run_on(program, &frames[n], &steps);
    volatile uint64_t kept = sum;
    (void)kept;
    return (double)(nanoseconds() - start) / (double)(times * count);
}

#ifdef TIMES_ITSELF
/* The time of each of many runs on a frame, as the machine itself takes it. */
static inline double timed_by_itself(void *program, uint8_t *memory, size_t length);
#endif

static double quickest_of(void *program, size_t count) {
    double quickest = 1e9;
#ifdef TIMES_ITSELF
    quickest = 0;
    for (size_t n = 0; n < count; n++)
        quickest += timed_by_itself(program, frames[n].bytes, frames[n].length) / (double)count;
#else
    uint64_t times = 1 + (uint64_t)(ROUND / (timed(program, count, 1) * (double)count));
    for (int round = 0; round < ROUNDS; round++) {
        double each = timed(program, count, times);
        if (each < quickest) quickest = each;
    }
#endif
    return quickest;
}

int main(int words, char **word) {
    if (words != 4) return 2;
    code_length = bytes_of(word[1], code);
    size_t count = read_frames(word[2]);
    void *program = load(word[1], code, code_length, 60);
    if (program == NULL) return 1;
    if (strcmp(word[3], "answers") == 0)
        tell_answers(program, count);
    else
        printf("%.3f\n", quickest_of(program, count));
    return 0;
}
