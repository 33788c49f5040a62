/* What each machine does here: `MACHINE CODE LENGTH COUNT` loads the program so many times, for a
 * memory of this length, and holds each. It prints "BYTES RESIDENT NANOSECONDS", of each on
 * average: what malloc has given out, how the process's resident memory has grown, and the time. A
 * machine that holds its programs elsewhere tells of them alone, and malloc is 0. */
#include <malloc.h>
#include <unistd.h>

enum { LONGEST = 65536 };

#ifdef HOLDS_ITSELF
/* The bytes that are held for a program, beside those of this process. */
static inline uint64_t held_by_itself(void *program);
#endif

static uint64_t given_out(void) {
    struct mallinfo2 told = mallinfo2();
    return told.uordblks + told.hblkhd;
}

static uint64_t resident(void) {
    uint64_t all, pages;
    FILE *file = fopen("/proc/self/statm", "r");
    if (file == NULL || fscanf(file, "%" SCNu64 " %" SCNu64, &all, &pages) != 2) exit(1);
    fclose(file);
    return pages * (uint64_t)sysconf(_SC_PAGESIZE);
}

static size_t bytes_of(const char *name, uint8_t *bytes) {
    FILE *file = fopen(name, "rb");
    if (file == NULL) exit(1);
    size_t length = fread(bytes, 1, LONGEST, file);
    fclose(file);
    return length;
}

int main(int words, char **word) {
    static uint8_t code[LONGEST];
    if (words != 4) return 2;
    size_t length = bytes_of(word[1], code), lent = strtoul(word[2], NULL, 10);
    size_t count = strtoul(word[3], NULL, 10);
    void **held = malloc(count * sizeof *held);
    memset(held, 1, count * sizeof *held);
    /* the first takes what is needed once */
    if (load(word[1], code, length, lent) == NULL) return 1;
    uint64_t bytes = given_out(), pages = resident(), start = nanoseconds();
    for (size_t n = 0; n < count; n++)
        if ((held[n] = load(word[1], code, length, lent)) == NULL) return 1;
    uint64_t time = nanoseconds() - start;
    bytes = given_out() - bytes, pages = resident() - pages;
#ifdef HOLDS_ITSELF
    uint64_t elsewhere = 0;
    for (size_t n = 0; n < count; n++) elsewhere += held_by_itself(held[n]);
    if (elsewhere > 0) bytes = 0, pages = elsewhere;
#endif
    printf("%.0f %.0f %.0f\n", (double)bytes / (double)count, (double)pages / (double)count,
           (double)time / (double)count);
    fflush(stdout);
    _exit(0);
}
