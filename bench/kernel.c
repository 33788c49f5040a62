/* The kernel's machine, which compiles a classifier of packets once it is verified. The kernel
 * times its own runs, in whole nanoseconds: its loop of runs counts too. Whoever calls it has to
 * be root. */
#include <errno.h>
#include <linux/bpf.h>
#include <sys/syscall.h>
#include <unistd.h>

#define HOLDS_ITSELF
#define TIMES_ITSELF
#include "machine.h"

enum { TIMES = 20000 };

static int kernel(int command, union bpf_attr *words) {
    return (int)syscall(SYS_bpf, command, words, sizeof *words);
}

static void *load(const char *name, const uint8_t *code, size_t length, size_t lent) {
    int *program = malloc(sizeof *program);
    union bpf_attr words = {.prog_type = BPF_PROG_TYPE_SCHED_CLS};
    (void)lent;
    words.insns = (uintptr_t)code;
    words.insn_cnt = (uint32_t)(length / 8);
    words.license = (uintptr_t) "";
    *program = kernel(BPF_PROG_LOAD, &words);
    if (*program >= 0) return program;
    free(program);
    fprintf(stderr, "%s: %s\n", name, strerror(errno));
    return NULL;
}

static inline void unload(void *program) {
    close(*(int *)program);
    free(program);
}

/* What the kernel counts for a program, without what it was compiled to. */
static inline uint64_t held_by_itself(void *program) {
    char path[64], line[256];
    uint64_t bytes = 0;
    snprintf(path, sizeof path, "/proc/self/fdinfo/%d", *(int *)program);
    FILE *told = fopen(path, "r");
    if (told == NULL) exit(1);
    while (fgets(line, sizeof line, told) != NULL) sscanf(line, "memlock: %" SCNu64, &bytes);
    fclose(told);
    return bytes;
}

/* Runs it so many times; how long each took. */
static uint32_t run_times(int program, uint8_t *memory, size_t length, uint32_t times,
                          uint32_t *each) {
    union bpf_attr words = {.test = {.prog_fd = (uint32_t)program, .repeat = times}};
    words.test.data_in = (uintptr_t)memory;
    words.test.data_size_in = (uint32_t)length;
    if (kernel(BPF_PROG_TEST_RUN, &words) != 0) exit(1);
    *each = words.test.duration;
    return words.test.retval;
}

static inline uint64_t run(void *program, uint8_t *memory, size_t length, uint64_t argument,
                           uint64_t *steps) {
    uint32_t each;
    (void)argument, (void)steps;
    return run_times(*(int *)program, memory, length, 1, &each);
}

static inline double timed_by_itself(void *program, uint8_t *memory, size_t length) {
    uint32_t each;
    run_times(*(int *)program, memory, length, TIMES, &each);
    return each;
}
