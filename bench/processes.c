/* The function of filter.c in a thread or in a process of its own, from its start to its answer.
 * The text of the program says which. Over held.h such a thread or process waits, and does
 * nothing. */
#define _GNU_SOURCE
#include <fcntl.h>
#include <linux/seccomp.h>
#include <pthread.h>
#include <semaphore.h>
#include <spawn.h>
#include <sys/prctl.h>
#include <sys/syscall.h>
#include <sys/wait.h>
#include <unistd.h>

#define HOLDS_ITSELF
#include "machine.h"

unsigned long filter(const unsigned char *frame);

extern char **environ;

static void *in_thread(void *frame) { return (void *)filter(frame); }

static uint64_t by_thread(uint8_t *memory, size_t length) {
    pthread_t thread;
    void *answer;
    (void)length;
    if (pthread_create(&thread, NULL, in_thread, memory) != 0) exit(1);
    pthread_join(thread, &answer);
    return (uint64_t)answer;
}

static uint64_t by_fork(uint8_t *memory, size_t length) {
    int status;
    pid_t child = fork();
    (void)length;
    if (child == 0) _exit((int)filter(memory));
    if (child < 0 || waitpid(child, &status, 0) != child) exit(1);
    return (uint64_t)WEXITSTATUS(status);
}

/* The answer that a child has written, once it has ended. */
static uint64_t answer_of(pid_t child, const int *ends) {
    uint8_t answer;
    int status;
    close(ends[1]);
    if (read(ends[0], &answer, 1) != 1 || waitpid(child, &status, 0) != child) exit(1);
    close(ends[0]);
    return answer;
}

static uint64_t by_seccomp(uint8_t *memory, size_t length) {
    int ends[2];
    (void)length;
    if (pipe(ends) != 0) exit(1);
    pid_t child = fork();
    if (child == 0) {
        if (prctl(PR_SET_SECCOMP, SECCOMP_MODE_STRICT) != 0) _exit(1);
        uint8_t answer = (uint8_t)filter(memory);
        syscall(SYS_exit, write(ends[1], &answer, 1) != 1);
    }
    return answer_of(child, ends);
}

/* A program of its own (child.c), which reads the frame. */
static uint64_t by_exec(uint8_t *memory, size_t length) {
    static const char *program;
    int ends[2], frame[2];
    pid_t child;
    posix_spawn_file_actions_t actions;
    if (program == NULL && (program = getenv("CHILD")) == NULL) exit(1);
    if (pipe2(ends, O_CLOEXEC) != 0 || pipe2(frame, O_CLOEXEC) != 0) exit(1);
    posix_spawn_file_actions_init(&actions);
    posix_spawn_file_actions_adddup2(&actions, frame[0], 0);
    posix_spawn_file_actions_adddup2(&actions, ends[1], 1);
    char *words[] = {(char *)program, NULL};
    if (posix_spawn(&child, program, &actions, NULL, words, environ) != 0) exit(1);
    posix_spawn_file_actions_destroy(&actions);
    close(frame[0]);
    if (write(frame[1], memory, length) != (ssize_t)length) exit(1);
    close(frame[1]);
    return answer_of(child, ends);
}

struct way {
    const char *name;
    uint64_t (*answer)(uint8_t *memory, size_t length);
};

static const struct way ways[] = {
    {"thread", by_thread}, {"fork", by_fork}, {"seccomp", by_seccomp}, {"exec", by_exec}};

static const struct way *way_of(const uint8_t *text, size_t length) {
    for (size_t n = 0; n < sizeof ways / sizeof *ways; n++)
        if (strlen(ways[n].name) == length && memcmp(ways[n].name, text, length) == 0)
            return &ways[n];
    exit(2);
}

/* ---- Held and idle */

struct idle {
    pid_t child;
    pthread_t thread;
};

static sem_t never;

static void *wait_for_ever(void *none) {
    while (sem_wait(&never) != 0) continue;
    return none;
}

static inline void *hold(const uint8_t *text, size_t length) {
    struct idle *idle = calloc(1, sizeof *idle);
    const struct way *way = way_of(text, length);
    if (way->answer == by_thread) {
        if (pthread_create(&idle->thread, NULL, wait_for_ever, NULL) != 0) exit(1);
        return idle;
    }
    pid_t parent = getpid();
    idle->child = fork();
    if (idle->child < 0) exit(1);
    if (idle->child == 0) {
        if (prctl(PR_SET_PDEATHSIG, SIGKILL) != 0 || getppid() != parent) _exit(1);
        for (;;) pause();
    }
    return idle;
}

/* What is added up of a file of /proc of the child: kilobytes. */
static inline uint64_t added(pid_t child, const char *file, const char *key) {
    char path[64], line[256];
    uint64_t sum = 0, value;
    snprintf(path, sizeof path, "/proc/%d/%s", child, file);
    FILE *told = fopen(path, "r");
    if (told == NULL) exit(1);
    while (fgets(line, sizeof line, told) != NULL)
        if (strncmp(line, key, strlen(key)) == 0 &&
            sscanf(strchr(line, ':') + 1, "%" SCNu64, &value) == 1)
            sum += value;
    fclose(told);
    return sum;
}

/* The bytes that a child has for itself, with its page tables; 0 of a thread. */
static inline uint64_t held_by_itself(void *program) {
    const struct idle *idle = program;
    if (idle->child == 0) return 0;
    return 1024 * (added(idle->child, "smaps_rollup", "Private_") +
                   added(idle->child, "status", "VmPTE"));
}

static void *load(const char *name, const uint8_t *code, size_t length, size_t lent) {
    (void)name, (void)lent;
#ifdef HOLDS
    return hold(code, length);
#else
    return (void *)way_of(code, length);
#endif
}

static inline uint64_t run(void *program, uint8_t *memory, size_t length, uint64_t argument,
                           uint64_t *steps) {
    const struct way *way = program;
    (void)argument, (void)steps;
    return way->answer(memory, length);
}
