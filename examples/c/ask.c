/* A host whose programs ask it. Three tasks of one program run in turn, a slice of instructions at
 * a time. Each question is answered a round later, as if the answer came from somewhere else.
 *
 *   cc -std=c11 -O2 $(pkg-config --cflags telgovan) -o ask ask.c $(pkg-config --libs telgovan)
 *   ./ask ../ask.bpf          what the tasks ask, and what they come to
 *   ./ask ../ask.bpf SECONDS  how many questions a second are asked and answered */
#define _POSIX_C_SOURCE 199309L
#include <inttypes.h>
#include <stdio.h>
#include <stdlib.h>

#include "packets.h"
#include "telgovan.h"

enum { TASKS = 3, BYTES = 2, CREDIT_OF_ONE = 40, SLICE = 2, CALLS = 1024 };

/* Helper 64 takes one argument, helper 65 two. */
static const uint32_t arities[] = {1, 2};

static uint64_t answer_of(const struct telgovan_event *event) {
    const uint64_t *given = event->arguments;
    return event->helper == 64 ? 10 * given[0] : given[0] + given[1];
}

struct job {
    struct telgovan_task_handle task;
    struct telgovan_event event;
    uint8_t memory[BYTES];
    uint64_t answer;
    int ended;
};

/* One slice of a task, and what it came to. */
static int slice(int number, struct job *job) {
    if (telgovan_task_go(&job->task, job->answer, job->memory, BYTES, SLICE, &job->event) != 0)
        return 0;
    job->ended = job->event.kind == TELGOVAN_ENDED;
    if (job->ended)
        printf("task %d: ends with %" PRIu64 " for %u\n", number, job->event.r0, job->event.used);
    if (job->event.kind == TELGOVAN_ASKS) {
        job->answer = answer_of(&job->event);
        printf("task %d: asks %u of %" PRIu64 " and %" PRIu64 "\n", number, job->event.helper,
               job->event.arguments[0], job->event.arguments[1]);
    }
    return 1;
}

static int in_turn(struct telgovan_program *program) {
    static struct job jobs[TASKS];
    int left = TASKS;
    for (int n = 0; n < TASKS; n++) {
        jobs[n].memory[0] = (uint8_t)n;
        jobs[n].memory[1] = (uint8_t)(n + 1);
        if (telgovan_task_start(program, CREDIT_OF_ONE, 0, BYTES, &jobs[n].task) != 0) return 0;
    }
    /* The tasks hold the program too. */
    telgovan_program_unload(program);
    while (left > 0) {
        for (int n = 0; n < TASKS; n++) {
            if (jobs[n].ended) continue;
            if (!slice(n, &jobs[n])) return 0;
            left -= jobs[n].ended;
        }
    }
    for (int n = 0; n < TASKS; n++) {
        struct job *job = &jobs[n];
        uint32_t again = telgovan_task_go(&job->task, 0, job->memory, BYTES, 1, &job->event);
        telgovan_task_drop(&job->task);
        uint32_t gone = telgovan_task_go(&job->task, 0, job->memory, BYTES, 1, &job->event);
        telgovan_task_drop(&job->task);
        printf("task %d: byte %u, then %u and %u\n", n, job->memory[0], again, gone);
    }
    return 1;
}

/* What C can be told of misuse. */
static int refusals(const uint8_t *code, size_t length) {
    static const uint32_t many[65], long_one[] = {6};
    struct telgovan_program program = {0};
    struct telgovan_task_handle task = {0};
    struct telgovan_verdict verdict;
    struct telgovan_outcome outcome;
    struct telgovan_event event;
    uint8_t memory[BYTES + 1] = {0};
    printf("no program: %u, no task: %u\n", telgovan_task_start(&program, 40, 0, BYTES, &task),
           telgovan_task_go(&task, 0, memory, BYTES, 1, &event));
    printf("65 helpers: %u, six arguments: %u, no helper: %u\n",
           telgovan_program_load_with(BYTES, code, length, many, 65, &program, &verdict),
           telgovan_program_load_with(BYTES, code, length, long_one, 1, &program, &verdict),
           telgovan_program_load_with(BYTES, code, length, arities, 0, &program, &verdict));
    if (telgovan_program_load_with(BYTES, code, length, arities, 2, &program, &verdict) != 0)
        return 0;
    printf("run at once: %u, a credit of 31: %u, one byte: %u, too much: %u\n",
           telgovan_program_run(&program, 40, 0, memory, BYTES, &outcome),
           telgovan_task_start(&program, 31, 0, BYTES, &task),
           telgovan_task_start(&program, 40, 0, 1, &task),
           telgovan_task_start(&program, 1u << 31, 0, BYTES, &task));
    if (telgovan_task_start(&program, 40, 0, BYTES, &task) != 0) return 0;
    printf("another memory: %u\n", telgovan_task_go(&task, 0, memory, BYTES + 1, 9, &event));
    telgovan_task_drop(&task);
    telgovan_program_unload(&program);
    return 1;
}

/* Questions a second: a program of so many calls, each of which is a go. */
static int timed(double patience) {
    static char text[32 * CALLS];
    static uint8_t code[8 * 4096];
    struct telgovan_written written;
    struct telgovan_program program = {0};
    struct telgovan_task_handle task = {0};
    struct telgovan_verdict verdict;
    struct telgovan_event event;
    uint8_t none;
    int at = sprintf(text, "mov64 r0, 0\n");
    for (int n = 0; n < CALLS; n++) at += sprintf(text + at, "mov64 r1, r0\ncall 64\n");
    at += sprintf(text + at, "exit\n");
    if (telgovan_assemble((const uint8_t *)text, (size_t)at, code, sizeof code, &written) != 0 ||
        telgovan_program_load_with(0, code, written.length, arities, 1, &program, &verdict) != 0)
        return 0;
    double best = 1e9, start = now();
    while (now() - start < patience) {
        double begin = now();
        uint64_t answer = 0;
        if (telgovan_task_start(&program, verdict.cost, 0, 0, &task) != 0) return 0;
        do {
            if (telgovan_task_go(&task, answer, &none, 0, UINT32_MAX, &event) != 0) return 0;
            answer = event.arguments[0] + 1;
        } while (event.kind == TELGOVAN_ASKS);
        double took = now() - begin;
        if (event.kind != TELGOVAN_ENDED || event.r0 != CALLS) return 0;
        if (took < best) best = took;
    }
    telgovan_task_drop(&task);
    telgovan_program_unload(&program);
    printf("%.1f million answers a second, %.1f ns each\n", CALLS / best / 1e6,
           best / CALLS * 1e9);
    return 1;
}

int main(int count, char **words) {
    static uint8_t code[8 * 4096];
    struct telgovan_program program = {0};
    struct telgovan_verdict verdict;
    if (count < 2) {
        fprintf(stderr, "usage: ask FILE [SECONDS]\n");
        return 2;
    }
    if (count > 2) return timed(atof(words[2])) ? 0 : 1;
    size_t length = read_program(words[1], code, sizeof code);
    if (length == 0) return 1;
    if (telgovan_program_load_with(BYTES, code, length, arities, 2, &program, &verdict) != 0)
        return 1;
    printf("cost %u\n", verdict.cost);
    return in_turn(&program) && refusals(code, length) ? 0 : 1;
}
