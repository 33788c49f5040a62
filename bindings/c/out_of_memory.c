/* Refuses each request for memory in turn, alone or with all that follow. A call that is refused
 * answers 99, holds no more blocks than before, and leaves what it was lent as it was. Links the
 * static library, with malloc, realloc and free wrapped. */
#include <stdint.h>
#include <stdio.h>
#include <stdlib.h>
#include <string.h>

#include "telgovan.h"

enum { ROOM = 4096, BYTES = 64, JOB_CREDIT = 2000, TASKS = 8 };

static long granted = -1; /* how many requests are granted before one is refused; -1: all */
static int then_all;      /* whether all that follow are refused too */
static int refused;       /* whether one was */
static long blocks;       /* how many blocks are held */

void *__real_malloc(size_t size);
void *__real_realloc(void *old, size_t size);
void __real_free(void *block);

static int grants(void) {
    if (granted != 0) {
        if (granted > 0) granted--;
        return 1;
    }
    refused = 1;
    if (!then_all) granted = -1;
    return 0;
}

void *__wrap_malloc(size_t size) {
    void *block = grants() ? __real_malloc(size) : NULL;
    blocks += block != NULL;
    return block;
}

void *__wrap_realloc(void *old, size_t size) {
    void *block = grants() ? __real_realloc(old, size) : NULL;
    blocks += old == NULL && block != NULL;
    return block;
}

void __wrap_free(void *block) {
    blocks -= block != NULL;
    __real_free(block);
}

#define HOLDS(condition)                                                                           \
    do {                                                                                           \
        if (!(condition)) {                                                                        \
            printf("%s:%d: %s\n", __FILE__, __LINE__, #condition);                                 \
            exit(1);                                                                               \
        }                                                                                          \
    } while (0)

struct code {
    uint8_t bytes[ROOM];
    size_t length;
};

static void assemble(const char *source, struct code *code) {
    struct telgovan_written written;
    HOLDS(telgovan_assemble((const uint8_t *)source, strlen(source), code->bytes, ROOM, &written) ==
          0);
    code->length = written.length;
}

static uint32_t load(const struct code *code, struct telgovan_program *program) {
    struct telgovan_verdict verdict;
    uint32_t status = telgovan_program_load(0, code->bytes, code->length, program, &verdict);
    HOLDS(status == verdict.status);
    return status;
}

/* What the program that is held answers, which takes no memory. */
static uint64_t answer(struct telgovan_program *program) {
    struct telgovan_outcome outcome;
    uint8_t none;
    long before = blocks;
    granted = 0, then_all = 1, refused = 0;
    HOLDS(telgovan_program_run(program, 10, 0, &none, 0, &outcome) == 0);
    granted = -1;
    HOLDS(!refused && blocks == before);
    return outcome.r0;
}

/* A load leaves the program that was held where it is refused. Whether a request was refused. */
static int try_load(long request, int all, const struct code *seven, const struct code *eight) {
    struct telgovan_program program = {0};
    HOLDS(load(seven, &program) == 0);
    long before = blocks;
    granted = request, then_all = all, refused = 0;
    uint32_t status = load(eight, &program);
    granted = -1;
    int was_refused = refused;
    HOLDS(status == (was_refused ? 99 : 0));
    HOLDS(!was_refused || blocks == before);
    HOLDS(answer(&program) == (was_refused ? 7 : 8));
    telgovan_program_unload(&program);
    return was_refused;
}

/* A share leaves both handles where it is refused. */
static int try_share(long request, int all, const struct code *seven, const struct code *eight) {
    struct telgovan_program program = {0}, other = {0};
    HOLDS(load(seven, &program) == 0 && load(eight, &other) == 0);
    long before = blocks;
    granted = request, then_all = all, refused = 0;
    uint32_t status = telgovan_program_share(&program, &other);
    granted = -1;
    int was_refused = refused;
    HOLDS(status == (was_refused ? 99 : 0));
    HOLDS(!was_refused || blocks == before);
    HOLDS(answer(&program) == 7 && answer(&other) == (was_refused ? 8 : 7));
    telgovan_program_unload(&program);
    HOLDS(answer(&other) == (was_refused ? 8 : 7));
    telgovan_program_unload(&other);
    return was_refused;
}

/* A load with helpers of the host's leaves the program that was held where it is refused. */
static int try_load_with(long request, int all, const struct code *seven,
                         const struct code *eight) {
    static const uint32_t arities[] = {TELGOVAN_NO_HELPER, 2};
    struct telgovan_program program = {0};
    struct telgovan_verdict verdict;
    struct telgovan_outcome outcome;
    uint8_t none;
    HOLDS(load(seven, &program) == 0);
    long before = blocks;
    granted = request, then_all = all, refused = 0;
    uint32_t status = telgovan_program_load_with(0, eight->bytes, eight->length, arities, 2,
                                                 &program, &verdict);
    granted = -1;
    int was_refused = refused;
    HOLDS(status == (was_refused ? 99 : 0) && status == verdict.status);
    HOLDS(!was_refused || blocks == before);
    HOLDS(telgovan_program_run(&program, 10, 0, &none, 0, &outcome) == (was_refused ? 0 : 48));
    telgovan_program_unload(&program);
    return was_refused;
}

/* A start leaves the task that was held where it is refused. A task goes on without memory. */
static int try_start(long request, int all, const struct code *seven, const struct code *eight) {
    struct telgovan_program program = {0}, other = {0};
    struct telgovan_task_handle task = {0};
    struct telgovan_event event;
    uint8_t none;
    HOLDS(load(seven, &program) == 0 && load(eight, &other) == 0);
    HOLDS(telgovan_task_start(&other, 10, 0, 0, &task) == 0);
    long before = blocks;
    granted = request, then_all = all, refused = 0;
    uint32_t status = telgovan_task_start(&program, 10, 0, 0, &task);
    granted = -1;
    int was_refused = refused;
    HOLDS(status == (was_refused ? 99 : 0));
    HOLDS(!was_refused || blocks == before);
    telgovan_program_unload(&program);
    telgovan_program_unload(&other);
    granted = 0, then_all = 1, refused = 0;
    HOLDS(telgovan_task_go(&task, 0, &none, 0, 9, &event) == 0);
    granted = -1;
    HOLDS(!refused && event.kind == TELGOVAN_ENDED && event.r0 == (was_refused ? 8 : 7));
    telgovan_task_drop(&task);
    return was_refused;
}

/* Steps and graphs are told whole or not at all. */
static int try_views(long request, int all, const struct code *seven, const struct code *none) {
    static uint8_t room[ROOM], same[ROOM];
    struct telgovan_written written;
    uint8_t nothing;
    (void)none;
    int were_refused = 0;
    for (int view = 0; view < 2; view++) {
        memset(room, 7, sizeof room);
        memset(same, 7, sizeof same);
        long before = blocks;
        granted = request, then_all = all, refused = 0;
        uint32_t status =
            view == 0 ? telgovan_trace(0, seven->bytes, seven->length, &nothing, 0, 10, 0,
                                       &nothing, 0, room, ROOM, &written)
                      : telgovan_graph(0, seven->bytes, seven->length, &nothing, 0, room, ROOM,
                                       &written);
        granted = -1;
        HOLDS(blocks == before && status == written.status);
        HOLDS(status == (refused ? 99 : 0) && (written.length == 0) == (status != 0));
        HOLDS(memcmp(room + written.length, same, ROOM - written.length) == 0);
        were_refused |= refused;
    }
    return were_refused;
}

/* A job leaves the buffer and the tasks where it is refused. A spawn that is refused is an answer
 * to the task, and no refusal of the job. */
static int try_job(long request, int all, const struct code *sum, const struct code *none) {
    uint8_t buffer[BYTES], same[BYTES];
    struct telgovan_task tasks[TASKS], blank[TASKS];
    struct telgovan_report report;
    struct telgovan_piece piece = {.start = 0, .length = sum->length, .need = 8};
    (void)none;
    for (int n = 0; n < BYTES; n++) buffer[n] = same[n] = (uint8_t)(n + 1);
    memset(tasks, 0, sizeof tasks);
    memset(blank, 0, sizeof blank);
    long before = blocks;
    granted = request, then_all = all, refused = 0;
    uint32_t status = telgovan_job(sum->bytes, sum->length, &piece, 1, JOB_CREDIT, buffer, BYTES,
                                   tasks, TASKS, &report);
    granted = -1;
    HOLDS(blocks == before && status == report.status);
    if (status == 0) {
        HOLDS(report.spent + report.returned == JOB_CREDIT && (refused || report.tasks == 8));
    } else {
        HOLDS(refused && status == 99);
        HOLDS(memcmp(buffer, same, BYTES) == 0 && memcmp(tasks, blank, sizeof tasks) == 0);
    }
    return refused;
}

/* An open leaves the job that was held where it is refused. A job goes on where a spawn is refused
 * for want of memory, with all of its credit; its buffer is written whole or not at all. */
static int try_world(long request, int all, const struct code *sum, const struct code *seven) {
    uint8_t buffer[BYTES] = {1, 2, 3}, room[BYTES];
    struct telgovan_world world = {0};
    struct telgovan_report report;
    struct telgovan_step step = {0};
    struct telgovan_written written;
    struct telgovan_piece piece = {.start = 0, .length = sum->length, .need = 8};
    struct telgovan_piece other = {.start = 0, .length = seven->length, .need = 0};
    long before = blocks;
    HOLDS(telgovan_world_open(seven->bytes, seven->length, &other, 1, 9, buffer, 0, &world,
                              &report) == 0);
    granted = request, then_all = all, refused = 0;
    uint32_t status = telgovan_world_open(sum->bytes, sum->length, &piece, 1, JOB_CREDIT, buffer,
                                          BYTES, &world, &report);
    int was_opened = status == 0;
    HOLDS(status == report.status && status == (was_opened ? 0 : 99) && (was_opened || refused));
    for (uint32_t task = 0; !step.is_complete; task++)
        HOLDS(telgovan_world_run(&world, task, UINT32_MAX, &step) == 0);
    status = telgovan_world_buffer(&world, room, BYTES, &written);
    granted = -1;
    int was_refused = refused;
    HOLDS(step.held == 0 && step.spent + step.returned == (was_opened ? JOB_CREDIT : 9));
    HOLDS(step.tasks == (was_opened ? 8 : 1) || (was_opened && was_refused));
    HOLDS(status == written.status && (status == 0 || (was_refused && status == 99)));
    HOLDS(written.length == (status == 0 && was_opened ? BYTES : 0));
    telgovan_world_drop(&world);
    telgovan_world_drop(&world);
    HOLDS(blocks == before);
    return was_refused;
}

/* The steps of a job are told whole or not at all. */
static int try_job_trace(long request, int all, const struct code *sum, const struct code *none) {
    static uint8_t room[8 * ROOM], same[8 * ROOM];
    static const uint32_t schedule[2 * BYTES];
    uint8_t buffer[BYTES] = {1, 2, 3};
    struct telgovan_written written;
    struct telgovan_piece piece = {.start = 0, .length = sum->length, .need = 8};
    (void)none;
    memset(room, 7, sizeof room);
    memset(same, 7, sizeof same);
    long before = blocks;
    granted = request, then_all = all, refused = 0;
    uint32_t status = telgovan_job_trace(sum->bytes, sum->length, &piece, 1, JOB_CREDIT, buffer,
                                         BYTES, schedule, 10, room, sizeof room, &written);
    granted = -1;
    HOLDS(blocks == before && status == written.status && status == (refused ? 99 : 0));
    HOLDS((written.length == 0) == (status != 0));
    HOLDS(memcmp(room + written.length, same, sizeof room - written.length) == 0);
    return refused;
}

/* Puts a text behind its length, and answers how many bytes both have. */
static size_t put_frame(uint8_t *bytes, const char *text) {
    size_t length = strlen(text);
    for (int n = 0; n < 4; n++) bytes[n] = (uint8_t)(length >> (24 - 8 * n));
    memcpy(bytes + 4, text, length);
    return length + 4;
}

/* A grant, and a submit of a job of this program. */
static size_t put_requests(uint8_t *bytes, const struct code *code) {
    static char text[4 * ROOM], hex[2 * ROOM + 1];
    for (size_t n = 0; n < code->length; n++) sprintf(hex + 2 * n, "%02x", code->bytes[n]);
    size_t length = put_frame(bytes, "{\"op\":\"grant\",\"tenant\":\"t\",\"amount\":2000}");
    sprintf(text,
            "{\"op\":\"submit\",\"tenant\":\"t\",\"programs\":[{\"need\":8,\"code\":\"%s\"}],"
            "\"credit\":%d,\"buffer\":\"%0*d\"}",
            hex, JOB_CREDIT, 2 * BYTES, 0);
    return length + put_frame(bytes + length, text);
}

/* A desk answers, or says that there was no memory. What it holds is let go of with it. */
static int try_desk(long request, int all, const struct code *sum, const struct code *none) {
    static uint8_t frames[6 * ROOM], room[4 * ROOM];
    struct telgovan_desk desk = {0};
    struct telgovan_handed handed = {0};
    struct telgovan_sent sent = {0};
    struct telgovan_report report = {.spent = JOB_CREDIT};
    struct telgovan_task task = {0};
    uint8_t buffer[BYTES] = {0};
    uint64_t client = 0;
    (void)none;
    size_t length = put_requests(frames, sum);
    long before = blocks;
    granted = request, then_all = all, refused = 0;
    uint32_t status = telgovan_desk_new(&desk);
    if (status == 0) status = telgovan_desk_connect(&desk, &client);
    if (status == 0) status = telgovan_desk_feed(&desk, client, frames, length);
    if (status == 0) status = telgovan_desk_next_job(&desk, room, sizeof room, &handed);
    if (status == 0 && handed.job != 0)
        status = telgovan_desk_finish(&desk, handed.job, &report, buffer, BYTES, &task, 1);
    if (status == 0) status = telgovan_desk_replies(&desk, client, room, sizeof room, &sent);
    granted = -1;
    int was_refused = refused;
    HOLDS(status == 0 || (was_refused && status == 99));
    HOLDS(was_refused || (handed.job == 1 && sent.count > 0 && sent.left == 0));
    telgovan_desk_free(&desk);
    telgovan_desk_free(&desk);
    HOLDS(blocks == before);
    return was_refused;
}

typedef int trial(long request, int all, const struct code *one, const struct code *other);

static void try_each(const char *name, trial *one, const struct code *first,
                     const struct code *second) {
    for (int all = 0; all < 2; all++) {
        long request = 0;
        while (one(request, all, first, second)) request++;
        printf("%s: %ld requests, each refused %s\n", name, request,
               all ? "with all that follow" : "alone");
    }
    HOLDS(blocks == 0);
}

int main(int count, char **words) {
    static struct code seven, eight, sum;
    static char text[ROOM];
    FILE *file = count > 1 ? fopen(words[1], "rb") : NULL;
    if (file == NULL) return 2;
    text[fread(text, 1, sizeof text - 1, file)] = 0;
    fclose(file);
    blocks = 0;
    assemble("mov64 r0, 7\nexit", &seven);
    assemble("mov64 r0, 8\nexit", &eight);
    assemble(text, &sum);
    HOLDS(blocks == 0);
    try_each("load", try_load, &seven, &eight);
    try_each("share", try_share, &seven, &eight);
    try_each("load with helpers", try_load_with, &seven, &eight);
    try_each("start", try_start, &seven, &eight);
    try_each("steps and graph", try_views, &seven, &seven);
    try_each("job", try_job, &sum, &sum);
    try_each("job under way", try_world, &sum, &seven);
    try_each("steps of a job", try_job_trace, &sum, &sum);
    try_each("desk", try_desk, &sum, &sum);
    return 0;
}
