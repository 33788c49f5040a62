/* The library: each run is a job of one task, which is admitted, with its program, and played. */
#include "telgovan.h"

#include "machine.h"

struct text {
    const uint8_t *code;
    size_t length;
    uint32_t need;
};

static void *load(const char *name, const uint8_t *code, size_t length, size_t lent) {
    static struct text text;
    (void)name;
    text = (struct text){code, length, (uint32_t)lent};
    return &text;
}

static uint64_t run(void *program, uint8_t *memory, size_t length, uint64_t argument,
                    uint64_t *steps) {
    const struct text *text = program;
    const struct telgovan_piece piece = {0, text->length, text->need};
    struct telgovan_task task;
    struct telgovan_report report;
    (void)argument;
    if (telgovan_job(text->code, text->length, &piece, 1, 4096, memory, length, &task, 1,
                     &report) != 0)
        exit(1);
    *steps = report.spent;
    return task.r0;
}
