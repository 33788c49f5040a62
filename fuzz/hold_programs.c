/* Programs that are held. The first bytes say what is asked, as in run_bytes.c, and the others are
 * a program. What a handle's run comes to must be what a call with the bytes comes to, also through
 * a handle that shares the program, and after a load that is refused. The same program is played as
 * a job, which must keep its sums. AddressSanitizer looks on, and its leak checker. */
#include <stdint.h>
#include <stdlib.h>
#include <string.h>

#include "telgovan.h"

enum { HEAD = 16, ROOM = 4096, TASKS = 4 };

static void holds(int condition) {
    if (!condition) abort();
}

static uint8_t *filled(size_t length) {
    uint8_t *memory = malloc(length + 1);
    holds(memory != NULL);
    for (size_t n = 0; n < length; n++) memory[n] = (uint8_t)(n * 7);
    return memory;
}

/* The program as a job of one program, whose report adds up. */
static void play(uint32_t need, const uint8_t *code, size_t length, uint32_t credit, size_t lent,
                 const struct telgovan_verdict *verdict) {
    struct telgovan_piece piece = {.start = 0, .length = length, .need = need};
    struct telgovan_task tasks[TASKS];
    struct telgovan_report report;
    uint8_t *buffer = filled(lent), *before = filled(lent);
    uint32_t status =
        telgovan_job(code, length, &piece, 1, credit, buffer, lent, tasks, TASKS, &report);
    holds(status == report.status);
    if (status == 0) {
        holds(verdict->status == 0 && report.spent + report.returned == credit);
        uint64_t spent = 0, told = report.tasks < TASKS ? report.tasks : TASKS;
        for (uint64_t n = 0; n < told; n++) {
            holds(tasks[n].number == n && tasks[n].program == 0);
            spent += tasks[n].spent;
        }
        holds(report.tasks > TASKS ? spent <= report.spent : spent == report.spent);
    } else {
        holds(memcmp(buffer, before, lent) == 0 && report.tasks == 0);
        uint32_t expected = 99;
        if (lent < need) expected = 64;
        if (credit < verdict->cost) expected = 63;
        if (verdict->status != 0) expected = verdict->status;
        if (credit > 2147483647u) expected = 65;
        holds(status == expected || status == 99);
        holds(!report.has_program || (status == verdict->status && report.program == 0));
        holds(report.has_slot == (report.has_program && verdict->has_slot));
    }
    /* One byte more than the code has is no piece of it. */
    piece.length++;
    status = telgovan_job(code, length, &piece, 1, credit, buffer, lent, tasks, TASKS, &report);
    holds(status == (credit > 2147483647u ? 65 : 43));
    free(buffer);
    free(before);
}

int LLVMFuzzerTestOneInput(const uint8_t *data, size_t size) {
    uint32_t need, credit, cost = 7;
    uint64_t argument;
    if (size <= HEAD) return 0;
    memcpy(&need, data, 4);
    memcpy(&credit, data + 4, 4);
    memcpy(&argument, data + 8, 8);
    const uint8_t *code = data + HEAD;
    size_t length = size - HEAD, lent = need % ROOM;
    struct telgovan_program program = {0}, other = {0};
    struct telgovan_verdict verdict, again;
    struct telgovan_outcome one, two;

    uint8_t *memory = filled(lent), *copy = filled(lent);
    holds(telgovan_program_run(&program, credit, argument, memory, lent, &one) == 41);
    holds(telgovan_program_share(&program, &other) == 41);
    holds(telgovan_program_cost(&program, &cost) == 41 && cost == 7);
    uint32_t status = telgovan_program_load(need, code, length, &program, &verdict);
    holds(status == telgovan_verify(need, code, length, &again));
    holds(verdict.cost == again.cost && verdict.slot == again.slot);
    if (status == 0) {
        holds(telgovan_program_cost(&program, &cost) == 0 && cost == verdict.cost);
        holds(telgovan_program_load(need, code, 7, &program, &again) == 2);
        holds(telgovan_program_share(&program, &other) == 0);
        telgovan_program_run(&program, credit, argument, memory, lent, &one);
        telgovan_program_unload(&program);
        struct telgovan_run run = {.start = 0, .length = lent, .argument = argument};
        holds(telgovan_program_burst(&other, credit, copy, lent, &run, 1) == 0);
        two = run.outcome;
        holds(one.status == two.status && one.r0 == two.r0 && one.used == two.used);
        holds(memcmp(memory, copy, lent) == 0);
        free(copy);
        copy = filled(lent);
        telgovan_run(need, code, length, credit, argument, copy, lent, &two);
        holds(one.status == two.status && one.r0 == two.r0 && one.used == two.used);
        holds(memcmp(memory, copy, lent) == 0);
    }
    holds(telgovan_program_run(&program, credit, argument, memory, lent, &one) == 41);
    telgovan_program_unload(&program);
    telgovan_program_unload(&program);
    telgovan_program_unload(&other);
    play(need, code, length, credit, lent, &verdict);
    free(memory);
    free(copy);
    return 0;
}
