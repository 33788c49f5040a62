/* Tasks that ask their host. The first bytes say the need, the credit and the argument, as in
 * run_bytes.c, then a slice and how many arguments each of eight helpers takes. The others are a
 * program. Two tasks run it: one as far as it goes, the other in slices. Both must ask the same
 * questions and come to the same end, also where the program's handle is gone by then. Misuse is
 * told by its number and changes nothing. AddressSanitizer looks on, and its leak checker. */
#include <stdint.h>
#include <stdlib.h>
#include <string.h>

#include "telgovan.h"

enum { HELPERS = 8, HEAD = 17 + HELPERS, ROOM = 4096, MOST = 4096 };

/* What the first bytes say. */
struct asked {
    uint32_t need, credit;
    uint64_t argument;
    uint8_t slice;
    uint32_t arities[HELPERS];
};

/* A task with its memory, and what it asked. */
struct side {
    struct telgovan_task_handle task;
    struct telgovan_event end;
    uint8_t *memory;
    size_t asks;
    struct telgovan_event events[MOST];
};

static void holds(int condition) {
    if (!condition) abort();
}

static uint8_t *filled(size_t length) {
    uint8_t *memory = malloc(length + 1);
    holds(memory != NULL);
    for (size_t n = 0; n < length; n++) memory[n] = (uint8_t)(n * 7);
    return memory;
}

/* Any answer, the same to the same question at the same place. */
static uint64_t answer_of(const struct telgovan_event *event, size_t place) {
    uint64_t answer = event->helper + 31 * place;
    for (int n = 0; n < 5; n++) answer = answer * 6364136223846793005u + event->arguments[n];
    return answer;
}

static void read_asked(const uint8_t *data, struct asked *asked) {
    memcpy(&asked->need, data, 4);
    memcpy(&asked->credit, data + 4, 4);
    memcpy(&asked->argument, data + 8, 8);
    asked->slice = data[16];
    for (int n = 0; n < HELPERS; n++) {
        uint8_t arity = data[17 + n] % 7;
        asked->arities[n] = arity > 5 ? TELGOVAN_NO_HELPER : arity;
    }
}

static int same(const struct telgovan_event *one, const struct telgovan_event *two) {
    return one->helper == two->helper && one->used == two->used && one->r0 == two->r0 &&
           memcmp(one->arguments, two->arguments, sizeof one->arguments) == 0;
}

/* Checks a question by what the host said of its helpers. */
static void check_question(const struct asked *asked, const struct telgovan_event *event) {
    holds(event->helper >= 64 && event->helper < 64 + HELPERS);
    uint32_t arity = asked->arities[event->helper - 64];
    holds(arity <= 5);
    for (uint32_t n = arity; n < 5; n++) holds(event->arguments[n] == 0);
}

/* Runs a task to its end, so many instructions a piece and every other time none. */
static void run(const struct asked *asked, struct side *side, size_t lent, uint32_t slice,
                uint32_t cost) {
    uint64_t answer = asked->argument;
    uint32_t used = 0;
    for (int rests = 0;; rests = !rests) {
        struct telgovan_event event;
        uint32_t limit = rests && slice != UINT32_MAX ? 0 : slice;
        uint32_t wrong =
            telgovan_task_go(&side->task, answer, side->memory, lent + 1, limit, &event);
        holds(wrong == 43 && event.status == 43);
        holds(telgovan_task_go(&side->task, answer, side->memory, lent, limit, &event) == 0);
        holds(event.status == 0 && event.used >= used && event.used <= cost);
        used = event.used;
        if (event.kind == TELGOVAN_ASKS) {
            check_question(asked, &event);
            holds(side->asks < MOST);
            answer = answer_of(&event, side->asks);
            side->events[side->asks++] = event;
        } else if (event.kind == TELGOVAN_ENDED) {
            side->end = event;
            return;
        } else {
            holds(event.kind == TELGOVAN_AT_LIMIT);
            answer = ~answer; /* which nobody asked for */
        }
    }
}

/* The two runs of a program that a handle holds, and what is refused before and behind them. */
static void compare(const struct asked *asked, struct telgovan_program *program, size_t lent,
                    uint32_t cost) {
    struct side *whole = calloc(1, sizeof *whole), *cut = calloc(1, sizeof *cut);
    holds(whole != NULL && cut != NULL);
    whole->memory = filled(lent + 1);
    cut->memory = filled(lent + 1);
    struct telgovan_event event;
    struct telgovan_outcome outcome;
    uint32_t credit = asked->credit, expected = 0;
    if (lent < asked->need) expected = 43;
    if (credit < cost) expected = 42;
    if (credit > 2147483647u) expected = 65;
    uint32_t status = telgovan_task_start(program, credit, asked->argument, lent, &whole->task);
    holds(status == expected);
    if (status != 0) {
        holds(telgovan_task_go(&whole->task, 0, whole->memory, lent, 1, &event) == 47);
    } else {
        uint32_t slice = asked->slice % 7 + 1;
        holds(telgovan_task_start(program, credit, ~asked->argument, lent, &cut->task) == 0);
        holds(telgovan_task_start(program, credit, asked->argument, lent, &cut->task) == 0);
        holds(telgovan_task_start(program, credit, asked->argument, 65537, &cut->task) == 65);
        uint32_t ran = telgovan_program_run(program, credit, 0, whole->memory, 0, &outcome);
        holds(ran == 48 || ran == (asked->need > 0 ? 43 : 0));
        memset(whole->memory, 0, lent);
        memset(cut->memory, 0, lent);
        run(asked, whole, lent, UINT32_MAX, cost);
        telgovan_program_unload(program);
        run(asked, cut, lent, slice, cost);
        holds(whole->asks == cut->asks && same(&whole->end, &cut->end));
        for (size_t n = 0; n < cut->asks; n++) holds(same(&whole->events[n], &cut->events[n]));
        holds(memcmp(whole->memory, cut->memory, lent + 1) == 0);
        holds(telgovan_task_go(&cut->task, 0, cut->memory, lent, 1, &event) == 47);
        holds(memcmp(whole->memory, cut->memory, lent + 1) == 0);
    }
    telgovan_task_drop(&whole->task);
    telgovan_task_drop(&whole->task);
    telgovan_task_drop(&cut->task);
    free(whole->memory);
    free(cut->memory);
    free(whole);
    free(cut);
}

int LLVMFuzzerTestOneInput(const uint8_t *data, size_t size) {
    struct asked asked;
    if (size <= HEAD) return 0;
    read_asked(data, &asked);
    const uint8_t *code = data + HEAD;
    size_t length = size - HEAD, lent = asked.need % ROOM;
    struct telgovan_program program = {0};
    struct telgovan_task_handle none = {0};
    struct telgovan_verdict plain, verdict;
    uint32_t many[65] = {0}, six = 6;

    holds(telgovan_task_start(&program, 1, 0, 0, &none) == 41);
    holds(telgovan_program_load_with(asked.need, code, length, many, 65, &program, &verdict) == 44);
    holds(telgovan_program_load_with(asked.need, code, length, &six, 1, &program, &verdict) == 45);
    uint32_t alone = telgovan_verify(asked.need, code, length, &plain);
    uint32_t status = telgovan_program_load_with(asked.need, code, length, asked.arities, HELPERS,
                                                 &program, &verdict);
    /* What is accepted without the host's helpers is accepted with them, at the same cost. */
    if (alone == 0) holds(status == 0 && verdict.cost == plain.cost);
    if (status == 0) compare(&asked, &program, lent, verdict.cost);
    telgovan_program_unload(&program);
    return 0;
}
