/* A host that plays a whole job. The root is the program of a source text, which splits its buffer
 * among tasks of its own kind; each task adds up its part.
 *
 *   cc -std=c11 -O2 $(pkg-config --cflags telgovan) -o job job.c $(pkg-config --libs telgovan)
 *   ./job ../sum.bpf */
#define _POSIX_C_SOURCE 199309L
#include <stdio.h>

#include "packets.h"
#include "telgovan.h"

enum { BYTES = 64, JOB_CREDIT = 2000, ROOM = 6 };

int main(int count, char **words) {
    static uint8_t code[8 * 4096];
    uint8_t buffer[BYTES];
    struct telgovan_task tasks[ROOM];
    struct telgovan_report report;
    if (count < 2) {
        fprintf(stderr, "usage: job FILE\n");
        return 2;
    }
    size_t length = read_program(words[1], code, sizeof code);
    if (length == 0) return 1;
    for (int n = 0; n < BYTES; n++) buffer[n] = (uint8_t)(n + 1);
    struct telgovan_piece piece = {.start = 0, .length = length, .need = 8};
    if (telgovan_job(code, length, &piece, 1, JOB_CREDIT, buffer, sizeof buffer, tasks, ROOM,
                     &report) != 0) {
        printf("refused %u", report.status);
        if (report.has_program) printf(", program %u", report.program);
        if (report.has_slot) printf(", slot %u", report.slot);
        printf("\n");
        return 1;
    }
    printf("%llu tasks spent %u and returned %u\n", (unsigned long long)report.tasks, report.spent,
           report.returned);
    for (size_t n = 0; n < ROOM && n < report.tasks; n++)
        printf("task %u of program %u: given %u, spent %u, returned %u\n", tasks[n].number,
               tasks[n].program, tasks[n].given, tasks[n].spent, tasks[n].returned);
    for (int n = 0; n < BYTES; n += 8) printf("%u ", buffer[n] + 256u * buffer[n + 1]);
    printf("\n");
    return 0;
}
