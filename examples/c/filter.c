/* A host that filters packets. It loads the program of a source text once, and runs it on each
 * packet in place.
 *
 *   cc -std=c11 -O2 $(pkg-config --cflags telgovan) -o filter filter.c \
 *       $(pkg-config --libs telgovan)
 *   ./filter ../filter.bpf           what passes, beside a plain interpreter
 *   ./filter ../filter.bpf SECONDS   how many packets a second, by each way
 */
#define _POSIX_C_SOURCE 199309L
#include <stdio.h>
#include <stdlib.h>

#include "packets.h"
#include "plain.h"
#include "telgovan.h"

static uint8_t memory[PACKETS * SIZE];
static struct telgovan_run runs[PACKETS];

static struct telgovan_program held;
static struct plain_program plain;
static uint8_t code[8 * 4096];
static size_t code_length;

/* Each way tells how many packets pass, or -1. */
typedef int way(void);

static int passed_of_runs(void) {
    int passed = 0;
    for (int n = 0; n < PACKETS; n++) {
        if (runs[n].outcome.status != 0) return -1;
        passed += (int)runs[n].outcome.r0;
    }
    return passed;
}

/* The program that is held, a call for each packet. */
static int by_run(void) {
    int passed = 0;
    struct telgovan_outcome outcome;
    for (int n = 0; n < PACKETS; n++) {
        uint8_t *packet = memory + n * SIZE;
        if (telgovan_program_run(&held, CREDIT, 0, packet, SIZE, &outcome) != 0) return -1;
        passed += (int)outcome.r0;
    }
    return passed;
}

/* The program that is held, a call for all packets. */
static int by_held_burst(void) {
    if (telgovan_program_burst(&held, CREDIT, memory, sizeof memory, runs, PACKETS) != 0) return -1;
    return passed_of_runs();
}

/* The program verified, and run by one call for all packets. */
static int by_burst(void) {
    struct telgovan_verdict verdict;
    if (telgovan_burst(NEED, code, code_length, CREDIT, memory, sizeof memory, runs, PACKETS,
                       &verdict) != 0)
        return -1;
    return passed_of_runs();
}

static int by_plain(void) {
    int passed = 0;
    for (int n = 0; n < PACKETS; n++) {
        uint64_t r0 = 0;
        if (!plain_run(&plain, memory + n * SIZE, SIZE, 0, CREDIT, &r0)) return -1;
        passed += (int)r0;
    }
    return passed;
}

/* The quickest of many rounds of a hundredth of a second. */
static void measure(const char *name, way *one, double seconds) {
    double began = now(), quickest = 0;
    while (now() - began < seconds) {
        long rounds = 0;
        double start = now(), end;
        do {
            if (one() < 0) exit(1);
            rounds++;
        } while ((end = now()) - start < 0.01);
        double rate = (double)rounds * PACKETS / (end - start);
        if (rate > quickest) quickest = rate;
    }
    printf("%-24s %6.1f million packets a second, %5.1f ns each\n", name, quickest / 1e6,
           1e9 / quickest);
}

static void measure_all(double seconds) {
    measure("telgovan_program_run", by_run, seconds);
    measure("telgovan_program_burst", by_held_burst, seconds);
    measure("telgovan_burst", by_burst, seconds);
    measure("plain interpreter", by_plain, seconds);
}

int main(int count, char **words) {
    struct telgovan_verdict verdict;
    struct telgovan_outcome outcome;
    uint32_t cost = 0;
    if (count < 2) {
        fprintf(stderr, "usage: filter FILE [SECONDS]\n");
        return 2;
    }
    code_length = read_program(words[1], code, sizeof code);
    if (code_length == 0 || !plain_load(&plain, code, code_length)) return 1;
    if (telgovan_program_load(NEED, code, code_length, &held, &verdict) != 0) {
        printf("refused %u at slot %u\n", verdict.status, verdict.slot);
        return 1;
    }
    fill_packets(memory);
    for (int n = 0; n < PACKETS; n++)
        runs[n] = (struct telgovan_run){.start = (uint64_t)n * SIZE, .length = SIZE};
    if (count > 2) {
        measure_all(atof(words[2]));
        return 0;
    }
    telgovan_program_cost(&held, &cost);
    printf("%zu bytes, cost %u\n", code_length, cost);
    int passed = by_run(), expected = by_plain();
    printf("%d of %d packets pass; the plain interpreter says %d\n", passed, PACKETS, expected);
    printf("in bursts: %d, and %d\n", by_held_burst(), by_burst());
    printf("with a credit of %d: %u\n", CREDIT - 1,
           telgovan_program_run(&held, CREDIT - 1, 0, memory, SIZE, &outcome));
    uint32_t refused = telgovan_program_load(NEED, code, 8, &held, &verdict);
    printf("a refused load: %u at slot %u, after which %d pass\n", refused, verdict.slot, by_run());
    telgovan_program_unload(&held);
    printf("unloaded: %u\n", telgovan_program_run(&held, CREDIT, 0, memory, SIZE, &outcome));
    free(plain.insns);
    return passed == expected ? 0 : 1;
}
