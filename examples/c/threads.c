/* A host of several threads. One loads the program of a source text, and shares it with the others:
 * each has a handle of its own, and packets of its own.
 *
 *   cc -std=c11 -O2 -pthread $(pkg-config --cflags telgovan) -o threads threads.c \
 *       $(pkg-config --libs telgovan)
 *   ./threads ../filter.bpf ROUNDS           what passes in each of four threads
 *   ./threads ../filter.bpf ROUNDS THREADS   how many packets a second, in all */
#define _POSIX_C_SOURCE 199309L
#include <pthread.h>
#include <stdio.h>
#include <stdlib.h>

#include "packets.h"
#include "telgovan.h"

enum { MOST = 64, LINE = 128 };

/* Each begins on lines of the processor's cache that no other writes: a call writes its handle. */
struct worker {
    _Alignas(LINE) pthread_t thread;
    struct telgovan_program program;
    uint8_t memory[PACKETS * SIZE];
    long rounds, passed;
    double busy; /* the processor time that it took */
};

static void *work(void *given) {
    struct worker *worker = given;
    struct telgovan_outcome outcome;
    double start = seconds_of(CLOCK_THREAD_CPUTIME_ID);
    for (long round = 0; round < worker->rounds; round++) {
        for (int n = 0; n < PACKETS; n++) {
            uint8_t *packet = worker->memory + n * SIZE;
            if (telgovan_program_run(&worker->program, CREDIT, 0, packet, SIZE, &outcome) != 0)
                exit(1);
            worker->passed += (long)outcome.r0;
        }
    }
    worker->busy = seconds_of(CLOCK_THREAD_CPUTIME_ID) - start;
    telgovan_program_unload(&worker->program);
    return NULL;
}

int main(int count, char **words) {
    static uint8_t code[8 * 4096];
    struct telgovan_program program = {0};
    struct telgovan_verdict verdict;
    if (count < 3) {
        fprintf(stderr, "usage: threads FILE ROUNDS [THREADS]\n");
        return 2;
    }
    int threads = count > 3 ? atoi(words[3]) : 4;
    size_t length = read_program(words[1], code, sizeof code);
    if (threads < 1 || threads > MOST || length == 0) return 1;
    if (telgovan_program_load(NEED, code, length, &program, &verdict) != 0) return 1;

    size_t room = (size_t)threads * sizeof(struct worker);
    struct worker *workers = aligned_alloc(LINE, room);
    if (workers == NULL) return 1;
    memset(workers, 0, room);
    double start = now();
    for (int n = 0; n < threads; n++) {
        struct worker *worker = &workers[n];
        fill_packets(worker->memory);
        worker->rounds = atol(words[2]);
        if (telgovan_program_share(&program, &worker->program) != 0) return 1;
        if (pthread_create(&worker->thread, NULL, work, worker) != 0) return 1;
    }
    /* The threads' handles hold the program as long as they need it. */
    telgovan_program_unload(&program);
    double packets = 0, busy = 0;
    for (int n = 0; n < threads; n++) {
        pthread_join(workers[n].thread, NULL);
        packets += (double)workers[n].rounds * PACKETS;
        busy += workers[n].busy;
        if (count == 3) printf("thread %d: %ld packets pass\n", n, workers[n].passed);
    }
    if (count > 3)
        printf("%d threads: %.1f million packets a second, %.1f ns of a processor each\n", threads,
               packets / (now() - start) / 1e6, busy / packets * 1e9);
    free(workers);
    return 0;
}
