/* Bytes to verify and run. The first bytes say what is asked: how many bytes the program needs, how
 * much credit it gets, its argument, and how much memory it is lent; the others are the program. A
 * program that is accepted must run where the memory and the credit suffice, must not be charged
 * more than its cost, must come to the same twice, and must leave what surrounds the memory.
 * AddressSanitizer looks on. */
#include <stdint.h>
#include <stdlib.h>
#include <string.h>

#include "telgovan.h"

enum { HEAD = 16, ROOM = 4096 };

static void holds(int condition) {
    if (!condition) abort();
}

int LLVMFuzzerTestOneInput(const uint8_t *data, size_t size) {
    uint32_t need, credit;
    uint64_t argument;
    if (size <= HEAD) return 0;
    memcpy(&need, data, 4);
    memcpy(&credit, data + 4, 4);
    memcpy(&argument, data + 8, 8);
    const uint8_t *code = data + HEAD;
    size_t length = size - HEAD, lent = need % ROOM;
    struct telgovan_verdict verdict, again;
    uint32_t status = telgovan_verify(need, code, length, &verdict);
    holds(status == verdict.status);
    holds(telgovan_verify(need, code, length, &again) == status && again.cost == verdict.cost &&
          again.slot == verdict.slot);
    holds(!verdict.has_slot || verdict.slot < length / 8);
    if (status == 99) return 0;

    /* Memory of its own, so that a byte too far is seen. */
    uint8_t *memory = malloc(lent + 1), *copy = malloc(lent + 1);
    holds(memory != NULL && copy != NULL);
    for (size_t n = 0; n < lent; n++) memory[n] = copy[n] = (uint8_t)(n * 7);
    struct telgovan_outcome first, second;
    uint32_t ran = telgovan_run(need, code, length, credit, argument, memory, lent, &first);
    telgovan_run(need, code, length, credit, argument, copy, lent, &second);
    holds(ran == first.status && ran == second.status && first.r0 == second.r0 &&
          first.used == second.used);
    holds(memcmp(memory, copy, lent) == 0);
    if (status != 0) {
        holds(ran == status);
    } else if (credit > 2147483647u) {
        holds(ran == 65);
    } else if (credit < verdict.cost) {
        holds(ran == 42);
    } else if (lent < need) {
        holds(ran == 43);
    } else {
        holds(ran == 0 || ran == 99);
    }
    if (ran == 0) holds(first.used <= verdict.cost);
    if (ran != 0) {
        for (size_t n = 0; n < lent; n++) holds(memory[n] == (uint8_t)(n * 7));
    }
    free(memory);
    free(copy);
    return 0;
}
