/* DPDK's interpreter, rte_bpf_exec: a program is validated at its load, and nothing is tested or
 * counted as it runs. A program gets one pointer, and no length and no argument. With JIT it is
 * what DPDK compiles the program to. */
#include <rte_bpf.h>

#include "machine.h"

static struct rte_bpf *validated(const char *name, const uint8_t *code, size_t length,
                                 size_t lent) {
    struct rte_bpf_prm wanted;
    (void)name;
    memset(&wanted, 0, sizeof wanted);
    wanted.ins = (const void *)code;
    wanted.nb_ins = (uint32_t)(length / 8);
    wanted.prog_arg.type = RTE_BPF_ARG_PTR;
    wanted.prog_arg.size = lent > 0 ? lent : 8;
    return rte_bpf_load(&wanted);
}

#ifdef JIT
static void *load(const char *name, const uint8_t *code, size_t length, size_t lent) {
    static struct rte_bpf_jit compiled;
    struct rte_bpf *program = validated(name, code, length, lent);
    if (program == NULL || rte_bpf_get_jit(program, &compiled) != 0) return NULL;
    return compiled.func == NULL ? NULL : &compiled;
}

static inline uint64_t run(void *program, uint8_t *memory, size_t length, uint64_t argument,
                           uint64_t *steps) {
    const struct rte_bpf_jit *compiled = program;
    (void)length, (void)argument, (void)steps;
    return compiled->func(memory);
}
#else
static void *load(const char *name, const uint8_t *code, size_t length, size_t lent) {
    return validated(name, code, length, lent);
}

static inline void unload(void *program) { rte_bpf_destroy(program); }

static inline uint64_t run(void *program, uint8_t *memory, size_t length, uint64_t argument,
                           uint64_t *steps) {
    (void)length, (void)argument, (void)steps;
    return rte_bpf_exec(program, memory);
}
#endif
