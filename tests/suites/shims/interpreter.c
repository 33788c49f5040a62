/* The kernel's own interpreter of BPF, for Python.
 *
 * It runs what the library has accepted, so functions, atomics and other programs never come. */
#include "kernel.h"

#include <linux/bpf.h>
#include <linux/filter.h>

#define __annotate_jump_table
#define __force
#define __swab16(number) __builtin_bswap16(number)
#define __swab32(number) __builtin_bswap32(number)
#define __swab64(number) __builtin_bswap64(number)
#define unlikely(wrong) (wrong)
#define READ_ONCE(place) (place)
#define barrier_nospec() ((void)0)
#define pr_warn(...) ((void)0)
#define container_of(member, type, name) ((type *)((char *)(member) - offsetof(type, name)))
/* changes the number, and gives the remainder */
#define do_div(number, by) ({ u32 by_ = (by), rest_ = (number) % by_; (number) /= by_; rest_; })

static u64 never(void) { abort(); }
typedef u32 atomic_t;
typedef u64 atomic64_t;
#define atomic_add(number, place) never()
#define atomic_and(number, place) never()
#define atomic_or(number, place) never()
#define atomic_xor(number, place) never()
#define atomic64_add(number, place) never()
#define atomic64_and(number, place) never()
#define atomic64_or(number, place) never()
#define atomic64_xor(number, place) never()
#define atomic_fetch_add(number, place) never()
#define atomic_fetch_and(number, place) never()
#define atomic_fetch_or(number, place) never()
#define atomic_fetch_xor(number, place) never()
#define atomic64_fetch_add(number, place) never()
#define atomic64_fetch_and(number, place) never()
#define atomic64_fetch_or(number, place) never()
#define atomic64_fetch_xor(number, place) never()
#define atomic_xchg(place, number) never()
#define atomic64_xchg(place, number) never()
#define atomic_cmpxchg(place, before, number) never()
#define atomic64_cmpxchg(place, before, number) never()
#define bpf_probe_read_kernel_common(to, length, from) never()

#define MAX_TAIL_CALL_CNT 0
struct bpf_map {
	u32 max_entries;
};
struct bpf_prog {
	const struct bpf_insn *insnsi;
};
struct bpf_array {
	struct bpf_map map;
	struct bpf_prog *ptrs[1];
};

#include "filter_macros.slice.h"
#include "registers.slice.h"

static u64 call_never(u64 a, u64 b, u64 c, u64 d, u64 e) { abort(); }
static u64 call_with_never(u64 a, u64 b, u64 c, u64 d, u64 e, const struct bpf_insn *insn) { abort(); }
#define __bpf_call_base call_never
#define __bpf_call_base_args call_with_never

#include "opcodes.slice.c"
#include "interpreter.slice.c"

/* What a program answers that begins as a task does: R1 is its memory, R2 the length, R3 the argument,
 * and its stack is zero. */
u64 suite_interpret(const struct bpf_insn *code, void *memory, u64 length, u64 argument)
{
	u64 stack[MAX_BPF_STACK / sizeof(u64)] = {0};
	u64 regs[MAX_BPF_EXT_REG] = {0};

	regs[BPF_REG_1] = (uintptr_t)memory;
	regs[BPF_REG_2] = length;
	regs[BPF_REG_3] = argument;
	regs[BPF_REG_10] = (uintptr_t)(stack + ARRAY_SIZE(stack));
	return ___bpf_prog_run(regs, code);
}
