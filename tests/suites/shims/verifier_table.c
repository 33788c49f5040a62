/* The tables of the kernel's tools/testing/selftests/bpf/verifier, for Python: each program, and what
 * the kernel's verifier is said to answer. */
#include <asm/ptrace.h>
#include <assert.h>
#include <linux/bpf_perf_event.h>
#include <linux/btf.h>
#include <linux/if_ether.h>
#include <unistd.h>

#include "kernel.h"

#include <linux/bpf.h>
#include <linux/filter.h>

#include "bpf_rand.h"
#include "test_btf.h"
#include "verifier_head.slice.c"
#include "verifier_tables.slice.c"

int suite_groups(void) { return ARRAY_SIZE(groups); }
const char *suite_group(int group) { return groups[group].name; }
int suite_count(int group) { return groups[group].count; }

static struct bpf_test *test_at(int group, int at) { return &groups[group].tests[at]; }
const char *suite_name(int group, int at) { return test_at(group, at)->descr; }
const char *suite_message(int group, int at) { return test_at(group, at)->errstr ?: ""; }
int suite_accepts(int group, int at) { return test_at(group, at)->result != REJECT; }

/* A kind of program's context: its bytes, and where it has pointers, up to the first -1. */
struct context {
	int size, pointers[6];
};
#define AT(type, field) offsetof(struct type, field)
static const struct context packet = {
	sizeof(struct __sk_buff),
	{AT(__sk_buff, data), AT(__sk_buff, data_end), AT(__sk_buff, data_meta), AT(__sk_buff, sk),
	 AT(__sk_buff, flow_keys), -1},
};
static const struct context frame = {
	sizeof(struct xdp_md), {AT(xdp_md, data), AT(xdp_md, data_end), AT(xdp_md, data_meta), -1}};
static const struct context message = {
	sizeof(struct sk_msg_md), {AT(sk_msg_md, data), AT(sk_msg_md, data_end), AT(sk_msg_md, sk), -1}};
static const struct context search = {sizeof(struct bpf_sk_lookup), {AT(bpf_sk_lookup, sk), -1}};
static const struct context address = {sizeof(struct bpf_sock_addr), {AT(bpf_sock_addr, sk), -1}};
static const struct context socket = {sizeof(struct bpf_sock), {-1}};
static const struct context registers = {sizeof(struct pt_regs), {-1}};
static const struct context event = {sizeof(struct bpf_perf_event_data), {-1}};
static const struct context setting = {sizeof(struct bpf_sysctl), {-1}};
static const struct context device = {sizeof(struct bpf_cgroup_dev_ctx), {-1}};
/* of the records of tracepoints the kernel says how long they may be, in no header for users */
static const struct context record = {8192, {-1}};

static const struct context *context_of(int kind)
{
	switch (kind) {
	case BPF_PROG_TYPE_UNSPEC:
	case BPF_PROG_TYPE_SOCKET_FILTER:
	case BPF_PROG_TYPE_SCHED_CLS:
	case BPF_PROG_TYPE_SCHED_ACT:
	case BPF_PROG_TYPE_CGROUP_SKB:
	case BPF_PROG_TYPE_LWT_IN:
	case BPF_PROG_TYPE_LWT_OUT:
	case BPF_PROG_TYPE_LWT_XMIT:
	case BPF_PROG_TYPE_SK_SKB: return &packet;
	case BPF_PROG_TYPE_XDP: return &frame;
	case BPF_PROG_TYPE_SK_MSG: return &message;
	case BPF_PROG_TYPE_SK_LOOKUP: return &search;
	case BPF_PROG_TYPE_CGROUP_SOCK_ADDR: return &address;
	case BPF_PROG_TYPE_CGROUP_SOCK: return &socket;
	case BPF_PROG_TYPE_KPROBE: return &registers;
	case BPF_PROG_TYPE_PERF_EVENT: return &event;
	case BPF_PROG_TYPE_CGROUP_SYSCTL: return &setting;
	case BPF_PROG_TYPE_CGROUP_DEVICE: return &device;
	case BPF_PROG_TYPE_TRACEPOINT: return &record;
	}
	return NULL;
}

/* How many bytes a program's context has, or 0 where it isn't told, and where it has pointers. */
int suite_context(int group, int at, const int **pointers)
{
	const struct context *context = context_of(test_at(group, at)->prog_type);

	*pointers = context ? context->pointers : NULL;
	return context ? context->size : 0;
}

/* Whether the kernel's test puts maps, programs or types of its own into the program. */
int suite_is_fixed(int group, int at)
{
	const struct bpf_test *test = test_at(group, at);
	const char *start = (const char *)test->fixup_map_hash_8b, *end = (const char *)&test->errstr;

	for (const char *byte = start; byte < end; byte++)
		if (*byte)
			return 1;
	return test->kfunc || test->btf_types[0] || test->func_info_cnt;
}

int suite_program(int group, int at, const void **code)
{
	struct bpf_test *test = test_at(group, at);

	if (!test->fill_helper) {
		*code = test->insns;
		return probe_filter_length(test->insns);
	}
	test->fill_insns = calloc(MAX_TEST_INSNS, sizeof(*test->fill_insns));
	test->fill_helper(test);
	*code = test->fill_insns;
	return test->prog_len;
}

/* Whether the kernel's test runs such a program, and its answer then. */
int suite_answer(int group, int at, u32 *answer)
{
	const struct bpf_test *test = test_at(group, at);
	const struct context *context = context_of(test->prog_type);

	*answer = test->retval;
	return test->result == ACCEPT && test->runs >= 0 && (context == &packet || context == &frame);
}
