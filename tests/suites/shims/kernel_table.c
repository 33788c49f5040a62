/* The table of the kernel's lib/test_bpf.c, for Python: each test's program and its runs. Programs of
 * classic BPF are what the kernel's own bpf_convert_filter makes of them.
 *
 * The slices are cut out of the kernel's sources; none of them is part of this repository. */
#include "kernel.h"

#include <linux/bpf.h>
#include <linux/filter.h>

#define NET_IP_ALIGN 0
#define CONFIG_HAVE_EFFICIENT_UNALIGNED_ACCESS 1
#define IS_BUILTIN(option) (option)
#define ETH_P_IP 0x0800

/* A packet as the kernel's programs see it: numbers, but for two pointers that the profile hasn't. */
struct net_device {
	int ifindex;
	u16 type;
};
struct sk_buff {
	u64 data;
	u64 dev;
	u32 len, data_len, hash, mark;
	u16 protocol, vlan_proto, vlan_tci, queue_mapping;
	u8 pkt_type, vlan_present, vlan_all;
};
struct bpf_prog_aux {
	u32 stack_depth;
};
struct bpf_prog {
	struct bpf_prog_aux *aux;
	struct bpf_insn *insnsi;
};

#include "filter_macros.slice.h"

/* Functions of the kernel that a converted program calls. The profile has none of them. */
#define NO_SUCH_HELPER 1000
#undef BPF_CALL_IMM
#define BPF_CALL_IMM(function) NO_SUCH_HELPER
#define bpf_user_rnd_init_once() ((void)0)
#define __bpf_call_base(a, b, c, d, e) 0

/* Where the kernel keeps some of a packet's fields is its own affair: each is a field of ours here. */
static u32 convert_skb_access(int field, int dst, int src, struct bpf_insn *insn)
{
	struct bpf_insn *first = insn;

	switch (field) {
	case SKF_AD_MARK:
		*insn++ = BPF_LDX_MEM(BPF_W, dst, src, offsetof(struct sk_buff, mark));
		break;
	case SKF_AD_PKTTYPE:
		*insn++ = BPF_LDX_MEM(BPF_B, dst, src, offsetof(struct sk_buff, pkt_type));
		break;
	case SKF_AD_QUEUE:
		*insn++ = BPF_LDX_MEM(BPF_H, dst, src, offsetof(struct sk_buff, queue_mapping));
		break;
	case SKF_AD_VLAN_TAG:
		*insn++ = BPF_LDX_MEM(BPF_H, dst, src, offsetof(struct sk_buff, vlan_tci));
		break;
	case SKF_AD_VLAN_TAG_PRESENT:
		*insn++ = BPF_LDX_MEM(BPF_B, dst, src, offsetof(struct sk_buff, vlan_present));
		break;
	}
	return insn - first;
}

#include "random_seed.slice.c"
#include "random_number.slice.c"
#include "convert_filter.slice.c"
#include "test_table.slice.c"
#include "pieces.h"

#define MOST_SLOTS (1 << 20)
static struct bpf_insn converted[MOST_SLOTS];

int suite_count(void) { return ARRAY_SIZE(tests); }
const char *suite_name(int at) { return tests[at].descr; }
int suite_flags(int at) { return tests[at].aux; }

static int length_of(const struct bpf_test *test)
{
	int length = MAX_INSNS - 1;

	while (length > 0 && !test->u.insns[length].code && !test->u.insns[length].k)
		length--;
	return length + 1;
}

/* The kernel's conversion clears A and X by an exclusive or with themselves, which reads unset
 * registers, and leaves X in the unused field of operations on a number. RFC 9669 says of neither
 * what it does, and so they are written as it has them. */
static void normalize(int length)
{
	converted[0] = BPF_MOV32_IMM(BPF_REG_A, 0);
	converted[1] = BPF_MOV32_IMM(BPF_REG_X, 0);
	for (int at = 2; at < length; at++)
		if (BPF_CLASS(converted[at].code) == BPF_ALU && BPF_SRC(converted[at].code) == BPF_K &&
		    BPF_OP(converted[at].code) != BPF_END)
			converted[at].src_reg = 0;
}

static int convert(struct sock_filter *filter, int length)
{
	struct bpf_prog_aux aux = {0};
	struct bpf_prog program = {&aux, converted};
	bool loads = false;
	int made = 0;
	int status = bpf_convert_filter(filter, length, NULL, &made, &loads);

	if (!status && made > MOST_SLOTS)
		status = -ENOMEM;
	if (!status)
		status = bpf_convert_filter(filter, length, &program, &made, &loads);
	if (status)
		return status;
	normalize(made);
	return made;
}

/* How many slots a test's program has, which are told as well, or a negative error. Asked once. */
int suite_program(int at, const void **code)
{
	struct bpf_test *test = &tests[at];
	int length = test->fill_helper ? test->fill_helper(test) : length_of(test);
	void *program = test->u.insns;

	if (test->fill_helper) {
		if (length < 0)
			return length;
		program = test->u.ptr.insns;
		length = test->u.ptr.len;
	}
	*code = (test->aux & CLASSIC) ? converted : program;
	return (test->aux & CLASSIC) ? convert(program, length) : length;
}

/* Whether a test has a run of this place, what it comes to, and the memory that it has. */
int suite_run(int at, int place, u32 *result, const void **memory, int *size)
{
	static struct sk_buff packet;
	const struct bpf_test *test = &tests[at];

	if (place >= MAX_SUBTESTS)
		return 0;
	if (place > 0 && !test->test[place].data_size && !test->test[place].result)
		return 0;
	*result = test->test[place].result;
	*memory = NULL;
	*size = 0;
	if (test->aux & FLAG_NO_DATA)
		return 1;
	if (test->aux & FLAG_LARGE_MEM) {
		*size = test->test[place].data_size;
		return 1;
	}
	packet = (struct sk_buff){
		.len = test->test[place].data_size,
		.hash = SKB_HASH,
		.mark = SKB_MARK,
		.protocol = cpu_to_be16(ETH_P_IP),
		.vlan_proto = cpu_to_be16(ETH_P_IP),
		.vlan_tci = SKB_VLAN_TCI,
		.vlan_present = SKB_VLAN_PRESENT,
		.queue_mapping = SKB_QUEUE_MAP,
		.pkt_type = SKB_TYPE,
	};
	if (test->aux & FLAG_SKB_FRAG) {
		packet.len += MAX_DATA;
		packet.data_len = MAX_DATA;
	}
	*memory = &packet;
	*size = sizeof(packet);
	return 1;
}

/* How many pieces a program has, and where each ends, or 0 where it can't be cut. */
int suite_pieces(const void *code, int length, int limit, int *ends)
{
	return cut(code, length, limit, ends);
}
