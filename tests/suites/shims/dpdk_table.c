/* The table of DPDK's app/test/test_bpf.c, for Python: each program, its memory and the check of what
 * it left. Packets take the place of DPDK's, whose programs are never run here: they load from them. */
#include <limits.h>
#include <netinet/in.h>
#include <netinet/ip.h>
#include <stddef.h>
#include <stdint.h>
#include <stdio.h>
#include <stdlib.h>
#include <string.h>
#include <inttypes.h>

#define RTE_DIM(array) (sizeof(array) / sizeof((array)[0]))
#define RTE_STR(word) #word
#define RTE_SET_USED(name) ((void)(name))
#define __rte_experimental
#define printf(...) ((void)0) /* a difference is told by our own words */
#define rte_cpu_to_be_16(number) __builtin_bswap16(number)
#define rte_cpu_to_be_32(number) __builtin_bswap32(number)
#define rte_cpu_to_be_64(number) __builtin_bswap64(number)
#define rte_be_to_cpu_16(number) __builtin_bswap16(number)
#define rte_be_to_cpu_32(number) __builtin_bswap32(number)
#define rte_cpu_to_le_16(number) ((uint16_t)(number))
#define rte_cpu_to_le_32(number) ((uint32_t)(number))
#define rte_cpu_to_le_64(number) ((uint64_t)(number))
#define rte_memdump(file, title, memory, length) ((void)0)

/* numbers that are the same at each run */
static uint64_t rte_rand(void)
{
	static uint64_t state = 1;

	return state = state * 6364136223846793005ULL + 1442695040888963407ULL;
}

struct rte_ether_addr {
	uint8_t bytes[6];
};
struct rte_ether_hdr {
	struct rte_ether_addr dst_addr, src_addr;
	uint16_t ether_type;
} __attribute__((aligned(2)));
struct rte_vlan_hdr {
	uint16_t vlan_tci, eth_proto;
} __attribute__((packed));
struct rte_ipv4_hdr {
	uint8_t version_ihl, type_of_service;
	uint16_t total_length, packet_id, fragment_offset;
	uint8_t time_to_live, next_proto_id;
	uint16_t hdr_checksum;
	uint32_t src_addr, dst_addr;
} __attribute__((packed));
#define RTE_ETHER_TYPE_IPV4 0x0800
#define RTE_ETHER_TYPE_VLAN 0x8100
#define RTE_IPV4_HDR_IHL_MASK 0x0f
#define RTE_IPV4_IHL_MULTIPLIER 4
#define RTE_IPV4_VHL_DEF 0x45
#define RTE_IPV4_LOOPBACK 0x7f000001
#define RTE_IPV4_BROADCAST 0xffffffff
#define rte_ether_addr_copy(from, to) (*(to) = *(from))

struct rte_mbuf {
	void *buf_addr, *pool;
	uint32_t buf_len;
};
#define RTE_MBUF_DEFAULT_BUF_SIZE 2176
#define rte_mbuf_iova_set(packet, place) ((void)0)
#define rte_mbuf_refcnt_set(packet, count) ((void)0)
#define rte_pktmbuf_reset(packet) ((void)0)
#define rte_pktmbuf_append(packet, length) ((char *)NULL)
#define rte_pktmbuf_chain(head, tail) ((void)0)
#define rte_pktmbuf_trim(packet, length) ((void)0)
#define rte_pktmbuf_mtod(packet, type) ((type)(packet)->buf_addr)
#define rte_pktmbuf_read(packet, offset, length, room) ((void *)NULL)

#include "bpf_definitions.slice.h"
#include "bpf_library.slice.h"
#include "dpdk_table.slice.c"

int suite_count(void) { return RTE_DIM(tests); }
const char *suite_name(int at) { return tests[at].name; }
int suite_loads_packets(int at) { return tests[at].prm.prog_arg.type == RTE_BPF_ARG_PTR_MBUF; }
int suite_calls_back(int at) { return tests[at].prm.nb_xsym != 0; }
int suite_memory(int at) { return tests[at].arg_sz; }

int suite_program(int at, const void **code)
{
	*code = tests[at].prm.ins;
	return tests[at].prm.nb_ins;
}

void suite_prepare(int at, void *memory) { tests[at].prepare(memory); }

/* 0 where a program's answer and what it left are as the table says. Each memory is as prepared where
 * the table's check begins with it. */
int suite_check(int at, uint64_t r0, const void *memory) { return tests[at].check_result(r0, memory); }
