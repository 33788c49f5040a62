/* libpcap's interpreter of classic BPF. A program is an expression, which libpcap compiles. */
#include <pcap.h>

#include "machine.h"

static void *load(const char *name, const uint8_t *code, size_t length, size_t lent) {
    struct bpf_program *filter = calloc(1, sizeof *filter);
    char *text = strndup((const char *)code, length);
    pcap_t *none = pcap_open_dead(DLT_EN10MB, 65536);
    (void)name, (void)lent;
    return pcap_compile(none, filter, text, 1, PCAP_NETMASK_UNKNOWN) == 0 ? filter : NULL;
}

static uint64_t run(void *program, uint8_t *memory, size_t length, uint64_t argument,
                    uint64_t *steps) {
    const struct bpf_program *filter = program;
    (void)argument, (void)steps;
    return bpf_filter(filter->bf_insns, memory, (u_int)length, (u_int)length);
}
