/* A host over libpcap. It reads a capture, and writes the packets for which a program answers 1.
 *
 *   cc -std=c11 -O2 $(pkg-config --cflags telgovan libpcap) -o pcap_filter pcap_filter.c \
 *       $(pkg-config --libs telgovan libpcap)
 *   ./pcap_filter PROGRAM NEED ARGUMENT IN OUT              writes what passes
 *   ./pcap_filter PROGRAM NEED ARGUMENT IN SECONDS FILTER   how many packets a second, beside
 *                                                           libpcap's own interpreter
 *
 * A program is source text in a file whose name ends in .bpf, else bytes. A packet that is shorter
 * than the need doesn't pass. */
#define _DEFAULT_SOURCE
#include <pcap.h>
#include <stdio.h>
#include <stdlib.h>
#include <string.h>
#include <time.h>

#include "telgovan.h"

/* What a program sees of a packet, at most, and the most that a source text has. */
enum { LONGEST = 65536, TEXT = 65536, SLOTS = 4096 };

static struct telgovan_program program;
static uint32_t cost;
static uint64_t argument;

/* A packet of a capture that is held in memory. */
struct packet {
    uint8_t *bytes;
    uint32_t captured, length;
};

static void fail(const char *name, const char *why) {
    fprintf(stderr, "%s: %s\n", name, why);
    exit(1);
}

static int is_text(const char *name) {
    size_t length = strlen(name);
    return length > 4 && strcmp(name + length - 4, ".bpf") == 0;
}

static size_t read_code(const char *name, uint8_t *code) {
    static uint8_t text[TEXT];
    struct telgovan_written written;
    FILE *file = fopen(name, "rb");
    if (file == NULL) fail(name, "can't be read");
    size_t length = fread(text, 1, sizeof text, file);
    fclose(file);
    if (!is_text(name)) {
        if (length > 8 * SLOTS) fail(name, "is too long");
        memcpy(code, text, length);
        return length;
    }
    if (telgovan_assemble(text, length, code, 8 * SLOTS, &written) != 0) {
        fprintf(stderr, "%s: refused %u at line %llu\n", name, written.status,
                (unsigned long long)written.place);
        exit(1);
    }
    return written.length;
}

static void load_program(const char *name, uint32_t need) {
    static uint8_t code[8 * SLOTS];
    struct telgovan_verdict verdict;
    size_t length = read_code(name, code);
    if (telgovan_program_load(need, code, length, &program, &verdict) != 0) {
        fprintf(stderr, "%s: refused %u", name, verdict.status);
        if (verdict.has_slot) fprintf(stderr, " at slot %u", verdict.slot);
        fprintf(stderr, "\n");
        exit(1);
    }
    cost = verdict.cost;
}

/* Whether the program answers 1. It may write to the bytes. */
static int passes(uint8_t *bytes, size_t length) {
    struct telgovan_outcome outcome;
    if (length > LONGEST) length = LONGEST;
    return telgovan_program_run(&program, cost, argument, bytes, length, &outcome) == 0 &&
           outcome.r0 == 1;
}

/* The next packet of a capture; 0 at its end. */
static int next_packet(pcap_t *capture, const char *name, struct pcap_pkthdr **header,
                       const u_char **bytes) {
    int status = pcap_next_ex(capture, header, bytes);
    if (status == PCAP_ERROR_BREAK) return 0;
    if (status != 1) fail(name, pcap_geterr(capture));
    return 1;
}

static void filter_capture(pcap_t *capture, const char *in, const char *out) {
    static uint8_t room[LONGEST];
    struct pcap_pkthdr *header;
    const u_char *bytes;
    long passed = 0, all = 0;
    pcap_dumper_t *kept = pcap_dump_open(capture, out);
    if (kept == NULL) fail(out, pcap_geterr(capture));
    while (next_packet(capture, in, &header, &bytes)) {
        /* a copy, since libpcap's bytes aren't to be written */
        size_t length = header->caplen < LONGEST ? header->caplen : LONGEST;
        memcpy(room, bytes, length);
        if (passes(room, length)) {
            pcap_dump((u_char *)kept, header, bytes);
            passed++;
        }
        all++;
    }
    if (pcap_dump_flush(kept) != 0) fail(out, "can't be written");
    pcap_dump_close(kept);
    printf("%ld of %ld packets pass\n", passed, all);
}

/* Each packet of a capture, in memory. */
static struct packet *hold_capture(pcap_t *capture, const char *name, size_t *count) {
    struct packet *packets = NULL;
    struct pcap_pkthdr *header;
    const u_char *bytes;
    size_t held = 0, room = 0;
    while (next_packet(capture, name, &header, &bytes)) {
        if (held == room) {
            room = room == 0 ? 1024 : 2 * room;
            packets = realloc(packets, room * sizeof *packets);
            if (packets == NULL) fail(name, "is too large");
        }
        struct packet *packet = &packets[held++];
        *packet = (struct packet){.captured = header->caplen, .length = header->len};
        packet->bytes = malloc(header->caplen + 1);
        if (packet->bytes == NULL) fail(name, "is too large");
        memcpy(packet->bytes, bytes, header->caplen);
    }
    *count = held;
    return packets;
}

/* How many of the packets pass, by each way. */
typedef long way(const struct packet *packets, size_t count, const struct bpf_program *filter);

static long by_program(const struct packet *packets, size_t count,
                       const struct bpf_program *filter) {
    long passed = 0;
    (void)filter;
    for (size_t n = 0; n < count; n++) passed += passes(packets[n].bytes, packets[n].captured);
    return passed;
}

static long by_libpcap(const struct packet *packets, size_t count,
                       const struct bpf_program *filter) {
    long passed = 0;
    for (size_t n = 0; n < count; n++)
        passed += bpf_filter(filter->bf_insns, packets[n].bytes, packets[n].length,
                             packets[n].captured) != 0;
    return passed;
}

static double now(void) {
    struct timespec time;
    clock_gettime(CLOCK_MONOTONIC, &time);
    return (double)time.tv_sec + (double)time.tv_nsec / 1e9;
}

/* The quickest of many rounds. */
static long measure(const char *name, way *one, const struct packet *packets, size_t count,
                    const struct bpf_program *filter, double seconds) {
    double began = now(), quickest = 0;
    long passed;
    do {
        double start = now();
        passed = one(packets, count, filter);
        double rate = (double)count / (now() - start);
        if (rate > quickest) quickest = rate;
    } while (now() - began < seconds);
    printf("%-22s %6.1f million packets a second, %6.1f ns each; %ld of %zu pass\n", name,
           quickest / 1e6, 1e9 / quickest, passed, count);
    return passed;
}

static int compare_speeds(pcap_t *capture, const char *in, double seconds, const char *text) {
    struct bpf_program filter;
    size_t count;
    if (pcap_compile(capture, &filter, text, 1, PCAP_NETMASK_UNKNOWN) != 0)
        fail(text, pcap_geterr(capture));
    struct packet *packets = hold_capture(capture, in, &count);
    if (count == 0) fail(in, "has no packet");
    long ours = measure("telgovan_program_run", by_program, packets, count, &filter, seconds);
    long theirs = measure("bpf_filter of libpcap", by_libpcap, packets, count, &filter, seconds);
    for (size_t n = 0; n < count; n++) free(packets[n].bytes);
    free(packets);
    pcap_freecode(&filter);
    return ours == theirs ? 0 : 1;
}

int main(int count, char **words) {
    char why[PCAP_ERRBUF_SIZE];
    int status = 0;
    if (count != 6 && count != 7) {
        fprintf(stderr, "usage: pcap_filter PROGRAM NEED ARGUMENT IN OUT\n"
                        "       pcap_filter PROGRAM NEED ARGUMENT IN SECONDS FILTER\n");
        return 2;
    }
    load_program(words[1], (uint32_t)strtoul(words[2], NULL, 10));
    argument = strtoull(words[3], NULL, 10);
    pcap_t *capture = pcap_open_offline(words[4], why);
    if (capture == NULL) fail(words[4], why);
    if (count == 6)
        filter_capture(capture, words[4], words[5]);
    else
        status = compare_speeds(capture, words[4], atof(words[5]), words[6]);
    pcap_close(capture);
    telgovan_program_unload(&program);
    return status;
}
