/* Packets for the hosts: UDP to port 53, UDP to other ports, TCP, IPv6; every seventh is a
 * fragment. */
#ifndef PACKETS_H
#define PACKETS_H

#include <stdint.h>
#include <stdio.h>
#include <string.h>
#include <time.h>

#include "telgovan.h"

enum { PACKETS = 1024, SIZE = 64, NEED = 40, CREDIT = 16 };

static inline void put_packet(uint8_t *packet, const uint8_t type[2], uint8_t protocol,
                              uint16_t port) {
    memset(packet, 0, SIZE);
    memcpy(packet + 12, type, 2);
    packet[14] = 0x45;
    packet[23] = protocol;
    packet[36] = (uint8_t)(port >> 8);
    packet[37] = (uint8_t)port;
}

static inline void fill_packets(uint8_t *memory) {
    static const uint8_t ipv4[2] = {0x08, 0x00}, ipv6[2] = {0x86, 0xdd};
    for (int n = 0; n < PACKETS; n++) {
        uint8_t *packet = memory + n * SIZE;
        uint16_t port = n % 4 == 1 ? (uint16_t)n : 53;
        put_packet(packet, n % 4 == 3 ? ipv6 : ipv4, n % 4 == 2 ? 6 : 17, port);
        if (n % 7 == 0) packet[20] = 0x20;
    }
}

static inline double seconds_of(clockid_t clock) {
    struct timespec time;
    clock_gettime(clock, &time);
    return (double)time.tv_sec + (double)time.tv_nsec / 1e9;
}

static inline double now(void) { return seconds_of(CLOCK_MONOTONIC); }

/* The bytes of the program whose source text is in the file, or 0, having said why. */
static inline size_t read_program(const char *name, uint8_t *code, size_t room) {
    static uint8_t text[4096];
    struct telgovan_written written;
    FILE *file = fopen(name, "rb");
    if (file == NULL) {
        fprintf(stderr, "%s can't be read\n", name);
        return 0;
    }
    size_t length = fread(text, 1, sizeof text, file);
    fclose(file);
    if (telgovan_assemble(text, length, code, room, &written) != 0) {
        fprintf(stderr, "refused %u at line %llu\n", written.status,
                (unsigned long long)written.place);
        return 0;
    }
    return written.length;
}

#endif
