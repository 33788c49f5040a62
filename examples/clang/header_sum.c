/* Answers 1 for an Ethernet frame of IPv4 whose header of 20 bytes has the right checksum (RFC 1071), and else 0.
 * The loop has a constant count and is unrolled, since a program that is left with a loop is refused. */
unsigned long filter(const unsigned char *frame, unsigned long length) {
    if (length < 34 || frame[12] != 0x08 || frame[13] != 0x00 || frame[14] != 0x45) return 0;
    unsigned long sum = 0;
#pragma GCC unroll 64
    for (int at = 14; at < 34; at += 2) sum += (unsigned long)frame[at] << 8 | frame[at + 1];
    sum = (sum & 0xffff) + (sum >> 16);
    sum = (sum & 0xffff) + (sum >> 16);
    return sum == 0xffff;
}
