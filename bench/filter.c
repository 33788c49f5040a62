/* Answers 1 for an Ethernet frame of IPv4 with a header of 20 bytes, which is no fragment and
 * holds a TCP segment for port 443, and else 0. A frame has 60 bytes at least, as on a wire, so no
 * length is tested: DPDK's machine is given none. */
unsigned long filter(const unsigned char *frame) {
    if (frame[12] != 0x08 || frame[13] != 0x00) return 0;    /* EtherType: IPv4 */
    if (frame[14] != 0x45) return 0;                         /* version 4, a header of 20 bytes */
    if ((frame[20] & 0x3f) != 0 || frame[21] != 0) return 0; /* "more fragments", and the offset */
    if (frame[23] != 6) return 0;                            /* TCP */
    return ((unsigned long)frame[36] << 8 | frame[37]) == 443;
}
