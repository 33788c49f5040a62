/* Answers 1 for an Ethernet frame of IPv4 that holds a whole UDP datagram for the port of the argument, and else 0.
 * A program gets a pointer to its part in R1, the part's length in R2 and the argument in R3, as a C function gets its first three. */
unsigned long filter(const unsigned char *frame, unsigned long length, unsigned long port) {
    if (length < 42) return 0;                                    /* too short for the headers */
    if (frame[12] != 0x08 || frame[13] != 0x00) return 0;         /* EtherType: IPv4 */
    if (frame[14] != 0x45) return 0;                              /* version 4, a header of 20 bytes */
    if ((frame[20] & 0x3f) != 0 || frame[21] != 0) return 0;      /* "more fragments", and the offset */
    if (frame[23] != 17) return 0;                                /* UDP */
    return ((unsigned long)frame[36] << 8 | frame[37]) == port;   /* the port that it goes to */
}
