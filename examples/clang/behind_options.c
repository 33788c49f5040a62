/* Answers the port that a TCP or UDP datagram in an Ethernet frame of IPv4 goes to, also behind a header with options, and else 0.
 * The index comes out of the frame. It is unsigned and has 64 bits, and the very variable that is tested is the one that is used. */
unsigned long filter(const unsigned char *frame, unsigned long length) {
    if (length < 78 || frame[12] != 0x08 || frame[13] != 0x00) return 0;
    if (frame[23] != 6 && frame[23] != 17) return 0;
    unsigned long header = (frame[14] & 15ul) * 4;      /* 0 to 60 */
    if (frame[14] >> 4 != 4 || header < 20) return 0;
    const unsigned char *port = frame + 14 + header + 2;
    return (unsigned long)port[0] << 8 | port[1];
}
