/* Answers which of so many workers, 1 to 255, an Ethernet frame of IPv4 goes to: the FNV-1a hash of its addresses, its protocol and
 * its ports, by the number of workers, which the argument gives. A frame that has no ports goes to worker 0. */
#define MIX(byte) (hash = (hash ^ (byte)) * 1099511628211ul)
unsigned long filter(const unsigned char *frame, unsigned long length, unsigned long workers) {
    if (length < 38 || frame[12] != 0x08 || frame[13] != 0x00 || frame[14] != 0x45) return 0;
    if (frame[23] != 6 && frame[23] != 17) return 0;
    unsigned long hash = 14695981039346656037ul;
    MIX(frame[23]);
#pragma GCC unroll 64
    for (int at = 26; at < 38; at++) MIX(frame[at]);
    workers &= 255;
    return workers ? hash % workers : 0;
}
