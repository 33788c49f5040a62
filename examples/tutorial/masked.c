/* The same, where six bits of the first byte say where the record begins. */
unsigned long kind(const unsigned char *message, unsigned long length) {
    unsigned long at = message[0] & 63;
    return message[at];
}
