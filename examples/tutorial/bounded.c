/* The same, with a test against the need. A record outside of it has kind 0. */
unsigned long kind(const unsigned char *message, unsigned long length) {
    unsigned long at = message[0];
    if (at > 63) return 0;
    return message[at];
}
