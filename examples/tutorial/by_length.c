/* The same, with a test against the length that the host gives: still refused. */
unsigned long kind(const unsigned char *message, unsigned long length) {
    unsigned long at = message[0];
    if (at >= length) return 0;
    return message[at];
}
