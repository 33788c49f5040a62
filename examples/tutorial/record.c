/* Answers the kind of a message's record: its first byte. The message's own first byte says where
 * the record begins. */
unsigned long kind(const unsigned char *message, unsigned long length) {
    unsigned long at = message[0];
    return message[at];
}
