/* Answers how many bytes the path of an HTTP request has that stands at the memory's start, as 5 for "GET /docs HTTP/1.1", and 0 where
 * there is none within 48 bytes. A machine of three states reads one byte after the other: the loop is unrolled. */
enum { METHOD, PATH, DONE };
unsigned long filter(const unsigned char *text, unsigned long length) {
    if (length < 48) return 0;
    unsigned long state = METHOD, count = 0;
#pragma GCC unroll 64
    for (int at = 0; at < 48; at++) {
        unsigned char byte = text[at];
        if (state == METHOD) {
            if (byte == ' ') state = PATH;
            else if (byte < 'A' || byte > 'Z') return 0;
        } else if (state == PATH) {
            if (byte == ' ') state = DONE;
            else if (byte < '!' || byte > '~') return 0;
            else count++;
        }
    }
    return state == DONE ? count : 0;
}
