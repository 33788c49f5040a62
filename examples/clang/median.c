/* Answers the median of the five numbers of 32 bits at the memory's start, and leaves them sorted.
 * A network of comparisons sorts without a loop and without an index that isn't constant. */
#define SORTED(a, b) do { unsigned low = a < b ? a : b, high = a < b ? b : a; a = low; b = high; } while (0)
unsigned long filter(unsigned *reading, unsigned long length) {
    if (length < 20) return 0;
    unsigned a = reading[0], b = reading[1], c = reading[2], d = reading[3], e = reading[4];
    SORTED(a, b); SORTED(d, e); SORTED(c, e); SORTED(c, d); SORTED(a, d);
    SORTED(a, c); SORTED(b, e); SORTED(b, d); SORTED(b, c);
    reading[0] = a; reading[1] = b; reading[2] = c; reading[3] = d; reading[4] = e;
    return c;
}
