/* A function in C as a classifier of the kernel's. SOURCE is the file of its text, LENT the bytes
 * that it is lent, and ARGUMENTS says which of its three arguments it takes. The kernel gives a
 * classifier its struct __sk_buff, and wants to see that the frame is as long. */
struct context {
    unsigned others[19], data, data_end;
};

static unsigned long function();
#define filter function
#include SOURCE
#undef filter

unsigned long filter(const struct context *context) {
    void *frame = (void *)(long)context->data;
    if ((char *)frame + LENT > (char *)(long)context->data_end) return 0;
    return function(ARGUMENTS);
}
