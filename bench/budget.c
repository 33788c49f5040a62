/* A budget for filter.c, whose basic blocks each call the first function: clang puts that call
 * there (-fsanitize-coverage=trace-pc). A run whose budget is used up ends by a trap. */
unsigned long filter(const unsigned char *frame);

static long budget;

void __sanitizer_cov_trace_pc(void) {
    if (--budget < 0) __builtin_trap();
}

unsigned long within_budget(const unsigned char *frame) {
    budget = BUDGET;
    return filter(frame);
}
