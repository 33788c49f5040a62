/* The heap of the module: what std's Global calls, on memory above __heap_base.
 *
 * Blocks are of a power of two of bytes from 16 on. Each has 16 bytes ahead of it that keep which, so
 * all are aligned to 16. A block that is given back waits in the list of its size. The memory grows
 * as it must and never shrinks. */
typedef unsigned long u64;

struct tried {
    _Bool ok;
    void *p;
};

struct head {
    u64 size_class;
    struct head *next;
};

extern unsigned char __heap_base;
static struct head *free_blocks[64];
static u64 top, end;
static unsigned char nothing;

/* Makes sure of so many bytes from `top` on. */
static _Bool has_room(u64 want) {
    if (!top) {
        top = ((u64)&__heap_base + 15) & ~15ul;
        end = (u64)__builtin_wasm_memory_size(0) << 16;
    }
    if (want <= end - top)
        return 1;
    u64 pages = (want - (end - top) + 65535) >> 16;
    if (__builtin_wasm_memory_grow(0, pages) == (u64)-1)
        return 0;
    end += pages << 16;
    return 1;
}

static void *take(u64 n) {
    u64 c = n <= 16 ? 4 : 64 - (u64)__builtin_clzl(n - 1);
    if (c > 40)
        return 0;
    struct head *h = free_blocks[c];
    if (h) {
        free_blocks[c] = h->next;
        return h + 1;
    }
    u64 want = sizeof(struct head) + (1ul << c);
    if (!has_room(want))
        return 0;
    h = (struct head *)top;
    top += want;
    h->size_class = c;
    return h + 1;
}

struct tried rattle_alloc(u64 n, u64 align) {
    void *p = take(n ? n : align);
    return (struct tried){p != 0, p ? p : &nothing};
}

void rattle_dealloc(void *p) {
    struct head *h = (struct head *)p - 1;
    h->next = free_blocks[h->size_class];
    free_blocks[h->size_class] = h;
}

struct tried rattle_realloc(void *p, u64 kept, u64 n, u64 align) {
    struct head *h = (struct head *)p - 1;
    u64 want = n ? n : align;
    if (want <= 1ul << h->size_class)
        return (struct tried){1, p};
    void *q = take(want);
    if (!q)
        return (struct tried){0, &nothing};
    __builtin_memcpy(q, p, kept < n ? kept : n);
    rattle_dealloc(p);
    return (struct tried){1, q};
}

/* For the page: room for what a call is lent. */
__attribute__((export_name("page_alloc"))) void *page_alloc(u64 n) {
    return take(n ? n : 1);
}

__attribute__((export_name("page_free"))) void page_free(void *p) {
    rattle_dealloc(p);
}
