/* What the program's module for wasm64 lacks. The heap: rattle_alloc, rattle_realloc and rattle_dealloc, which the kit's libc/c/heap.c defines over the C
   library's malloc, are defined here over the module's own memory. Blocks of 2^k bytes, each with a header of 16, in free lists by k. */
typedef unsigned long size_t;
typedef unsigned char byte;

struct tried { size_t ok; byte *p; };
struct head { size_t order; struct head *next; };

#define PAGE 65536ul
extern byte __heap_base;
static struct head *free_of[64];
static byte *top, *end;

static byte *take(size_t order) {
    size_t size = 1ul << order;
    if (free_of[order]) {
        struct head *h = free_of[order];
        free_of[order] = h->next;
        return (byte *)h;
    }
    if (!top) {
        top = (byte *)(((size_t)&__heap_base + 15) & ~15ul);
        end = (byte *)(__builtin_wasm_memory_size(0) * PAGE);
    }
    if ((size_t)(end - top) < size) {
        size_t pages = (size - (size_t)(end - top) + PAGE - 1) / PAGE;
        if (__builtin_wasm_memory_grow(0, pages) == (size_t)-1)
            return 0;
        end += pages * PAGE;
    }
    byte *at = top;
    top += size;
    return at;
}

static size_t order_of(size_t n) {
    size_t whole = n + 16;
    size_t order = 5;
    while ((1ul << order) < whole)
        order++;
    return order;
}

struct tried rattle_alloc(size_t n, size_t align) {
    struct tried t = {0, 0};
    if (n > (1ul << 40))
        return t;
    size_t order = order_of(n);
    struct head *h = (struct head *)take(order);
    if (!h)
        return t;
    h->order = order;
    t.ok = 1;
    t.p = (byte *)h + 16;
    return t;
}

void rattle_dealloc(byte *p) {
    if (!p)
        return;
    struct head *h = (struct head *)(p - 16);
    h->next = free_of[h->order];
    free_of[h->order] = h;
}

struct tried rattle_realloc(byte *p, size_t kept, size_t n, size_t align) {
    struct head *h = (struct head *)(p - 16);
    if (n + 16 <= (1ul << h->order)) {
        struct tried same = {1, p};
        return same;
    }
    struct tried t = rattle_alloc(n, align);
    if (t.ok) {
        __builtin_memcpy(t.p, p, kept);
        rattle_dealloc(p);
    }
    return t;
}

/* What clang calls. */
void *memcpy(void *d, const void *s, size_t n) { __builtin_memcpy(d, s, n); return d; }
void *memmove(void *d, const void *s, size_t n) { __builtin_memmove(d, s, n); return d; }
void *memset(void *d, int c, size_t n) { __builtin_memset(d, c, n); return d; }
int memcmp(const void *a, const void *b, size_t n) {
    const byte *x = a, *y = b;
    for (size_t i = 0; i < n; i++)
        if (x[i] != y[i])
            return x[i] < y[i] ? -1 : 1;
    return 0;
}

/* Numbers of 128 bits, as compiler-rt has them. */
typedef __int128 wide;
union halves { wide all; struct { size_t low, high; } s; };

wide __multi3(wide a, wide b) {
    union halves x = {a}, y = {b}, r;
    size_t m = 0xffffffff, xl = x.s.low & m, xh = x.s.low >> 32, yl = y.s.low & m, yh = y.s.low >> 32;
    size_t ll = xl * yl, mid = xh * yl + (ll >> 32), low = xl * yh + (mid & m);
    r.s.low = (low << 32) | (ll & m);
    r.s.high = xh * yh + (mid >> 32) + (low >> 32) + x.s.high * y.s.low + x.s.low * y.s.high;
    return r.all;
}

wide __ashlti3(wide a, int by) {
    union halves x = {a}, r;
    if (by & 64) { r.s.low = 0; r.s.high = x.s.low << (by & 63); return r.all; }
    if (by == 0) return a;
    r.s.low = x.s.low << by;
    r.s.high = (x.s.high << by) | (x.s.low >> (64 - by));
    return r.all;
}

wide __lshrti3(wide a, int by) {
    union halves x = {a}, r;
    if (by & 64) { r.s.high = 0; r.s.low = x.s.high >> (by & 63); return r.all; }
    if (by == 0) return a;
    r.s.high = x.s.high >> by;
    r.s.low = (x.s.low >> by) | (x.s.high << (64 - by));
    return r.all;
}
