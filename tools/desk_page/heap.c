// The heap of the module, over memory.grow, and the products and shifts of 128 bits that compiled code calls by name.
// Blocks have 16, 32, 48, 64, 96, 128, .. bytes with their head, and go back to the list of their size. The module has
// one thread. Nothing of this is proved: it stands where the C library's malloc does in the program.
typedef unsigned long u64;
typedef unsigned __int128 u128;
typedef struct { u64 ok; void *at; } Tried;
typedef union { u128 whole; struct { u64 low, high; } half; } Halves;

extern unsigned char __heap_base;
static u64 next, end;
static void *lists[128];
static char nothing[16] __attribute__((aligned(16)));

static int class_of(u64 n, u64 *size) {
    if (n < 16) n = 16;
    int top = 63 - __builtin_clzl(n);
    u64 low = 1UL << top, middle = low + (low >> 1);
    if (n == low) { *size = low; return 2 * top; }
    if (n <= middle && low >= 32) { *size = middle; return 2 * top + 1; }
    *size = low << 1;
    return 2 * top + 2;
}

void *desk_alloc(u64 n) {
    if (n > (1UL << 40)) return 0;
    u64 size;
    int class = class_of(n + 16, &size);
    if (lists[class]) { void **block = lists[class]; lists[class] = *block; return block; }
    if (!next) { next = ((u64)&__heap_base + 15) & ~15UL; end = __builtin_wasm_memory_size(0) << 16; }
    if (end - next < size) {
        u64 pages = (size - (end - next) + 65535) >> 16;
        if (pages < 16) pages = 16;
        if (__builtin_wasm_memory_grow(0, pages) == (u64)-1) return 0;
        end += pages << 16;
    }
    u64 at = next;
    next += size;
    ((u64 *)at)[0] = class;
    ((u64 *)at)[1] = size - 16;
    return (void *)(at + 16);
}

void desk_free(void *p) {
    if (!p || p == nothing) return;
    u64 class = ((u64 *)p)[-2];
    *(void **)p = lists[class];
    lists[class] = p;
}

Tried rattle_alloc(u64 n, u64 align) {
    void *p = desk_alloc(n ? n : align);
    return (Tried){p != 0, p ? p : nothing};
}

Tried rattle_realloc(void *p, u64 kept, u64 n, u64 align) {
    u64 want = n ? n : align, has = ((u64 *)p)[-1];
    if (want <= has && want * 4 >= has) return (Tried){1, p};
    void *q = desk_alloc(want);
    if (!q) return (Tried){0, nothing};
    __builtin_memcpy(q, p, kept < want ? kept : want);
    desk_free(p);
    return (Tried){1, q};
}

void rattle_dealloc(void *p) { desk_free(p); }

static Halves product(u64 a, u64 b) {
    u64 a0 = a & 0xffffffff, a1 = a >> 32, b0 = b & 0xffffffff, b1 = b >> 32;
    u64 low = a0 * b0, one = a1 * b0 + (low >> 32), two = a0 * b1 + (one & 0xffffffff);
    Halves r;
    r.half.low = (two << 32) | (low & 0xffffffff);
    r.half.high = a1 * b1 + (one >> 32) + (two >> 32);
    return r;
}

u128 __multi3(u128 a, u128 b) {
    Halves x = {a}, y = {b}, r = product(x.half.low, y.half.low);
    r.half.high += x.half.low * y.half.high + x.half.high * y.half.low;
    return r.whole;
}

u128 __ashlti3(u128 a, int by) {
    Halves x = {a}, r;
    if (by >= 64) { r.half.low = 0; r.half.high = x.half.low << (by - 64); }
    else if (by == 0) r = x;
    else { r.half.low = x.half.low << by; r.half.high = (x.half.high << by) | (x.half.low >> (64 - by)); }
    return r.whole;
}

u128 __lshrti3(u128 a, int by) {
    Halves x = {a}, r;
    if (by >= 64) { r.half.high = 0; r.half.low = x.half.high >> (by - 64); }
    else if (by == 0) r = x;
    else { r.half.high = x.half.high >> by; r.half.low = (x.half.low >> by) | (x.half.high << (64 - by)); }
    return r.whole;
}

int memcmp(const void *a, const void *b, u64 n) {
    const unsigned char *x = a, *y = b;
    for (u64 i = 0; i < n; i++) if (x[i] != y[i]) return x[i] < y[i] ? -1 : 1;
    return 0;
}

int bcmp(const void *a, const void *b, u64 n) { return memcmp(a, b, n); }
