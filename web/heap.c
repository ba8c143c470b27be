/* heap.c: what the module of the page needs and no C library gives it: a heap, and arithmetic on
 * 128 bits. Compiled for wasm64 with nothing linked (build.sh); it is tested, not proved.
 *
 *   | head | room .. |   a block of 2^order bytes: 16 of its head, and the room that is handed out
 *
 * A block that is freed waits in the list of its order, for the next that wants as much. Where memory
 * is refused, a larger one is cut. */
typedef unsigned long usize;
typedef unsigned long long u64;
typedef unsigned __int128 u128;

struct head {
    u64 order;
    struct head *next;
};

#define SMALLEST 5
#define LARGEST 40
#define PAGE 16

extern unsigned char __heap_base;
static usize top;
static struct head *freed[LARGEST + 1];

/* Makes the memory end no earlier than `end`; by a quarter at least, where that is granted. */
static int grow_to(usize end) {
    usize pages = __builtin_wasm_memory_size(0);
    if (end <= pages << PAGE)
        return 1;
    usize wanted = ((end - 1) >> PAGE) + 1 - pages;
    usize more = wanted > pages / 4 ? wanted : pages / 4;
    return __builtin_wasm_memory_grow(0, more) != (usize)-1 || __builtin_wasm_memory_grow(0, wanted) != (usize)-1;
}

/* Returns a new block of an order; 0 where memory is refused. */
static struct head *new_block(unsigned order) {
    if (!top)
        top = ((usize)&__heap_base + 15) & ~(usize)15;
    usize end = top + ((usize)1 << order);
    if (!grow_to(end))
        return 0;
    struct head *block = (struct head *)top;
    block->order = order;
    top = end;
    return block;
}

static void put(struct head *block, unsigned order) {
    block->order = order;
    block->next = freed[order];
    freed[order] = block;
}

/* Returns the first block of the list of an order; 0 where it has none. */
static struct head *first_of(unsigned order) {
    struct head *block = freed[order];
    if (block)
        freed[order] = block->next;
    return block;
}

/* Returns a block of an order that is cut from a larger one that was freed; 0 where there is none. */
static struct head *cut_block(unsigned order) {
    for (unsigned larger = order + 1; larger <= LARGEST; larger++) {
        struct head *block = first_of(larger);
        if (!block)
            continue;
        while (larger-- > order)
            put((struct head *)((unsigned char *)block + ((usize)1 << larger)), larger);
        block->order = order;
        return block;
    }
    return 0;
}

/* Returns room for n bytes at a multiple of 16; 0 where memory is refused. */
static void *take(usize n) {
    unsigned order = SMALLEST;
    while (order <= LARGEST && ((usize)1 << order) - sizeof(struct head) < n)
        order++;
    if (order > LARGEST)
        return 0;
    struct head *block = first_of(order);
    if (!block)
        block = new_block(order);
    if (!block)
        block = cut_block(order);
    return block ? block + 1 : 0;
}

static void give_back(void *p) { put((struct head *)p - 1, ((struct head *)p - 1)->order); }

static usize room_of(void *p) { return ((usize)1 << ((struct head *)p - 1)->order) - sizeof(struct head); }

/* What the kit's liblibc_c.a has over malloc: whether there is room, and where; room for no bytes
 * is room for `align` of them, which divides 16. */
struct tried {
    u64 ok;
    void *p;
};

static unsigned char nothing[16] __attribute__((aligned(16)));

static struct tried told(void *p) { return (struct tried){p != 0, p ? p : nothing}; }

struct tried rattle_alloc(usize n, usize align) { return told(take(n ? n : align)); }

struct tried rattle_realloc(void *p, usize kept, usize n, usize align) {
    usize wanted = n ? n : align;
    if (room_of(p) >= wanted)
        return told(p);
    void *to = take(wanted);
    if (to) {
        __builtin_memcpy(to, p, kept);
        give_back(p);
    }
    return told(to);
}

void rattle_dealloc(void *p) { give_back(p); }

/* Room for the texts that the page writes and reads. */
void *mcs_take(usize n) { return take(n); }
void mcs_give_back(void *p) { give_back(p); }

/* 128 bits, as compiler-rt has them: shifted, multiplied and divided in halves, since clang would
 * make calls of these very functions of the operators. */
typedef union {
    u128 all;
    struct {
        u64 low, high;
    };
} wide;

u128 __ashlti3(u128 a, int n) {
    wide w = {a};
    if (n >= 64)
        w.high = w.low << (n - 64), w.low = 0;
    else if (n)
        w.high = w.high << n | w.low >> (64 - n), w.low <<= n;
    return w.all;
}

u128 __lshrti3(u128 a, int n) {
    wide w = {a};
    if (n >= 64)
        w.low = w.high >> (n - 64), w.high = 0;
    else if (n)
        w.low = w.low >> n | w.high << (64 - n), w.high >>= n;
    return w.all;
}

u128 __multi3(u128 a, u128 b) {
    wide x = {a}, y = {b}, w;
    u64 x0 = (unsigned)x.low, x1 = x.low >> 32, y0 = (unsigned)y.low, y1 = y.low >> 32;
    u64 none = x0 * y0, one = x0 * y1, other = x1 * y0;
    u64 middle = (none >> 32) + (unsigned)one + (unsigned)other;
    w.low = middle << 32 | (unsigned)none;
    w.high = x1 * y1 + (one >> 32) + (other >> 32) + (middle >> 32) + x.low * y.high + x.high * y.low;
    return w.all;
}

/* Divides bit by bit; the rest is left in n. */
static wide divided(wide *n, wide d) {
    wide q = {0}, r = {0};
    for (int i = 127; i >= 0; i--) {
        r.high = r.high << 1 | r.low >> 63;
        r.low = r.low << 1 | ((i >= 64 ? n->high >> (i - 64) : n->low >> i) & 1);
        if (r.high > d.high || (r.high == d.high && r.low >= d.low)) {
            r.high = r.high - d.high - (r.low < d.low);
            r.low -= d.low;
            if (i >= 64)
                q.high |= 1ull << (i - 64);
            else
                q.low |= 1ull << i;
        }
    }
    *n = r;
    return q;
}

u128 __udivti3(u128 a, u128 b) {
    wide n = {a}, d = {b};
    if (!n.high && !d.high)
        return n.low / d.low;
    return divided(&n, d).all;
}

u128 __umodti3(u128 a, u128 b) {
    wide n = {a}, d = {b};
    if (!n.high && !d.high)
        return n.low % d.low;
    divided(&n, d);
    return n.all;
}
