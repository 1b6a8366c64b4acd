// The heap of the page, in the place of the toolchain's over malloc. A block has a size class, a power of two from 32 bytes on, which
// stands in the 16 bytes before it. Freed blocks wait in a list for each class; new ones are cut from the end of memory, which grows
// by a quarter at a time. No proof covers it.
typedef unsigned long long u64;
typedef unsigned char u8;
typedef __SIZE_TYPE__ usize;

typedef struct {
    u64 ok, at;
} Tried;

typedef struct Block {
    u64 class;
    _Alignas(8) struct Block *next;
} Block;

extern u8 __heap_base;
static u64 end, limit;
static Block *freed[48];

#define PAGE 65536ULL

static _Bool grow(u64 need) {
    u64 pages = (need - limit + PAGE - 1) / PAGE, more = limit / PAGE / 4;
    if (pages < more && __builtin_wasm_memory_grow(0, more) != ~(usize)0) {
        limit += more * PAGE;
        return 1;
    }
    if (__builtin_wasm_memory_grow(0, pages) == ~(usize)0) {
        return 0;
    }
    limit += pages * PAGE;
    return 1;
}

static u64 class_of(u64 n) {
    return n <= 16 ? 5 : 64 - (u64)__builtin_clzll(n + 15);
}

static u8 *allocate(u64 n) {
    if (n > 1ULL << 30) {
        return 0;
    }
    u64 class = class_of(n);
    Block *block = freed[class];
    if (block) {
        freed[class] = block->next;
        return (u8 *)(block + 1);
    }
    if (!end) {
        end = ((usize)&__heap_base + 15) & ~15ULL;
        limit = __builtin_wasm_memory_size(0) * PAGE;
    }
    u64 next = end + (1ULL << class);
    if (next > limit && !grow(next)) {
        return 0;
    }
    block = (Block *)(usize)end;
    end = next;
    block->class = class;
    return (u8 *)(block + 1);
}

static void release(u8 *at) {
    Block *block = (Block *)at - 1;
    block->next = freed[block->class];
    freed[block->class] = block;
}

static Tried tried(u8 *at) {
    Tried tried = {at != 0, (usize)at};
    return tried;
}

Tried rattle_alloc(u64 n, u64 align) {
    return tried(allocate(n ? n : align));
}

void rattle_dealloc(u8 *at) {
    release(at);
}

Tried rattle_realloc(u8 *at, u64 kept, u64 n, u64 align) {
    if (class_of(n) == ((Block *)at - 1)->class) {
        return tried(at);
    }
    u8 *to = allocate(n);
    if (to) {
        __builtin_memcpy(to, at, kept);
        release(at);
    }
    return tried(to);
}

// Room for the texts that the page hands over.
__attribute__((export_name("room"))) u64 room(u64 n) {
    return (u64)(usize)allocate(n);
}

__attribute__((export_name("done"))) void done(u64 at) {
    release((u8 *)(usize)at);
}

int bcmp(const void *a, const void *b, usize n) {
    const u8 *x = a, *y = b;
    for (usize i = 0; i < n; i++) {
        if (x[i] != y[i]) {
            return 1;
        }
    }
    return 0;
}

int memcmp(const void *a, const void *b, usize n) {
    const u8 *x = a, *y = b;
    for (usize i = 0; i < n; i++) {
        if (x[i] != y[i]) {
            return x[i] - y[i];
        }
    }
    return 0;
}

// The low 128 bits of a product, which LLVM calls for a product that is looked at for overflow.
typedef unsigned __int128 u128;

typedef union {
    u128 whole;
    struct {
        u64 low, high;
    };
} Halves;

u128 __multi3(u128 x, u128 y) {
    Halves a = {x}, b = {y}, product;
    u64 mask = 0xffffffff, a0 = a.low & mask, a1 = a.low >> 32, b0 = b.low & mask, b1 = b.low >> 32;
    u64 first = a0 * b0, second = a1 * b0 + (first >> 32), third = a0 * b1 + (second & mask);
    product.low = third << 32 | (first & mask);
    product.high = a1 * b1 + (second >> 32) + (third >> 32) + a.low * b.high + a.high * b.low;
    return product.whole;
}
