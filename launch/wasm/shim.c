/* What a program's module needs of a C library and of Linux, over four functions that the page gives: words, files, output. Freestanding C for wasm32.

   The contracts are those of the toolchain's rattle/libc/src/lib.rt, rattle/libc/src/heap.rt and rattle/os/src/c.rt. Nothing proves that this code meets them. */
typedef unsigned char u8;
typedef unsigned long long u64;
typedef long long i64;
typedef __SIZE_TYPE__ size;

#define HOST(name) __attribute__((import_module("host"), import_name(#name)))
/* Puts as much of argument i as fits at `to`, and returns its length, or -1 where there is none. */
HOST(word) int host_word(int i, void *to, int room);
/* Returns the number of the file of this name, or -1 where there is none. */
HOST(open) int host_open(const void *name, int length);
/* Reads on in a file, and returns how many bytes; 0 is its end. */
HOST(read) int host_read(int file, void *to, int room);
/* Takes output: stream 1 or 2. Returns how many bytes, or -1 where the page takes no more. */
HOST(write) int host_write(int stream, const void *from, int length);

enum { EBADF = 9, ENOENT = 2, ENOSPC = 28, EROFS = 30, MOST_AT_ONCE = 1 << 30 };
static int error;
int rattle_errno(void) { return error; }
void rattle_set_errno(int it) { error = it; }
static i64 fails(int why) {
    error = why;
    return -1;
}
static int at_most(u64 n) { return n > MOST_AT_ONCE ? MOST_AT_ONCE : (int)n; }

/* The heap. There are four sizes of blocks for each power of two, and a list of free blocks for each. New blocks come from the end of the memory. */
#define PAGE 65536ull
#define LARGEST (1ull << 40)
enum { SIZES = 256, HEAD = 16, ALIGNED = 16 };
/* What stands before the bytes that the caller gets. Only a free block has a next one. */
typedef struct Block {
    u64 kind;
    struct Block *next;
} Block;
extern u8 __heap_base;
static u64 end_of_heap, end_of_memory;
static Block *free_blocks[SIZES];
/* The most memory in bytes. */
static u64 most = ~0ull;

/* 32, 48, 48, 64, 64, 80, 96, 112, 128, 160, .. */
static u64 size_of(u64 kind) { return (((4 + (kind & 3)) << (kind >> 2) << 3) + 15) & ~15ull; }

/* The first kind whose blocks have n bytes. */
static int kind_of(u64 n) {
    int kind = 0;
    if (n > 32) {
        int log = 63 - __builtin_clzll(n - 1);
        kind = (log - 5) * 4 + (int)(((n - 1) >> (log - 2)) & 3) + 1;
    }
    while (kind > 0 && size_of(kind - 1) >= n) kind--;
    while (size_of(kind) < n) kind++;
    return kind;
}

static int grow(u64 pages) {
    if (end_of_memory + pages * PAGE > most || __builtin_wasm_memory_grow(0, (size)pages) == (size)-1) return 0;
    end_of_memory += pages * PAGE;
    return 1;
}

/* Whether the heap may go on for so many bytes. */
static int reach(u64 more) {
    if (!end_of_heap) {
        end_of_heap = ((u64)(size)&__heap_base + 15) & ~15ull;
        end_of_memory = __builtin_wasm_memory_size(0) * PAGE;
    }
    u64 wanted = end_of_heap + more;
    if (wanted < more || wanted > most) return 0;
    if (wanted <= end_of_memory) return 1;
    u64 needed = (wanted - end_of_memory + PAGE - 1) / PAGE, quarter = end_of_memory / PAGE / 4;
    /* (by a quarter, so that the memory grows seldom) */
    return (quarter > needed && grow(quarter)) || grow(needed);
}

static void *allocate(u64 n) {
    if (n > LARGEST) return 0;
    int kind = kind_of(n + HEAD);
    Block *block = free_blocks[kind];
    if (block) {
        free_blocks[kind] = block->next;
    } else {
        if (!reach(size_of(kind))) return 0;
        block = (Block *)(size)end_of_heap;
        end_of_heap += size_of(kind);
        block->kind = kind;
    }
    return (u8 *)block + HEAD;
}

static Block *block_of(void *p) { return (Block *)((u8 *)p - HEAD); }
static int is_last(Block *block) { return (u64)(size)block + size_of(block->kind) == end_of_heap; }

static void release(void *p) {
    if (!p) return;
    Block *block = block_of(p);
    if (is_last(block)) {
        end_of_heap -= size_of(block->kind);
        return;
    }
    block->next = free_blocks[block->kind];
    free_blocks[block->kind] = block;
}

static void *resize(void *p, u64 n) {
    if (!p) return allocate(n);
    if (n > LARGEST) return 0;
    Block *block = block_of(p);
    u64 was = size_of(block->kind), kind = kind_of(n + HEAD), now = size_of(kind);
    if (kind == block->kind) return p;
    if (is_last(block) && now > was) { /* it grows where it is */
        if (!reach(now - was)) return 0;
        end_of_heap += now - was;
        block->kind = kind;
        return p;
    }
    void *q = allocate(n);
    if (!q) return 0;
    __builtin_memcpy(q, p, (size)(was < now ? was - HEAD : n));
    release(p);
    return q;
}

/* Whether there is a block, and where; the address is in the lower half of the second word. */
typedef struct {
    u64 is_there, at;
} Tried;
static u64 nothing[2];
static Tried tried(void *p) { return (Tried){p != 0, (u64)(size)(p ? p : nothing)}; }
Tried rattle_alloc(u64 n, u64 align) { return tried(align > ALIGNED ? 0 : allocate(n ? n : align)); }
Tried rattle_realloc(void *p, u64 kept, u64 n, u64 align) {
    (void)kept;
    return tried(align > ALIGNED ? 0 : resize(p, n ? n : align));
}
void rattle_dealloc(void *p) { release(p); }

/* Arguments, and an environment with nothing in it. */
i64 rattle_arg(u64 i, void *to, u64 room) {
    if (i > 4096) return -1;
    int n = host_word((int)i, to, at_most(room));
    return n < 0 ? -1 : (u64)n > room ? -2 : n;
}
i64 rattle_env(void *name, void *to, u64 room) {
    (void)name, (void)to, (void)room;
    return -1;
}
i64 rattle_env_at(u64 i, void *to, u64 room) {
    (void)i, (void)to, (void)room;
    return -1;
}

/* Files, which are read alone: file n of the page is number n + 3. Standard input is empty. */
int open(const char *name, int flags, ...) {
    int length = 0;
    while (name[length]) length++;
    if (flags & 3) return (int)fails(EROFS);
    int file = host_open(name, length);
    return file < 0 ? (int)fails(ENOENT) : file + 3;
}
i64 read(int number, void *to, u64 room) {
    if (number == 0) return 0;
    return number < 3 ? fails(EBADF) : host_read(number - 3, to, at_most(room));
}
i64 write(int number, const void *from, u64 n) {
    if (number != 1 && number != 2) return fails(EBADF);
    int done = host_write(number, from, at_most(n));
    return done < 0 ? fails(ENOSPC) : done;
}
int close(int number) {
    (void)number;
    return 0;
}
i64 __sysv_signal(int number, i64 how) {
    (void)number, (void)how;
    return 0;
}

/* Runs the program with at most `limit` bytes of memory, or as many as there are for 0. Returns its exit status. */
int main(void);
int run(u64 limit) {
    if (limit) most = limit;
    return main();
}

/* Sums on 128-bit numbers that clang calls by name: a product, and shifts by 0 to 127. */
typedef unsigned __int128 u128;
typedef union {
    u128 whole;
    struct {
        u64 low, high;
    };
} Halves;
u128 __multi3(u128 x, u128 y) {
    Halves a = {x}, b = {y}, product;
    u64 a0 = a.low & 0xffffffff, a1 = a.low >> 32, b0 = b.low & 0xffffffff, b1 = b.low >> 32;
    u64 first = a0 * b0, second = a1 * b0 + (first >> 32), third = a0 * b1 + (second & 0xffffffff);
    product.low = third << 32 | (first & 0xffffffff);
    product.high = a1 * b1 + (second >> 32) + (third >> 32) + a.low * b.high + a.high * b.low;
    return product.whole;
}
u128 __ashlti3(u128 x, int n) {
    Halves a = {x}, shifted;
    if (n == 0) return x;
    shifted.low = n < 64 ? a.low << n : 0;
    shifted.high = n < 64 ? a.high << n | a.low >> (64 - n) : a.low << (n - 64);
    return shifted.whole;
}
u128 __lshrti3(u128 x, int n) {
    Halves a = {x}, shifted;
    if (n == 0) return x;
    shifted.high = n < 64 ? a.high >> n : 0;
    shifted.low = n < 64 ? a.low >> n | a.high << (64 - n) : a.high >> (n - 64);
    return shifted.whole;
}
