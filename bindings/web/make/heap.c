/* The heap of the WebAssembly module: the three functions that the proved code calls, over memory.grow, and two for the page. It is
 * not proved; tests/heap.c calls it natively.
 *
 * Blocks lie side by side. Before each stand its size with this head, a multiple of 16, whose bit 0 says that it is used, and the
 * size of the block before it. Free blocks hang in 48 lists, one for each power of two; blocks that were freed join their free
 * neighbours. A block of no bytes ends each region. No memory: null, and nothing has changed. */
typedef unsigned long long u64;
typedef __UINTPTR_TYPE__ address;

typedef struct block {
    u64 size, before;          /* before: 0 for the first of a region */
    struct block *next, *last; /* of a free block */
} block;

enum { HEAD = 16, LEAST = 32, LISTS = 48, PAGE = 65536, LEAST_PAGES = 16, TRIES = 32, MOST = sizeof(address) == 8 ? 40 : 31 };

static block *lists[LISTS];
static address end; /* of the last region */

static block *at(void *start, u64 distance) { return (block *)((address)start + (address)distance); }
static u64 size_of(const block *b) { return b->size & ~1ull; }
static int list_of(u64 size) { return 63 - __builtin_clzll(size); }

static void hang(block *b) {
    block **list = &lists[list_of(b->size)];
    b->last = 0;
    b->next = *list;
    if (*list)
        (*list)->last = b;
    *list = b;
}

static void unhang(block *b) {
    if (b->last)
        b->last->next = b->next;
    else
        lists[list_of(b->size)] = b->next;
    if (b->next)
        b->next->last = b->last;
}

/* Makes a free block that joins its free neighbours. */
static void give_back(block *b, u64 size) {
    block *after = at(b, size);
    if (!(after->size & 1)) {
        unhang(after);
        size += after->size;
    }
    if (b->before && !(at(b, -b->before)->size & 1)) {
        b = at(b, -b->before);
        unhang(b);
        size += b->size;
    }
    b->size = size;
    at(b, size)->before = size;
    hang(b);
}

#ifdef __wasm__
/* Where memory ends now, and whether it has so many pages more. */
static address end_of_memory(void) { return (address)__builtin_wasm_memory_size(0) * PAGE; }
static int more_pages(u64 pages) { return __builtin_wasm_memory_grow(0, (address)pages) != (address)-1; }
#endif

/* Adds memory for a block of so many bytes, with its head and that of the end. Where there are few pages left, as many as are wanted
 * and not more. */
static int grow(u64 size) {
    u64 pages = (size + 2 * HEAD + PAGE - 1) / PAGE;
    if (pages >= 1 << 22)
        return 0;
    address now = end_of_memory();
    if (pages < LEAST_PAGES && more_pages(LEAST_PAGES))
        pages = LEAST_PAGES;
    else if (!more_pages(pages))
        return 0;
    block *b;
    if (end && end == now) { /* the block that ended the last region begins what is new */
        b = at((void *)now, -(u64)HEAD);
    } else {
        b = (block *)now;
        b->before = 0;
    }
    end = now + (address)(pages * PAGE);
    size = end - (address)b - HEAD;
    at(b, size)->size = 1;
    give_back(b, size);
    return 1;
}

/* A used block of at least so many bytes with its head, cut to size. */
static block *use(block *b, u64 size) {
    u64 rest = b->size - size;
    if (rest < LEAST) {
        b->size |= 1;
    } else {
        block *more = at(b, size);
        b->size = size | 1;
        more->before = size;
        give_back(more, rest);
    }
    return b;
}

static u64 whole(u64 size) { return size <= LEAST - HEAD ? LEAST : (size + HEAD + 15) & ~15ull; }

static void *allocate(u64 size) {
    if (size >> MOST)
        return 0;
    size = whole(size);
    do {
        int list = list_of(size), tries = TRIES;
        for (block *b = lists[list]; b && tries--; b = b->next)
            if (b->size >= size) {
                unhang(b);
                return at(use(b, size), HEAD);
            }
        for (list++; list < LISTS; list++)
            if (lists[list]) {
                block *b = lists[list];
                unhang(b);
                return at(use(b, size), HEAD);
            }
    } while (grow(size));
    return 0;
}

static void release(void *start) {
    block *b = at(start, -(u64)HEAD);
    b->size &= ~1ull;
    give_back(b, b->size);
}

static void *reallocate(void *start, u64 wanted) {
    block *b = at(start, -(u64)HEAD), *after = at(b, size_of(b));
    if (wanted >> MOST)
        return 0;
    u64 size = whole(wanted), kept = size_of(b) - HEAD;
    if (size <= size_of(b))
        return start;
    if (!(after->size & 1) && size_of(b) + after->size >= size) {
        unhang(after);
        b->size = size_of(b) + after->size;
        at(b, b->size)->before = b->size;
        use(b, size);
        return start;
    }
    void *moved = allocate(wanted);
    if (moved) {
        __builtin_memcpy(moved, start, (address)kept);
        release(start);
    }
    return moved;
}

/* What the proved code calls. */
struct tried {
    u64 ok, block;
};
static struct tried tell(void *block) { return (struct tried){block != 0, block ? (address)block : 16}; }

struct tried rattle_alloc(u64 size, u64 align) {
    (void)align; /* divides 16 */
    return tell(allocate(size));
}

struct tried rattle_realloc(void *block, u64 kept, u64 size, u64 align) {
    (void)kept, (void)align;
    return tell(reallocate(block, size));
}

void rattle_dealloc(void *block) { release(block); }

/* What the page calls. */
void *avcdec_allocate(u64 size) { return allocate(size); }
void avcdec_release(void *block) { release(block); }

#ifdef __wasm__
/* A trap leaves half-written memory: no call runs after it. No store of the code reaches a global of WebAssembly. */
__asm__(".globaltype in_call, i32\nin_call:");

_Bool rattle_enter(void) {
    int was;
    __asm__ volatile("global.get in_call\nlocal.set %0" : "=r"(was));
    __asm__ volatile("i32.const 1\nglobal.set in_call");
    return was;
}

void rattle_leave(void) { __asm__ volatile("i32.const 0\nglobal.set in_call"); }
#endif
