/* heap SEED CALLS: the heap of the module natively, under random calls that are often refused: each block is aligned, apart from all
 * others, and keeps what was written there; a refusal is null and changes nothing; what is freed can be had again. The memory past what the heap
 * has asked for, and a part that another took, may not be touched: AddressSanitizer watches. */
#include <stdint.h>
#include <stdio.h>
#include <stdlib.h>
#include <string.h>
#if defined(__SANITIZE_ADDRESS__)
#include <sanitizer/asan_interface.h>
#else
#define ASAN_POISON_MEMORY_REGION(at, size) ((void)(at), (void)(size))
#define ASAN_UNPOISON_MEMORY_REGION(at, size) ((void)(at), (void)(size))
#endif

enum { MOST_PAGES = 400 };
static unsigned char *memory;
static uintptr_t pages_now = 1, pages_most = MOST_PAGES;
static uintptr_t end_of_memory(void) { return (uintptr_t)memory + pages_now * 65536; }

static int more_pages(unsigned long long pages) {
    if (pages > pages_most - pages_now)
        return 0;
    ASAN_UNPOISON_MEMORY_REGION((void *)end_of_memory(), pages * 65536);
    pages_now += pages;
    return 1;
}

#include "../make/heap.c"

static uint64_t state;
static uint64_t any(uint64_t below) {
    state = state * 6364136223846793005u + 1442695040888963407u;
    return (state >> 33) % below;
}

static struct held {
    unsigned char *at;
    size_t size;
    unsigned char mark;
} held[300];
static unsigned long passed, failed, refused, seen;

static void holds(int is_so, const char *what) {
    if (is_so) {
        passed++;
    } else if (failed++ < 10) {
        printf("failed: heap: %s\n", what);
    }
}

static int is_kept(const struct held *it, size_t size) {
    for (size_t i = 0; i < size && i < it->size; i++)
        if (it->at[i] != (unsigned char)(it->mark + i % 251))
            return 0;
    return 1;
}

static int is_apart(const struct held *it) {
    for (const struct held *other = held; other < held + 300; other++)
        if (other != it && other->at && other->at < it->at + it->size && it->at < other->at + other->size)
            return 0;
    return 1;
}

static void mark(struct held *it, size_t from) {
    if (from == 0)
        it->mark = (unsigned char)any(256);
    for (size_t i = from; i < it->size; i++)
        it->at[i] = (unsigned char)(it->mark + i % 251);
}

static size_t a_size(void) {
    uint64_t kind = any(100);
    return kind < 60 ? 1 + any(300) : kind < 96 ? 1 + any(20000) : kind < 99 ? 1 + any(1000000) : any(1ull << 50);
}

static void one(struct held *it) {
    struct tried tried;
    size_t size = a_size();
    if (!it->at) {
        tried = rattle_alloc(size, 16);
        seen++;
        if (!tried.ok) {
            refused++;
            return;
        }
        *it = (struct held){(unsigned char *)tried.block, size, 0};
        holds(tried.block % 16 == 0, "aligned");
        holds(is_apart(it), "apart from all others");
        mark(it, 0);
    } else if (any(3) == 0) {
        size_t kept = size < it->size ? size : it->size;
        tried = rattle_realloc(it->at, it->size, size, 16);
        seen++;
        if (!tried.ok) {
            refused++;
            holds(is_kept(it, it->size), "a growth that is refused leaves the block");
            return;
        }
        it->at = (unsigned char *)tried.block;
        holds(tried.block % 16 == 0, "aligned after it has grown");
        holds(is_kept(it, kept), "what was there stays");
        size_t was = it->size;
        it->size = size;
        holds(is_apart(it), "apart from all others after it has grown");
        if (size > was)
            mark(it, was);
    } else {
        holds(is_kept(it, it->size), "what was written stays");
        rattle_dealloc(it->at);
        it->at = 0;
    }
}

int main(int count, char **words) {
    state = count > 1 ? strtoull(words[1], 0, 10) : 1;
    unsigned long calls = count > 2 ? strtoul(words[2], 0, 10) : 100000;
    unsigned char *room = malloc((MOST_PAGES + 2) * 65536ul);
    memory = room + (65536 - (uintptr_t)room % 65536);
    ASAN_POISON_MEMORY_REGION((void *)end_of_memory(), (MOST_PAGES - 1) * 65536ul);
    for (unsigned long i = 0; i < calls; i++) {
        one(&held[any(300)]);
        if (i % 20000 == 10000 && pages_now < pages_most - 3) { /* another takes pages, so that a new region begins */
            ASAN_POISON_MEMORY_REGION((void *)end_of_memory(), 65536);
            pages_now++;
        }
    }
    for (struct held *it = held; it < held + 300; it++)
        if (it->at) {
            holds(is_kept(it, it->size), "what was written stays");
            rattle_dealloc(it->at);
            it->at = 0;
        }
    holds(refused > 0 && refused < seen, "some calls were refused, and some were not");
    holds(avcdec_allocate(~0ull) == 0 && avcdec_allocate(1ull << 60) == 0, "sizes without sense are refused");
    /* all that was freed is one block again, in each region */
    pages_most = pages_now;
    void *large = avcdec_allocate(65536 * 16 - 64);
    holds(large != 0, "freed blocks join");
    if (large)
        avcdec_release(large);
    ASAN_UNPOISON_MEMORY_REGION(memory, (MOST_PAGES + 1) * 65536ul - (uintptr_t)(memory - room));
    free(room);
    printf("%lu passed, %lu failed\n", passed, failed);
    return failed != 0;
}
