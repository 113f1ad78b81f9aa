/* The heap of the library: the three functions that the proved code calls, over the C library's heap or the caller's. */
#include "avcdec.h"

#include <stdlib.h>

static const avcdec_heap of_c = {malloc, realloc, free};
static avcdec_heap heap = {malloc, realloc, free};

void avcdec_use_heap(const avcdec_heap *chosen) {
    heap = chosen ? *chosen : of_c;
}

/* Whether there is memory, and where; it is never null. */
struct tried {
    bool ok;
    void *block;
};

struct tried rattle_alloc(size_t size, size_t align);
struct tried rattle_realloc(void *block, size_t kept, size_t size, size_t align);
void rattle_dealloc(void *block);

static struct tried tell(void *block) {
    static char nothing;
    struct tried tried = {block != NULL, block ? block : &nothing};
    return tried;
}

/* No bytes are asked for as `align` bytes: then null always means that there is no memory. */
struct tried rattle_alloc(size_t size, size_t align) {
    return tell(heap.allocate(size ? size : align));
}

struct tried rattle_realloc(void *block, size_t kept, size_t size, size_t align) {
    (void)kept;
    return tell(heap.reallocate(block, size ? size : align));
}

void rattle_dealloc(void *block) {
    heap.release(block);
}
