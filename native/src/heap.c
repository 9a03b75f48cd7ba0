/* The heap of the library: defines the three symbols that the archive leaves undefined, over the
 * heap of the C library. */
#include <stdbool.h>
#include <stddef.h>
#include <stdlib.h>

/* The result of an allocation. `block` is never NULL; if the allocation failed, it points to
 * `nothing`. */
struct allocation {
    bool ok;
    void *block;
};

static char nothing;

static struct allocation allocation_of(void *block) {
    struct allocation allocation = {block != NULL, block != NULL ? block : &nothing};
    return allocation;
}

/* malloc may return NULL for a size of 0 without failing, so it is never passed that size. */
static size_t at_least_one(size_t size) { return size > 0 ? size : 1; }

struct allocation rattle_alloc(size_t size, size_t alignment);
struct allocation rattle_realloc(void *block, size_t kept, size_t size, size_t alignment);
void rattle_dealloc(void *block);

/* Allocates `size` bytes. The archive passes no alignment above that of malloc. */
struct allocation rattle_alloc(size_t size, size_t alignment) {
    (void)alignment;
    return allocation_of(malloc(at_least_one(size)));
}

/* Changes the size of a block to `size` bytes, and keeps its first bytes. */
struct allocation rattle_realloc(void *block, size_t kept, size_t size, size_t alignment) {
    (void)kept;
    (void)alignment;
    return allocation_of(realloc(block, at_least_one(size)));
}

/* Frees a block. */
void rattle_dealloc(void *block) { free(block); }
