/* Memory for the arguments of a call, which the library can read only where data was put.
 *
 * Each piece of data begins or ends beside a page that can not be accessed, and the library's view
 * of it can not be written. */
#ifndef PAGES_H
#define PAGES_H

#include "random.h"

struct pages {
    uint8_t *written; /* the view of the test */
    uint8_t *read;    /* the view of the library: the same memory */
    size_t slots_used;
};

/* Maps the memory. Ends the program where that fails. */
struct pages new_pages(void);

/* Makes all slots free. */
void clear_pages(struct pages *pages);

/* Copies data to a free slot, and returns where the library can read it: before or after a page
 * that can not be accessed. For no bytes it returns the start of such a page. */
const void *put(struct pages *pages, struct random *random, const void *data, size_t size,
                size_t alignment);

/* Maps a buffer of `size` bytes, a multiple of the page size, between two pages that can not be
 * accessed. */
uint8_t *new_buffer(size_t size);

#endif
