#define _GNU_SOURCE
#include "pages.h"
#include <stdio.h>
#include <stdlib.h>
#include <string.h>
#include <sys/mman.h>
#include <unistd.h>

/* A slot is some pages, and then one that can not be accessed, as is the page before the first
 * slot. */
enum {
    PAGE = 4096,
    SLOT = 2 * PAGE,
    STRIDE = SLOT + PAGE,
    SLOTS = 96,
    SIZE = PAGE + SLOTS * STRIDE
};

/* Ends the program unless a system call succeeded. */
static void need(bool has_succeeded, const char *call) {
    if (has_succeeded)
        return;
    perror(call);
    exit(1);
}

static uint8_t *map(size_t size, int protection, int flags, int file) {
    void *view = mmap(NULL, size, protection, flags, file, 0);
    need(view != MAP_FAILED, "mmap");
    return view;
}

static void close_page(uint8_t *page) { need(mprotect(page, PAGE, PROT_NONE) == 0, "mprotect"); }

struct pages new_pages(void) {
    int file = memfd_create("arguments", 0);
    need(file >= 0, "memfd_create");
    need(ftruncate(file, SIZE) == 0, "ftruncate");
    struct pages pages = {map(SIZE, PROT_READ | PROT_WRITE, MAP_SHARED, file),
                          map(SIZE, PROT_READ, MAP_SHARED, file), 0};
    close(file);
    for (size_t slot = 0; slot <= SLOTS; slot++)
        close_page(pages.read + slot * STRIDE);
    return pages;
}

void clear_pages(struct pages *pages) { pages->slots_used = 0; }

const void *put(struct pages *pages, struct random *random, const void *data, size_t size,
                size_t alignment) {
    if (size > SLOT || pages->slots_used == SLOTS)
        abort();
    size_t start = PAGE + pages->slots_used++ * STRIDE;
    bool is_at_end = size == 0 || !one_in(random, 4);
    size_t index = start + (is_at_end ? (SLOT - size) / alignment * alignment : 0);
    if (size > 0)
        memcpy(pages->written + index, data, size);
    return pages->read + index;
}

uint8_t *new_buffer(size_t size) {
    uint8_t *view = map(size + 2 * PAGE, PROT_READ | PROT_WRITE, MAP_PRIVATE | MAP_ANONYMOUS, -1);
    close_page(view);
    close_page(view + PAGE + size);
    return view + PAGE;
}
