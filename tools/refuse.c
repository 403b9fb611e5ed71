// Refuses a program's requests for memory, for tools/refuse: loaded before the C library, it counts what is asked of the
// heap in a page that it shares with the tool, and answers the requests that the page names with none.
#define _GNU_SOURCE
#include <errno.h>
#include <fcntl.h>
#include <stdint.h>
#include <stdlib.h>
#include <sys/mman.h>
#include <unistd.h>

// What the tool and the program tell each other. Requests are counted from 1.
struct page {
    uint64_t first; // the first request that is refused
    uint64_t last;  // and the last one
    uint64_t count; // how many were made
};

static struct page *page;

__attribute__((constructor)) static void begin(void) {
    const char *name = getenv("REFUSE_PAGE");
    int file = name ? open(name, O_RDWR) : -1;
    if (file < 0)
        _exit(125);
    void *place = mmap(NULL, sizeof *page, PROT_READ | PROT_WRITE, MAP_SHARED, file, 0);
    close(file);
    if (place == MAP_FAILED)
        _exit(125);
    page = place;
}

// Counts a request, and tells whether it is to be refused.
static int refused(void) {
    if (!page)
        return 0;
    page->count++;
    if (page->count < page->first || page->last < page->count)
        return 0;
    errno = ENOMEM;
    return 1;
}

void *__libc_malloc(size_t);
void *__libc_calloc(size_t, size_t);
void *__libc_realloc(void *, size_t);
void *__libc_memalign(size_t, size_t);

void *malloc(size_t size) { return refused() ? NULL : __libc_malloc(size); }

void *calloc(size_t count, size_t size) { return refused() ? NULL : __libc_calloc(count, size); }

void *realloc(void *old, size_t size) { return refused() ? NULL : __libc_realloc(old, size); }

void *aligned_alloc(size_t alignment, size_t size) {
    return refused() ? NULL : __libc_memalign(alignment, size);
}

int posix_memalign(void **place, size_t alignment, size_t size) {
    void *found = refused() ? NULL : __libc_memalign(alignment, size);
    if (!found)
        return ENOMEM;
    *place = found;
    return 0;
}
