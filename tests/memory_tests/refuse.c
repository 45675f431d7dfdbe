// Refuses one request for memory of the program that this is preloaded into: the one whose number, from 0, stands in REFUSED.
// Once it is refused, a byte is written to the descriptor whose number stands in TOLD. All other requests go to the C library.

#define _GNU_SOURCE
#include <errno.h>
#include <stdatomic.h>
#include <stddef.h>
#include <stdlib.h>
#include <unistd.h>

extern void *__libc_malloc(size_t);
extern void *__libc_calloc(size_t, size_t);
extern void *__libc_realloc(void *, size_t);
extern void *__libc_memalign(size_t, size_t);

static atomic_long requests;
static long refused = -1;
static int told = -1;

__attribute__((constructor)) static void read_settings(void) {
    const char *number = getenv("REFUSED");
    const char *descriptor = getenv("TOLD");
    if (number && descriptor) {
        told = atoi(descriptor);
        refused = atol(number);
        atomic_store(&requests, 0);
    }
}

static int is_refused(void) {
    if (atomic_fetch_add(&requests, 1) != refused)
        return 0;
    ssize_t ignored = write(told, "r", 1);
    (void)ignored;
    errno = ENOMEM;
    return 1;
}

void *malloc(size_t size) {
    return is_refused() ? NULL : __libc_malloc(size);
}

void *calloc(size_t count, size_t size) {
    return is_refused() ? NULL : __libc_calloc(count, size);
}

void *realloc(void *block, size_t size) {
    return is_refused() ? NULL : __libc_realloc(block, size);
}

void *aligned_alloc(size_t alignment, size_t size) {
    return is_refused() ? NULL : __libc_memalign(alignment, size);
}

int posix_memalign(void **block, size_t alignment, size_t size) {
    if (is_refused())
        return ENOMEM;
    *block = __libc_memalign(alignment, size);
    return *block ? 0 : ENOMEM;
}
