// Interrupts reads and writes of the standard streams of the program that this is preloaded into, as signals would: of the calls on
// each descriptor from 0 to 2 every second one, from the first on, moves nothing and fails with EINTR. For each of them an 'r' or a 'w'
// is written to the descriptor whose number stands in TOLD.

#define _GNU_SOURCE
#include <errno.h>
#include <stdatomic.h>
#include <stdlib.h>
#include <sys/syscall.h>
#include <sys/uio.h>
#include <unistd.h>

static int told = -1;
static atomic_uint calls[3];

__attribute__((constructor)) static void read_settings(void) {
    const char *descriptor = getenv("TOLD");
    if (descriptor)
        told = atoi(descriptor);
}

static int is_interrupted(int descriptor, const char *kind) {
    if (told < 0 || descriptor < 0 || descriptor > 2)
        return 0;
    if (atomic_fetch_add(&calls[descriptor], 1) % 2 != 0)
        return 0;
    long ignored = syscall(SYS_write, told, kind, 1);
    (void)ignored;
    errno = EINTR;
    return 1;
}

ssize_t read(int descriptor, void *bytes, size_t size) {
    return is_interrupted(descriptor, "r") ? -1 : syscall(SYS_read, descriptor, bytes, size);
}

ssize_t readv(int descriptor, const struct iovec *pieces, int count) {
    return is_interrupted(descriptor, "r") ? -1 : syscall(SYS_readv, descriptor, pieces, count);
}

ssize_t write(int descriptor, const void *bytes, size_t size) {
    return is_interrupted(descriptor, "w") ? -1 : syscall(SYS_write, descriptor, bytes, size);
}

ssize_t writev(int descriptor, const struct iovec *pieces, int count) {
    return is_interrupted(descriptor, "w") ? -1 : syscall(SYS_writev, descriptor, pieces, count);
}
