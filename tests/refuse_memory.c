/* Refuses one request for memory of a program: loaded before the C library, it replaces malloc and the
 * other allocating functions. The variable REFUSED has the number of the request, from 1. When it comes, a
 * byte is written to the file descriptor in TOLD, which shows that there was such a request. */
#define _GNU_SOURCE
#include <errno.h>
#include <stddef.h>
#include <stdlib.h>
#include <unistd.h>

void *__libc_malloc(size_t size);
void *__libc_calloc(size_t count, size_t size);
void *__libc_realloc(void *block, size_t size);
void *__libc_memalign(size_t alignment, size_t size);

/* How many requests come before the one that is refused, and that one; none is where this is 0. */
static long left;

static int told;

static long number_in(const char *name) {
    const char *digits = getenv(name);
    return digits ? atol(digits) : 0;
}

__attribute__((constructor)) static void start(void) {
    left = number_in("REFUSED");
    told = number_in("TOLD");
}

static int is_refused(void) {
    if (left == 0 || --left != 0)
        return 0;
    while (write(told, "", 1) < 0 && errno == EINTR)
        ;
    errno = ENOMEM;
    return 1;
}

void *malloc(size_t size) {
    return is_refused() ? NULL : __libc_malloc(size);
}

void *calloc(size_t count, size_t size) {
    return is_refused() ? NULL : __libc_calloc(count, size);
}

void *realloc(void *block, size_t size) {
    return is_refused() ? NULL : __libc_realloc(block, size);
}

void *aligned_alloc(size_t alignment, size_t size) {
    return is_refused() ? NULL : __libc_memalign(alignment, size);
}

int posix_memalign(void **block, size_t alignment, size_t size) {
    void *made = is_refused() ? NULL : __libc_memalign(alignment, size);
    if (made == NULL)
        return ENOMEM;
    *block = made;
    return 0;
}
