// A library that is loaded before a program's own: of the program's allocations it makes one fail, the one that
// FAIL_AT numbers from 1, and makes the file FAIL_TOLD then. Every other is made as always.
#include <errno.h>
#include <fcntl.h>
#include <stddef.h>
#include <stdlib.h>
#include <unistd.h>

extern void *__libc_malloc(size_t size);
extern void *__libc_calloc(size_t count, size_t size);
extern void *__libc_realloc(void *old, size_t size);
extern void *__libc_memalign(size_t to, size_t size);

// Whether this allocation is the one that fails.
static int fails(void) {
    static long before = -1;
    if (before < 0) {
        const char *at = getenv("FAIL_AT");
        before = at ? atol(at) : 0;
    }
    if (before == 0 || --before > 0) return 0;
    const char *told = getenv("FAIL_TOLD");
    if (told) close(open(told, O_WRONLY | O_CREAT, 0600));
    errno = ENOMEM;
    return 1;
}

void *malloc(size_t size) { return fails() ? NULL : __libc_malloc(size); }

void *calloc(size_t count, size_t size) { return fails() ? NULL : __libc_calloc(count, size); }

void *realloc(void *old, size_t size) { return fails() ? NULL : __libc_realloc(old, size); }

void *memalign(size_t to, size_t size) { return fails() ? NULL : __libc_memalign(to, size); }

void *aligned_alloc(size_t to, size_t size) { return fails() ? NULL : __libc_memalign(to, size); }

int posix_memalign(void **to, size_t align, size_t size) {
    void *made = fails() ? NULL : __libc_memalign(align, size);
    if (!made) return ENOMEM;
    *to = made;
    return 0;
}
