/* A library that is loaded before the C library's and refuses one allocation: that of the number in the
   environment's REFUSED, counted from 1. All others are the C library's. */
#include <errno.h>
#include <stdlib.h>

extern void *__libc_malloc(size_t size);
extern void *__libc_calloc(size_t count, size_t size);
extern void *__libc_realloc(void *old, size_t size);
extern void *__libc_memalign(size_t align, size_t size);

static int begun;
static unsigned long left;

static int is_refused(void)
{
    if (!begun) {
        const char *number = getenv("REFUSED");
        left = number ? strtoul(number, NULL, 10) : 0;
        begun = 1;
    }
    if (left == 0 || --left != 0)
        return 0;
    errno = ENOMEM;
    return 1;
}

void *malloc(size_t size) { return is_refused() ? NULL : __libc_malloc(size); }

void *calloc(size_t count, size_t size) { return is_refused() ? NULL : __libc_calloc(count, size); }

void *realloc(void *old, size_t size) { return is_refused() ? NULL : __libc_realloc(old, size); }

void *memalign(size_t align, size_t size) { return is_refused() ? NULL : __libc_memalign(align, size); }

void *aligned_alloc(size_t align, size_t size) { return memalign(align, size); }

int posix_memalign(void **made, size_t align, size_t size)
{
    *made = memalign(align, size);
    return *made ? 0 : ENOMEM;
}
