/* Preloaded, counts the allocations of a program, and makes the one fail whose number FAILING_ALLOCATION gives. Their
 * number is written to the file that ALLOCATION_COUNT names. Over the GNU C library. */
#include <errno.h>
#include <stdio.h>
#include <stdlib.h>

extern void *__libc_malloc(size_t);
extern void *__libc_calloc(size_t, size_t);
extern void *__libc_realloc(void *, size_t);
extern void *__libc_memalign(size_t, size_t);

static unsigned long calls, fails;

__attribute__((constructor)) static void begin(void) {
    const char *number = getenv("FAILING_ALLOCATION");
    fails = number ? strtoul(number, 0, 10) : 0;
    calls = 0;
}

__attribute__((destructor)) static void end(void) {
    unsigned long made = calls;
    const char *path = getenv("ALLOCATION_COUNT");
    FILE *file = path ? fopen(path, "w") : 0;
    if (file) {
        fprintf(file, "%lu\n", made);
        fclose(file);
    }
}

static int fails_now(void) {
    if (++calls != fails) {
        return 0;
    }
    errno = ENOMEM;
    return 1;
}

void *malloc(size_t size) {
    return fails_now() ? 0 : __libc_malloc(size);
}

void *calloc(size_t count, size_t size) {
    return fails_now() ? 0 : __libc_calloc(count, size);
}

void *realloc(void *old, size_t size) {
    return fails_now() ? 0 : __libc_realloc(old, size);
}

void *aligned_alloc(size_t align, size_t size) {
    return fails_now() ? 0 : __libc_memalign(align, size);
}

int posix_memalign(void **out, size_t align, size_t size) {
    void *made = fails_now() ? 0 : __libc_memalign(align, size);
    if (!made) {
        return ENOMEM;
    }
    *out = made;
    return 0;
}
