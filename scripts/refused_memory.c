/* Loaded before the C library: the request for memory whose number is in REFUSED_REQUEST, from 1, is refused. Where
 * REFUSED_COUNT names a file, how many requests there were is written there at the end. */
#define _GNU_SOURCE
#include <errno.h>
#include <stdio.h>
#include <stdlib.h>

extern void *__libc_malloc(size_t size);
extern void *__libc_calloc(size_t count, size_t size);
extern void *__libc_realloc(void *old, size_t size);
extern void *__libc_memalign(size_t alignment, size_t size);

static unsigned long made, wanted;
static int counts;

static int refuses(void)
{
    if (!counts || ++made != wanted)
        return 0;
    errno = ENOMEM;
    return 1;
}

void *malloc(size_t size)
{
    return refuses() ? NULL : __libc_malloc(size);
}

void *calloc(size_t count, size_t size)
{
    return refuses() ? NULL : __libc_calloc(count, size);
}

void *realloc(void *old, size_t size)
{
    return refuses() ? NULL : __libc_realloc(old, size);
}

void *aligned_alloc(size_t alignment, size_t size)
{
    return refuses() ? NULL : __libc_memalign(alignment, size);
}

int posix_memalign(void **place, size_t alignment, size_t size)
{
    if (refuses())
        return ENOMEM;
    *place = __libc_memalign(alignment, size);
    return *place ? 0 : ENOMEM;
}

__attribute__((constructor)) static void begin(void)
{
    const char *number = getenv("REFUSED_REQUEST");

    wanted = number ? strtoul(number, NULL, 10) : 0;
    counts = 1;
}

__attribute__((destructor)) static void end(void)
{
    const char *name = getenv("REFUSED_COUNT");
    FILE *file;

    counts = 0;
    file = name ? fopen(name, "w") : NULL;
    if (file) {
        fprintf(file, "%lu\n", made);
        fclose(file);
    }
}
